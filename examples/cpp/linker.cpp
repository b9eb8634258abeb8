// linker EXPORTER IMPORTER: each import of the second module is looked up among the exports of the first by its own name, and linked where what is
// found may be given for it.
#include <ruthvelka.h>

#include <algorithm>
#include <cstdlib>

#include "files.hpp"

// The imports and the exports of a module, with all its names.
struct Externs {
    std::vector<ruthvelka_extern> imports, exports;
    std::string names;

    std::string module_of(const ruthvelka_extern &it) const { return names.substr(it.module_start, it.module_length); }
    std::string name_of(const ruthvelka_extern &it) const { return names.substr(it.name_start, it.name_length); }
};

// Those of a module: first how many there are, and then they. Where it isn't valid the program ends.
static Externs read_externs(const std::vector<uint8_t> &bytes) {
    ruthvelka_report report;
    Externs all;
    for (int pass = 0; pass < 2; pass++) {
        if (ruthvelka_validate_with_externs(bytes.data(), bytes.size(), RUTHVELKA_STANDARD, nullptr, 0, &report, all.imports.data(),
                all.imports.size(), all.exports.data(), all.exports.size(), all.names.empty() ? nullptr : &all.names[0], all.names.size())
            != RUTHVELKA_VALID)
            std::exit(1);
        all.imports.resize(report.imports);
        all.exports.resize(report.exports);
        all.names.resize(report.names_length);
    }
    return all;
}

int main(int count, char **names) {
    if (count != 3) {
        std::cerr << "usage: linker EXPORTER IMPORTER\n";
        return 2;
    }
    const auto given = read_file(names[1]), wanted = read_file(names[2]);
    const auto exporter = read_externs(given), importer = read_externs(wanted);
    std::vector<ruthvelka_query> queries;
    for (const auto &import : importer.imports) {
        const auto found = std::find_if(exporter.exports.begin(), exporter.exports.end(),
            [&](const ruthvelka_extern &it) { return exporter.name_of(it) == importer.name_of(import); });
        ruthvelka_query query = {};
        query.kind = RUTHVELKA_MAY_BE_GIVEN;
        query.first = static_cast<uint32_t>(found - exporter.exports.begin());
        query.second_module = 1;
        query.second = static_cast<uint32_t>(queries.size());
        queries.push_back(query);
    }
    const ruthvelka_bytes modules[] = {{given.data(), given.size()}, {wanted.data(), wanted.size()}};
    if (ruthvelka_validate_list_with_queries(modules, 2, RUTHVELKA_STANDARD, nullptr, 0, queries.data(), queries.size()) != RUTHVELKA_VALID) return 2;
    const char *const words[] = {"not linked", "linked", "not exported"};
    for (size_t i = 0; i < queries.size(); i++)
        std::cout << escaped(importer.module_of(importer.imports[i])) << "." << escaped(importer.name_of(importer.imports[i])) << ": "
                  << words[queries[i].answer] << "\n";
    return 0;
}
