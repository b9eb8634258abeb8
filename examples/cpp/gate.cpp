// gate FILE..: an admission gate in C++. Each file is let in exactly where it is a valid module, within the limits for modules of strangers.
#include <ruthvelka.h>

#include <cstdlib>

#include "files.hpp"

int main(int count, char **names) {
    bool all = true;
    for (int i = 1; i < count; i++) {
        const auto bytes = read_file(names[i]);
        ruthvelka_outcome outcome{};
        outcome.size = sizeof outcome;
        std::string text(256, ' ');
        const auto status = ruthvelka_check(bytes.data(), bytes.size(), RUTHVELKA_STANDARD | RUTHVELKA_CRATE_LIMITS, &text[0], text.size(), &outcome);
        text.resize(std::min<size_t>(text.size(), outcome.message_length));
        if (status == RUTHVELKA_STATUS_VALID)
            std::cout << names[i] << ": ok types " << outcome.types << " functions " << outcome.functions << " imports " << outcome.imports
                      << " exports " << outcome.exports << "\n";
        else if (status == RUTHVELKA_STATUS_REFUSED)
            std::cout << names[i] << ": refused at " << outcome.offset << ": " << escaped(text) << "\n";
        else
            std::cout << names[i] << ": out of memory\n";
        all = all && status == RUTHVELKA_STATUS_VALID;
    }
    return all ? 0 : 1;
}
