// Reading a file, and what a module calls something as it can be printed, for the examples.
#include <algorithm>
#include <cstdlib>
#include <exception>
#include <fstream>
#include <iostream>
#include <iterator>
#include <string>
#include <vector>

// The bytes of a file. Without it the program ends.
inline std::vector<uint8_t> read_file(const std::string &name) {
    try {
        std::ifstream file(name, std::ios::binary);
        if (file) return std::vector<uint8_t>((std::istreambuf_iterator<char>(file)), std::istreambuf_iterator<char>());
    } catch (const std::exception &) { // a folder
    }
    std::cerr << "cannot read " << name << "\n";
    std::exit(2);
}

// A text that may hold a module's own names: `?` in place of all but the printable characters of ASCII, so that no name ends the line.
inline std::string escaped(std::string text) {
    std::replace_if(text.begin(), text.end(), [](char it) { return it < ' ' || '~' < it; }, '?');
    return text;
}
