// Reads lines of a size and a path, and prints each path with the sum of its sizes, in the order of
// the paths' components. Equal paths are printed once, spelled as the first of them.
//
//   c++ -std=c++17 sizes.cpp $(pkg-config --cflags --libs unix_path) -o sizes
//   printf '%s\n' '1 a//b' '2 a.b' '4 a/b/' | ./sizes     prints  5 a//b  2 a.b
#include <cstdint>
#include <iostream>
#include <map>
#include <string>
#include <unix_path.hpp>

int main() {
    std::string line;
    std::map<std::string, std::uint64_t, unix_path::less> sizes;
    for (std::uint64_t size = 0; std::cin >> size && std::getline(std::cin >> std::ws, line);) {
        auto found = sizes.find(unix_path::view(line));
        if (found == sizes.end()) {
            found = sizes.emplace(line, 0).first;
        }
        found->second += size;
    }
    for (const auto &[path, size] : sizes) {
        std::cout << size << ' ' << path << '\n';
    }
    return std::cin.eof() && std::cout.flush() ? 0 : 1;
}
