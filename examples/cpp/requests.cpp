// Reads requests, one in each line, and counts them by the file below /srv that they name. Prints
// the error of each request that would leave /srv, and then each file with its count, and with its
// depth below /srv.
//
//   c++ -std=c++17 requests.cpp $(pkg-config --cflags --libs unix_path) -o requests
//   printf '%s\n' a//b ../etc a/./c/../b | ./requests     prints  ../etc: escapes  2 /srv/a/b (2)
#include <iostream>
#include <iterator>
#include <map>
#include <string>
#include <unix_path_owned.hpp>
#include <utility>

int main() {
    const unix_path::path root = "/srv";
    std::map<unix_path::path, int, unix_path::less> counts;
    for (std::string request; std::getline(std::cin, request);) {
        if (auto file = root.join_beneath(request)) {
            counts[*std::move(file)]++;
        } else {
            std::cout << request << ": " << file.error() << '\n';
        }
    }
    for (const auto &[file, count] : counts) {
        const auto below = file.strip_prefix(root).value_or("").components();
        const auto depth = std::distance(below.begin(), below.end());
        std::cout << count << ' ' << file << " (" << depth << ")\n";
    }
    return std::cin.eof() && std::cout.flush() ? 0 : 1;
}
