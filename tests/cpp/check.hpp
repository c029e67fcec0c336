// What the tests in C++ share: checks, tests that count them, the strings that they try, and the
// fields of a row.
#ifndef CHECK_HPP
#define CHECK_HPP

#include <algorithm>
#include <cstdio>
#include <string>
#include <string_view>
#include <vector>

// clang before 16 refuses the views of libstdc++.
#if defined(__cpp_lib_ranges) && (!defined(__clang__) || __clang_major__ >= 16)
#define HAS_VIEWS
#endif

inline int wrong_checks = 0, passed_tests = 0, failed_tests = 0;

#define CHECK(...)                                                                                 \
    do {                                                                                           \
        if (!(__VA_ARGS__) && wrong_checks++ < 5) {                                                \
            std::printf("%s:%d: %s\n", __FILE__, __LINE__, #__VA_ARGS__);                          \
        }                                                                                          \
    } while (0)

inline void run(const char *name, void (*test)()) {
    wrong_checks = 0;
    test();
    (wrong_checks == 0 ? passed_tests : failed_tests)++;
    std::printf("%s: %s\n", wrong_checks == 0 ? "passed" : "failed", name);
}

// Prints the counts. Returns what main returns.
inline int finish() {
    std::printf("%d passed, %d failed\n", passed_tests, failed_tests);
    return failed_tests != 0;
}

// Returns each string of at most `longest` of these letters.
inline std::vector<std::string> strings(std::string_view letters, std::size_t longest) {
    std::vector<std::string> all{""};
    for (std::size_t begin = 0; longest > 0; longest--) {
        const std::size_t end = all.size();
        for (; begin < end; begin++) {
            for (char letter : letters) {
                all.push_back(all[begin] + letter);
            }
        }
    }
    return all;
}

// Removes the field up to the next `|` from `left`. Returns it without the spaces around it.
inline std::string_view take_field(std::string_view &left) {
    const std::size_t length = std::min(left.find('|'), left.size());
    std::string_view field = left.substr(0, length);
    left.remove_prefix(std::min(length + 1, left.size()));
    while (!field.empty() && field.front() == ' ') {
        field.remove_prefix(1);
    }
    while (!field.empty() && field.back() == ' ') {
        field.remove_suffix(1);
    }
    return field;
}

#endif
