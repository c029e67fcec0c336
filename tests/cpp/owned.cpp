// The owning path: it returns and compares what a view of its bytes does, and its edits leave what
// the calls of the same names return. The names that it shares with std::filesystem::path mean the
// same there.
#include "unix_path_owned.hpp"

#include <algorithm>
#include <cstdio>
#include <filesystem>
#include <fstream>
#include <functional>
#include <iomanip>
#include <map>
#include <set>
#include <sstream>
#include <string>
#include <type_traits>
#include <unordered_map>
#include <vector>

#include "check.hpp"

#if __cplusplus >= 202002L && __has_include(<ranges>)
#include <ranges>
#endif

namespace {

using unix_path::component;
using unix_path::component_kind;
using unix_path::error;
using unix_path::path;
using unix_path::result;
using unix_path::view;
using namespace std::string_view_literals;
using std::string_literals::operator""s;
namespace fs = std::filesystem;

static_assert(std::is_nothrow_move_constructible_v<path>);
static_assert(std::is_nothrow_move_assignable_v<path> && std::is_nothrow_swappable_v<path>);
static_assert(!std::is_constructible_v<path, std::nullptr_t>);
static_assert(!std::is_constructible_v<path, int> && !std::is_constructible_v<path, error>);
static_assert(!std::is_convertible_v<path, std::string_view>, "bytes are compared by `bytes()`");
static_assert(std::is_same_v<decltype(path().join("")), path>);
static_assert(std::is_same_v<decltype(path().join_beneath("")), result<path>>);
static_assert(std::is_same_v<decltype(path().key()), std::string>);

void conversions() {
    const std::string text = "a//b\0c"s;
    const path whole = text;
    const view seen = whole;
    CHECK(seen.data() == whole.data() && view(whole).bytes() == text && whole.native() == text);
    CHECK(path(seen).bytes() == text && path(std::string_view(text)).bytes() == text);
    CHECK(path(text.c_str()).bytes() == "a//b" && path("a").c_str() == "a"sv && whole.has_nul());
    CHECK(path(static_cast<const char *>(nullptr)).empty() && path() == "" && path{}.size() == 0);
    CHECK(path(seen.components().back()).bytes() == "b\0c"sv && path(fs::path("a/b")) == "a/b");
    const std::string copy = whole, other(whole);
    CHECK(copy == text && other == text && whole.string() == text && fs::path(path("a")) == "a");
    path moved = text + std::string(100, 'x');
    const char *bytes = moved.data();
    const std::string taken = std::move(moved).string();
    CHECK(taken.data() == bytes && taken.size() == text.size() + 100);
    path kept = taken;
    kept = kept.bytes().substr(3);
    CHECK(kept.bytes() == taken.substr(3) && std::ifstream(path("/")).good());
}

// Compares all pairs of paths with the answers for views, in each mix of types.
void comparisons() {
    const std::vector<std::string> all = strings("/.a", 4);
    for (const std::string &one : all) {
        const path a = one;
        CHECK(a.hash() == view(one).hash() && std::hash<path>()(a) == std::hash<view>()(a));
        CHECK(hash_value(a) == a.hash() && unix_path::hash()(a) == a.hash());
        for (const std::string &other : all) {
            const path b = other;
            const bool same = view(one) == view(other);
            CHECK((a == b) == same && (a == view(other)) == same && (view(one) == b) == same);
            CHECK((a == other) == same && (one == b) == same && (a != b) != same);
            CHECK((a == other.c_str()) == same && (a == std::string_view(other)) == same);
            CHECK((a < b) == (view(one) < view(other)) && (a >= b) == (view(one) >= view(other)));
            CHECK((a > other) == (a.compare(b) > 0) && (a <= b) == (a.compare(other) <= 0));
        }
    }
#ifdef __cpp_lib_three_way_comparison
    CHECK((path("a/b") <=> path("a.b")) < 0 && ("a"sv <=> path("a/")) == 0);
#endif
}

void slices() {
    for (const std::string &text : strings("/.ab", 5)) {
        const path it = text;
        const view seen = it;
        CHECK(it.parent() == seen.parent() && it.file_name() == seen.file_name());
        CHECK(it.file_stem() == seen.file_stem() && it.file_prefix() == seen.file_prefix());
        CHECK(it.extension() == seen.extension());
        CHECK(it.strip_prefix("/a") == seen.strip_prefix("/a"));
        const unix_path::components parts = it.components(), wanted = seen.components();
        CHECK(std::equal(parts.begin(), parts.end(), wanted.begin(), wanted.end()));
        CHECK(it.ancestors().begin()->data() == it.data());
        CHECK(text.empty() || it.chunks().begin()->valid.data() == it.data());
    }
}

// Compares edits with the calls of a view that return their results.
void edits() {
    const std::vector<std::string> all = strings("/.ab", 3);
    for (const std::string &text : all) {
        for (const std::string &other : all) {
            const view seen = text;
            path pushed = text, named = text, extended = text, added = text;
            CHECK(&pushed.push(other) == &pushed && pushed.native() == seen.join(other));
            CHECK(named.set_file_name(other).native() == seen.with_file_name(other));
            const bool is_set = seen.file_name() && other.find('/') == other.npos;
            CHECK(extended.set_extension(other) == is_set && added.add_extension(other) == is_set);
            CHECK(extended.native() == (is_set ? *seen.with_extension(other) : text));
            CHECK(added.native() == (is_set ? *seen.with_added_extension(other) : text));
        }
        path popped = text;
        const auto parent = view(text).parent();
        CHECK(popped.pop() == parent.has_value());
        CHECK(popped.bytes() == parent.value_or(text).bytes());
    }
    path own = "a/b.c";
    own /= *own.parent();
    CHECK(own.bytes() == "a/b.c/a" && own.set_extension(*own.file_name()) && own == "a/b.c/a.a");
    own.set_file_name(own);
    CHECK(own.bytes() == "a/b.c/a/b.c/a.a");
}

// Compares what has the same name in std::filesystem::path.
void same_names() {
    for (const std::string &text : strings("/.ab", 4)) {
        const path it = text;
        const fs::path file = text;
        CHECK(it.is_absolute() == file.is_absolute() && it.is_relative() == file.is_relative());
        CHECK(it.empty() == file.empty() && it.native() == file.native());
        CHECK(it.string() == file.string() && it.c_str() == std::string_view(file.c_str()));
        for (const std::string &other : strings("/.a", 3)) {
            path joined = it, appended = it, added = it;
            const fs::path wanted = file / other;
            CHECK((it / other).native() == wanted.native());
            CHECK((joined /= other).native() == wanted && appended.append(other) == joined);
            CHECK((added += other).native() == (fs::path(file) += other).native());
            CHECK(path(it).concat(other).native() == added.native());
        }
    }
    path a = "a", b = "b";
    swap(a, b);
    a.swap(b);
    std::swap(a, b);
    a.clear();
    CHECK(a.empty() && b.native() == "a" && (b += '/').native() == "a/");
    CHECK(path::preferred_separator == fs::path::preferred_separator);
}

// Compares what docs/CPP.md names instead of names of std::filesystem::path. Its lexically_normal
// keeps a trailing slash, and is `.` where `resolved` is empty. `resolved` also drops an own
// trailing slash, so that the file name is then the same.
void other_names() {
    const auto normal = [](const fs::path &file) {
        std::string text = file.lexically_normal();
        while (text.size() > 1 && text.back() == '/') {  // all but one, if libstdc++ keeps `///`
            text.pop_back();
        }
        return text == "." ? "" : text;
    };
    for (const std::string &text : strings("/.ab", 5)) {
        const path it = path(text).resolved();
        const fs::path file = it.native();
        CHECK(it.native() == normal(text));
        if (it.file_name()) {
            CHECK(it.file_name() == file.filename().native());
            CHECK(it.parent()->bytes() == file.parent_path().native());
            CHECK(it.file_stem() == file.stem().native());
            const std::string dotted = file.extension();
            CHECK(it.extension().has_value() == !dotted.empty());
            CHECK(dotted.empty() || "." + std::string(*it.extension()) == dotted);
        }
        for (const char *base : {"", "a", "a/b", "/", "/a", "/b/a"}) {
            const auto way = path(base).relative_path(it);
            const fs::path wanted = file.lexically_relative(base);
            CHECK(!way || it.escapes() || way->native() == normal(wanted));
        }
    }
}

void look_ups() {
    std::map<path, int, unix_path::less> sizes{{"src//main.c", 1}, {"a/b", 2}};
    std::map<path, int, std::less<>> same{{"src//main.c", 1}};
    std::unordered_map<path, int, unix_path::hash, unix_path::equal_to> numbers{{"a/b", 3}};
    std::unordered_map<path, int> plain{{"a/b", 3}};
    CHECK(sizes.find("./a") == sizes.end() && sizes.at("a//b/.") == 2 && sizes.count("a/b"s) == 1);
    CHECK(sizes.find(view("src/./main.c"))->first.bytes() == "src//main.c");
    CHECK(same.count("src/main.c") == 1 && same.count(view("src")) == 0);
    CHECK(sizes.count("a/b"sv) == 1 && sizes.begin()->second == 2 && plain.at("a/b/") == 3);
    CHECK(numbers.find("a/./b")->second == 3 && !sizes.emplace("a/b/", 5).second);
#ifdef __cpp_lib_generic_unordered_lookup
    CHECK(numbers.find(view("a//b"))->second == 3 && numbers.contains("a//b"sv));
#endif
    std::vector<path> list{"b", "/", "a/b", "a.b", "a//b"};
    std::sort(list.begin(), list.end());
    CHECK(list.front() == "/" && list[1] == list[2] && list[3] == "a.b" && list.back() == "b");
#ifdef __cpp_lib_ranges
    std::ranges::sort(list, std::ranges::greater());
    CHECK(std::ranges::find(list, view("a/b/")) == list.begin() + 2 && list.front() == "b");
    CHECK(std::ranges::count(list, "a/b") == 2 && std::ranges::is_sorted(list, std::greater<>()));
    static_assert(std::totally_ordered<path> && std::totally_ordered_with<path, view>);
#endif
}

// Checks what `<<` and std::format write: the bytes, with the options of a string.
void texts() {
    std::ostringstream out;
    out << std::setw(5) << path("a//b") << '|' << path("a b");
    CHECK(out.str() == " a//b|a b");
#ifdef __cpp_lib_format
    CHECK(std::format("{:>5}|{:-<4}|{}", path("a//b"), view("a b"), path("c")) == " a//b|a b-|c");
    CHECK(std::format("{:.1} {}", component(component_kind::normal, "ab"), component_kind::normal)
          == "a normal");
    CHECK(std::format("{:>8}", error::escapes) == " escapes");
#else
    std::puts("std::format is left out");
#endif
}

// Checks that a path of any length is joined to and is written as it is.
void long_paths() {
    path it;
    std::string wanted;
    for (int at = 0; at < 300; at++) {
        it.push("directory");
        wanted += wanted.empty() ? "directory" : "/directory";
        CHECK(it.native() == wanted && it.c_str()[it.size()] == '\0');
    }
    while (it.pop()) {
        CHECK(it.size() < wanted.size());
    }
    CHECK(it.empty() && !it.pop() && !path("/").pop());
}

}  // namespace

int main() {
    run("conversions", conversions);
    run("comparisons", comparisons);
    run("slices", slices);
    run("edits", edits);
    run("names that mean the same in std::filesystem::path", same_names);
    run("names that are used instead", other_names);
    run("maps and algorithms", look_ups);
    run("texts", texts);
    run("long paths", long_paths);
    return finish();
}
