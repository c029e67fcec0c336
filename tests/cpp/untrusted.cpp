// Whatever the library returns, no member reads outside its path and each slice is in its path or
// buffer. This is true of any library: the one of bindings/rust/tests/untrusted returns random
// results. Members that allocate may throw, since some results are longer than any string.
#include "unix_path_archive.hpp"
#include "unix_path_owned.hpp"

#include <cstddef>
#include <functional>
#include <new>
#include <optional>
#include <stdexcept>
#include <string>
#include <string_view>
#include <type_traits>
#include <vector>

#include "check.hpp"

namespace {

using unix_path::component;
using unix_path::path;
using unix_path::result;
using unix_path::view;

constexpr int rounds = 5'000;
// The most steps of a walk that may not end.
constexpr int most_steps = 100;

const std::string first_bytes = "/a//b.c", second_bytes = "../d";

// The same bytes in blocks of their own, so that AddressSanitizer finds a byte outside.
const std::vector<char> first_block(first_bytes.begin(), first_bytes.end()),
    second_block(second_bytes.begin(), second_bytes.end());
const std::string_view first(first_block.data(), first_block.size()),
    second(second_block.data(), second_block.size());

// Checks that a slice lies in these bytes, and reads it.
void in(std::string_view outer, std::string_view slice) {
    const std::less_equal<const char *> before;
    CHECK(slice.empty() || (before(outer.data(), slice.data())
                            && before(slice.data() + slice.size(), outer.data() + outer.size())));
    CHECK(std::string(slice).size() == slice.size());
}

void in(std::string_view outer, view slice) { in(outer, slice.bytes()); }

template <typename T>
void in(std::string_view outer, const std::optional<T> &slice) {
    if (slice) {
        in(outer, *slice);
    }
}

void in(std::string_view outer, const result<std::string_view> &slice) {
    if (slice) {
        in(outer, *slice);
    } else {
        CHECK(unix_path::to_string(slice.error()) != nullptr);
    }
}

// Reads what a call returns that refers to no path.
void in(std::string_view, const path &made) { CHECK(std::string(made).size() == made.size()); }

void in(std::string_view, const std::string &made) { CHECK(made.c_str()[made.size()] == '\0'); }

template <typename T>
void in(std::string_view outer, const result<T> &made) {
    if (made) {
        in(outer, *made);
    }
}

template <typename T, std::enable_if_t<std::is_arithmetic_v<T> || std::is_enum_v<T>, int> = 0>
void in(std::string_view, T) {}

// A view or a path with a member for each call, also for those that are operators or functions.
template <typename T>
struct all_calls : T {
    using T::T;
    bool equal(view b) const { return *this == b; }
    auto from_key() const { return unix_path::from_key(this->bytes()); }
    auto from_key(unix_path::buffer out) const { return unix_path::from_key(this->bytes(), out); }
    auto key_range_end() const { return unix_path::key_range_end(this->bytes()); }
    auto key_range_end(unix_path::buffer out) const {
        return unix_path::key_range_end(this->bytes(), out);
    }
};

// Calls a function, which may find that a string would be too long.
template <typename Call>
void attempt(Call call) {
    try {
        call();
    } catch (const std::length_error &) {
    } catch (const std::bad_alloc &) {
    }
}

// Makes each call of a view or a path.
template <typename T>
void try_calls(const all_calls<T> &it, view b) {
    const std::string_view whole = it.bytes();
    std::vector<char> memory(4);
    const unix_path::buffer out = memory;
#define FIND(name) in(whole, it.name());
#define ASK(answer, name) in(whole, it.name());
#define FIND_OF_TWO(name) in(whole, it.name(b));
#define ASK_TWO(answer, name) in(whole, it.name(b));
#define MAKE(name)                                                                                 \
    attempt([&] { in(whole, it.name()); });                                                        \
    in(std::string_view(out.data(), out.size()), it.name(out));
#define MAKE_OF_TWO(name)                                                                          \
    attempt([&] { in(whole, it.name(b.bytes())); });                                               \
    in(std::string_view(out.data(), out.size()), it.name(b.bytes(), out));
#include "../calls.inc"
}

// Steps through a range, which may have no end. Calls look(item) for each item.
template <typename It, typename Look>
void step(It at, const It &end, Look look) {
    for (int steps = 0; steps < most_steps && at != end; steps++, ++at) {
        look(*at);
    }
}

template <typename T>
void try_ranges(const T &it) {
    const std::string_view whole = it.bytes();
    const auto look = [&](component part) {
        in(whole, part.bytes());
        CHECK(unix_path::to_string(part.kind()) != nullptr);
    };
    const auto parts = it.components();
    step(parts.begin(), parts.end(), look);
    step(parts.rbegin(), parts.rend(), look);
    look(parts.front());
    look(parts.back());
    auto at = parts.end();
    for (int steps = 0; steps < most_steps; steps++) {
        look(steps % 3 == 0 ? *at++ : *at--);
    }
    const auto above = it.ancestors();
    step(above.begin(), above.end(), [&](view ancestor) { in(whole, ancestor); });
    const auto runs = it.chunks();
    step(runs.begin(), runs.end(), [&](unix_path::chunk chunk) {
        in(whole, chunk.valid);
        in(whole, chunk.broken);
    });
    unix_path::walk walk(it);
    for (int steps = 0; steps < most_steps; steps++) {
        const auto part = steps % 3 == 0 ? walk.next_back() : walk.next();
        part ? look(*part) : void();
        in(whole, walk.rest());
    }
}

void views() {
    for (int round = 0; round < rounds; round++) {
        try_calls<view>(all_calls<view>(first), second);
        try_calls<view>(all_calls<view>(), view());
    }
}

void paths() {
    for (int round = 0; round < rounds; round++) {
        try_calls<path>(all_calls<path>(first_bytes), second);
    }
}

void ranges() {
    for (int round = 0; round < rounds / 25; round++) {
        try_ranges(view(first));
        try_ranges(path(first_bytes));
        try_ranges(view());
    }
}

// Edits leave a path that ends with a NUL, or throw and leave it unchanged.
void edits() {
    for (int round = 0; round < rounds; round++) {
        path it = first_bytes;
        const auto edit = [&](auto change) {
            const path before = it;
            bool is_done = false;
            attempt([&] {
                change();
                is_done = true;
            });
            CHECK(is_done || it.native() == before.native());
            CHECK(it.c_str()[it.size()] == '\0' && it.size() < 100);
        };
        edit([&] { it.push(second_bytes); });
        edit([&] { it.pop(); });
        edit([&] { it.set_file_name(second_bytes); });
        edit([&] { it.set_extension("d"); });
        edit([&] { it.add_extension("d"); });
        edit([&] { it = it / "e"; });
    }
}

// A refused entry is one of the list.
void entries() {
    const std::vector<unix_path::entry> list{{unix_path::entry_kind::file, first},
                                             {unix_path::entry_kind::hard_link, second, first}};
    for (int round = 0; round < rounds; round++) {
        attempt([&] {
            if (const auto found = unix_path::check_entries(list); !found) {
                CHECK(found.refusal().entry < 2 && found.refusal().cause < 2);
                CHECK(unix_path::to_string(found.refusal().reason) != nullptr);
            }
        });
    }
    CHECK(unix_path::check_entries({}).is_accepted());
}

}  // namespace

int main() {
    run("views", views);
    run("paths", paths);
    run("ranges", ranges);
    run("edits", edits);
    run("entries", entries);
    return finish();
}
