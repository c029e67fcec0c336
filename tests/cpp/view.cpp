// The header for C++: each member returns what the call of the same name returns, and allocates
// only where the header says so.
#include "unix_path.hpp"

#include <sys/wait.h>
#include <unistd.h>

#include <algorithm>
#include <array>
#include <cstdio>
#include <cstdlib>
#include <functional>
#include <iomanip>
#include <iterator>
#include <map>
#include <memory>
#include <new>
#include <set>
#include <sstream>
#include <string>
#include <type_traits>
#include <unordered_map>
#include <vector>

#include "check.hpp"

#if __cplusplus >= 202002L && __has_include(<ranges>)
#include <ranges>
#include <span>
static_assert(std::bidirectional_iterator<unix_path::components::iterator>);
static_assert(std::bidirectional_iterator<unix_path::components::reverse_iterator>);
static_assert(std::ranges::bidirectional_range<unix_path::components>);
static_assert(std::forward_iterator<unix_path::ancestors::iterator>);
static_assert(std::ranges::forward_range<unix_path::ancestors>);
static_assert(std::forward_iterator<unix_path::chunks::iterator>);
static_assert(std::ranges::forward_range<unix_path::chunks>);
#ifdef __cpp_lib_ranges
template <typename T>
constexpr bool is_borrowed_view = std::ranges::view<T> && std::ranges::borrowed_range<T>;
static_assert(is_borrowed_view<unix_path::components> && is_borrowed_view<unix_path::ancestors>);
static_assert(is_borrowed_view<unix_path::chunks>);
#endif
static_assert(std::is_constructible_v<unix_path::buffer, std::span<char>>);
static_assert(!std::is_constructible_v<unix_path::buffer, std::span<const char>>);
#endif
#ifdef __cpp_lib_three_way_comparison
static_assert(std::three_way_comparable<unix_path::view, std::weak_ordering>);
#endif

namespace {

std::size_t requests = 0;

}  // namespace

// Not inlined: otherwise gcc no longer sees which new and delete are a pair, and warns about them.
__attribute__((noinline)) void *operator new(std::size_t size) {
    requests++;
    if (void *block = std::malloc(size == 0 ? 1 : size)) {
        return block;
    }
    throw std::bad_alloc();
}
__attribute__((noinline)) void operator delete(void *block) noexcept { std::free(block); }
__attribute__((noinline)) void operator delete(void *block, std::size_t) noexcept {
    std::free(block);
}

namespace {

using unix_path::buffer;
using unix_path::chunk;
using unix_path::component;
using unix_path::component_kind;
using unix_path::error;
using unix_path::result;
using unix_path::view;
using namespace std::string_view_literals;

static_assert(std::is_trivially_copyable_v<view> && std::is_nothrow_default_constructible_v<view>);
static_assert(!std::is_constructible_v<view, std::nullptr_t>);
static_assert(!std::is_convertible_v<view, std::string_view>, "bytes are compared by `bytes()`");
static_assert(view("a/b").size() == 3 && view().empty() && view("a\0b"sv).has_nul());
static_assert(std::is_nothrow_invocable_v<unix_path::less, std::string, view>);
static_assert(noexcept(view().join_beneath(view(), std::declval<buffer>())));
static_assert(noexcept(view().join_in_root(view(), std::declval<buffer>())));
static_assert(noexcept(view().join_verbatim(view(), std::declval<buffer>())));
static_assert(noexcept(view().parent()) && noexcept(view().compare(view())));
static_assert(!std::is_constructible_v<buffer, const std::string &>);
static_assert(!std::is_constructible_v<buffer, const char (&)[4]>);
static_assert(std::is_constructible_v<buffer, std::array<char, 4> &>);
static_assert(!std::is_constructible_v<buffer, std::array<char, 4>>);
static_assert(!std::is_constructible_v<buffer, std::string>);
static_assert(!std::is_constructible_v<buffer, view>);

// True if an iterator returns values of this type and steps as this category does.
template <typename It, typename Value, typename Category>
constexpr bool returns =
    std::is_same_v<decltype(*std::declval<It &>()), Value>
    && std::is_same_v<typename std::iterator_traits<It>::reference, Value>
    && std::is_same_v<typename std::iterator_traits<It>::value_type, Value>
    && std::is_same_v<typename std::iterator_traits<It>::iterator_category, Category>
    && std::is_same_v<decltype(std::declval<It &>().operator->()),
                      typename std::iterator_traits<It>::pointer>;
static_assert(
    returns<unix_path::components::iterator, component, std::bidirectional_iterator_tag>);
static_assert(
    returns<unix_path::components::reverse_iterator, component, std::bidirectional_iterator_tag>);
static_assert(returns<unix_path::ancestors::iterator, view, std::forward_iterator_tag>);
static_assert(returns<unix_path::chunks::iterator, unix_path::chunk, std::forward_iterator_tag>);

void comparisons() {
    const std::string text = "a/./b//";
    CHECK(view("a/./b//") == view("a/b") && text == view("a/b") && view("a/b") == "a/b/"sv);
    CHECK(view("./a") != view("a") && view("a/b") < view("a.b") && view("a.b") > "a/b");
    CHECK(view("a") <= view("a/") && view("a") >= view("a/") && view("/").compare(".") == -1);
    CHECK(std::less<view>()("a/b", "a.b") && std::hash<view>()(text) == view("a/b").hash());
    CHECK(view("a/b").hash() != view("ab").hash());
#ifdef __cpp_lib_three_way_comparison
    CHECK((view("a/b") <=> view("a.b")) < 0 && (view("a") <=> view("a/")) == 0);
#endif
}

void names() {
    CHECK(unix_path::to_string(view("../x").relative_path("y").error()) == "no_relative_path"sv);
    CHECK(unix_path::to_string(error::separator) == "separator"sv);
    CHECK(unix_path::to_string(error::escapes) == "escapes"sv);
    CHECK(unix_path::to_string(error::nul_in_request) == "nul_in_request"sv);
    CHECK(unix_path::to_string(error::not_a_key) == "not_a_key"sv);
    CHECK(unix_path::to_string(error::no_end) == "no_end"sv);
    CHECK(unix_path::to_string(error::too_long) == "too_long"sv);
    CHECK(unix_path::to_string(error::short_buffer) == "short_buffer"sv);
    CHECK(unix_path::to_string(component_kind::root_dir) == "root_dir"sv);
    CHECK(unix_path::to_string(component_kind::cur_dir) == "cur_dir"sv);
    CHECK(unix_path::to_string(component_kind::parent_dir) == "parent_dir"sv);
    CHECK(unix_path::to_string(component_kind::normal) == "normal"sv);
}

using answer = result<std::string>;
static_assert(std::is_same_v<answer::value_type, std::string>);
static_assert(std::is_same_v<answer::error_type, error>);
static_assert(std::is_same_v<decltype(std::declval<answer &>().value()), const std::string &>);
static_assert(std::is_same_v<decltype(*std::declval<answer &>()), const std::string &>);
static_assert(std::is_same_v<decltype(std::declval<answer>().value()), std::string>);
static_assert(std::is_same_v<decltype(*std::declval<answer>()), std::string>);
static_assert(noexcept(std::declval<answer &>().value()) && noexcept(std::declval<answer>().value())
              && noexcept(std::declval<answer &>().error()));
static_assert(!std::is_convertible_v<answer, bool> && std::is_constructible_v<bool, answer>);
static_assert(std::is_trivially_copyable_v<result<std::string_view>>);

void results() {
    const answer joined = view("/srv").join_verbatim("a");
    const answer refused = view("/srv").join_verbatim("..");
    CHECK(joined && joined.has_value() && joined.value() == "/srv/a" && joined->size() == 6);
    CHECK(&*joined == &joined.value() && joined.operator->() == &joined.value());
    CHECK(joined.value_or("none") == "/srv/a" && joined.required_size() == 0);
    CHECK(!refused && !refused.has_value() && refused.error() == error::escapes);
    CHECK(refused.value_or("none") == "none" && refused.required_size() == 0);
    CHECK(view("/srv").join_verbatim("a").value() == "/srv/a");
    CHECK(view("/srv").join_verbatim("..").value_or("none") == "none");
    CHECK(view("/srv").join_verbatim("a").value_or("none") == "/srv/a");
    std::string taken =
        view("/srv/").join_verbatim("a").value_or("") + *view("b").relative_path("b");
    CHECK(taken == "/srv/a");
}

// Checks that taking the value of a result moves its string out if the result is moved from, and
// otherwise copies it.
void moved_results() {
    const std::string text(100, 'a');
    const auto moves = [&](auto take) {
        answer whole = text;
        const char *bytes = whole->data();
        const bool stays = take(whole) == text && whole->data() == bytes && *whole == text;
        const std::string taken = take(std::move(whole));
        return stays && taken == text && taken.data() == bytes;
    };
    CHECK(moves([](auto &&it) { return std::forward<decltype(it)>(it).value(); }));
    CHECK(moves([](auto &&it) { return *std::forward<decltype(it)>(it); }));
    CHECK(moves([](auto &&it) { return std::forward<decltype(it)>(it).value_or(""); }));
    CHECK(moves([](auto &&it) {
        return *std::forward<decltype(it)>(it).and_then([](auto &&value) {
            return answer(std::forward<decltype(value)>(value));
        });
    }));
    CHECK(moves([](auto &&it) {
        return *std::forward<decltype(it)>(it).transform([](auto &&value) -> std::string {
            return std::forward<decltype(value)>(value);
        });
    }));
}

answer with_gz(const std::string &path) { return view(path).with_added_extension("gz"); }

std::size_t size_of(const std::string &path) { return path.size(); }

// Checks what `and_then` and `transform` return for a value. For an error, they have to call no
// function and return the same error.
void chained_results() {
    const answer joined = view("/srv").join_verbatim("a.b");
    const answer refused = view("/srv").join_verbatim("..");
    static_assert(std::is_same_v<decltype(joined.and_then(with_gz)), answer>);
    static_assert(std::is_same_v<decltype(joined.transform(size_of)), result<std::size_t>>);
    CHECK(joined.and_then(with_gz).value() == "/srv/a.b.gz" && *joined.transform(size_of) == 8);
    CHECK(view("a").join_verbatim("b").and_then(with_gz).and_then(with_gz).value() == "a/b.gz.gz");
    CHECK(view("a").join_verbatim("b").transform(size_of).value() == 3);
    const auto with_slash = [](const std::string &path) { return view(path).with_extension("/"); };
    CHECK(joined.and_then(with_slash).error() == error::separator);
    int calls = 0;
    const auto count = [&](const std::string &) { return ++calls; };
    const auto count_on = [&](const std::string &) { return result<int>(++calls); };
    CHECK(refused.and_then(count_on).error() == error::escapes);
    CHECK(refused.transform(count).error() == error::escapes);
    CHECK(view("a").join_verbatim("..").and_then(count_on).error() == error::escapes);
    CHECK(view("a").join_verbatim("..").transform(count).error() == error::escapes);
    CHECK(calls == 0 && *joined.transform(count) == 1 && *joined.and_then(count_on) == 2);
}

// Checks that `and_then` and `transform` pass on the required size of a short buffer, and that the
// type of a value needs no default constructor.
void chained_buffers() {
    char out[2];
    const auto size = [](std::string_view bytes) { return bytes.size(); };
    const auto again = [&](std::string_view bytes) { return view(bytes).resolved(out); };
    const auto written = view("a/b").canonical(out);
    const auto is_short = [](const auto &it) {
        return it.error() == error::short_buffer && it.required_size() == 3;
    };
    CHECK(is_short(written.transform(size)) && is_short(written.and_then(again)));
    CHECK(is_short(view("a/b").canonical(out).transform(size)));
    CHECK(is_short(view("a/b").canonical(out).and_then(again)));
    struct named {
        explicit named(const std::string &path) : bytes(std::make_unique<std::string>(path)) {}
        std::unique_ptr<std::string> bytes;
    };
    auto made = view("a").join_verbatim("b").transform(
        [](std::string path) { return named(path); });
    CHECK(*made->bytes == "a/b" && *std::move(made).value().bytes == "a/b");
}

void checked_requests() {
    using unix_path::request_check;
    CHECK(view("a/../b").check_request() == request_check::ok);
    CHECK(view("/../a\0"sv).check_request() == request_check::has_root);
    CHECK(view("a\0/../.."sv).check_request() == request_check::escapes);
    CHECK(view("a\0.png"sv).check_request() == request_check::has_nul);
}

// Returns the index and the length of a range of the path's own bytes, as text.
template <typename T>
std::string place_of(view path, const std::optional<T> &found) {
    if (!found) {
        return "none";
    }
    return std::to_string(found->data() - path.data()) + '+' + std::to_string(found->size());
}

template <typename Call>
std::string place_by(view path, Call call) {
    unix_path_span span;
    if (!call(path.data(), path.size(), &span)) {
        return "none";
    }
    return std::to_string(span.start) + '+' + std::to_string(span.length);
}

// Compares the spans that the members find with the spans that the calls find.
void places() {
    for (const std::string &path : strings("/.ab", 5)) {
        if (path.empty()) {
            continue;
        }
        const view it = path;
        CHECK(place_of(it, it.parent()) == place_by(it, unix_path_parent));
        CHECK(place_of(it, it.file_name()) == place_by(it, unix_path_file_name));
        CHECK(place_of(it, it.file_stem()) == place_by(it, unix_path_file_stem));
        CHECK(place_of(it, it.extension()) == place_by(it, unix_path_extension));
        CHECK(place_of(it, it.file_prefix()) == place_by(it, unix_path_file_prefix));
    }
}

std::vector<component> parts_of(view path) {
    std::vector<component> parts;
    unix_path_walk walk;
    unix_path_part part;
    unix_path_components(path.data(), path.size(), &walk);
    while (unix_path_next(path.data(), path.size(), &walk, &part)) {
        parts.push_back({static_cast<component_kind>(part.kind),
                         path.bytes().substr(part.start, part.length)});
    }
    return parts;
}

// Compares steps of an iterator in both directions, one for each bit of `turns`, with an index into
// the components.
void steps_of(view path, const std::vector<component> &parts, unsigned turns) {
    const unix_path::components all = path.components();
    auto at = all.begin();
    std::size_t index = 0;
    for (unsigned left = turns; left > 1; left >>= 1) {
        if ((left & 1) == 1 ? index < parts.size() : index == 0) {
            index += (left & 1) == 1 ? 1 : 0;
            (left & 1) == 1 ? (void)++at : (void)0;
        } else {
            index -= (left & 1) == 1 ? 0 : 1;
            (left & 1) == 1 ? (void)0 : (void)--at;
        }
        CHECK((at == all.begin()) == (index == 0) && (at == all.end()) == (index == parts.size()));
        CHECK(index == parts.size() || *at == parts[index]);
        CHECK(index == parts.size() || at->bytes() == parts[index].bytes());
        CHECK(index == parts.size() || at->bytes().data() == parts[index].bytes().data());
    }
}

void iterators() {
    for (const std::string &path : strings("/.a", 6)) {
        const std::vector<component> parts = parts_of(path);
        const unix_path::components all = view(path).components();
        CHECK(std::equal(all.begin(), all.end(), parts.begin(), parts.end()));
        CHECK(std::equal(all.rbegin(), all.rend(), parts.rbegin(), parts.rend()));
        CHECK(static_cast<std::size_t>(std::distance(all.begin(), all.end())) == parts.size());
        CHECK(all.empty() == parts.empty());
        CHECK(all.front() == (parts.empty() ? component() : parts.front()));
        CHECK(all.back() == (parts.empty() ? component() : parts.back()));
        for (unsigned turns = 1; turns < 128; turns++) {
            steps_of(path, parts, turns);
        }
    }
}

// Checks the components from the last to the first, and back, through `->`.
void reversed_parts() {
    for (const std::string &path : strings("/.a", 5)) {
        const std::vector<component> parts = parts_of(path);
        const unix_path::components all = view(path).components();
        auto at = all.rbegin();
        for (auto part = parts.rbegin(); part != parts.rend(); ++part, ++at) {
            CHECK(at->kind() == part->kind() && at->bytes() == part->bytes() && *at == *part);
            CHECK(*std::prev(at.base()) == *part);
        }
        CHECK(at == all.rend() && at.base() == all.begin());
        for (auto part = parts.begin(); part != parts.end(); ++part) {
            CHECK((--at)->bytes().data() == part->bytes().data() && at != all.rend());
        }
        CHECK(at == all.rbegin());
    }
    const unix_path::components all = view("/a/..").components();
    auto at = all.rbegin();
    CHECK((at++)->bytes() == ".." && (at++)->bytes() == "a");
    CHECK((at--)->kind() == component_kind::root_dir);
    CHECK(at->bytes() == "a" && all.rbegin()->kind() == component_kind::parent_dir);
    CHECK((*std::make_reverse_iterator(all.end())).bytes() == "..");
}

// Checks that the values that an iterator returns outlive the iterator, and don't change when it
// moves on.
template <typename Range>
void outlives(const Range &range) {
    using value = typename Range::value_type;
    const std::vector<value> all(range.begin(), range.end());
    const auto is_second = [&](const value &it) { return it == all[1]; };
    auto at = range.begin();
    const value &of_temporary = *range.begin(), &of_passed = *at++, &of_kept = *at++;
    const value &of_found = *std::find_if(range.begin(), range.end(), is_second);
    const value &of_next = *std::next(range.begin());
    CHECK(at != range.end() && *at == all[2]);
    CHECK(of_temporary == all[0] && of_passed == all[0]);
    CHECK(of_kept == all[1] && of_found == all[1] && of_next == all[1]);
    CHECK(std::adjacent_find(range.begin(), range.end()) == range.end());
}

void returned_values() {
    outlives(view("/a/..").components());
    outlives(view("/a/b").ancestors());
    outlives(view("a\xFF" "b\xFF" "c"sv).chunks());
    const component &last = *view("/a/b").components().rbegin();
    CHECK(last.bytes() == "b" && view("/a/b").ancestors().begin()->size() == 4);
    CHECK(view("a\xFF"sv).chunks().begin()->broken == "\xFF"sv);
}

// A component is a text, and a path of one component.
void converted_parts() {
    const component part = view("/a/b.c").components().back();
    const std::string_view text = part;
    CHECK(part.kind() == unix_path::kind::normal && text.data() == part.bytes().data());
    CHECK(std::string(part) == "b.c" && view(part).extension() == "c");
    CHECK(std::string(view("a//b\0"sv)) == "a//b\0"sv);
    CHECK(view("/").join(part) == "/b.c");
    for (component it : view("../a").components()) {
        CHECK(view(it).components().front() == it && *view(it).components().begin() == it);
    }
}

// Checks what `<<` writes: the bytes, as of a string.
void streams() {
    std::ostringstream out;
    out << std::setw(5) << view("a//b") << '|' << view("a b\0c"sv) << '|';
    out << view("../x").components().front() << '|' << view("/").components().front().kind() << '|';
    out << view("../x").relative_path("y").error();
    CHECK(out.str() == " a//b|a b\0c|..|root_dir|no_relative_path"sv);
}

// Algorithms of std::ranges return iterators of temporary ranges, and views can be combined.
void pipelines() {
#ifdef __cpp_lib_ranges
    const auto is_name = [](component part) { return part.kind() == component_kind::normal; };
    const auto found = std::ranges::find_if(view("../../a/b").components(), is_name);
    CHECK(found->bytes() == "a" && std::ranges::distance(view("/a").ancestors()) == 2);
    CHECK(std::ranges::find(view("a\xFF"sv).chunks(), "\xFF"sv, &chunk::broken)->valid == "a");
#ifdef HAS_VIEWS
    std::string names;
    auto named = view("/a/../b").components() | std::views::filter(is_name);
    for (component part : named | std::views::reverse | std::views::take(2)) {
        names += part;
    }
    CHECK(names == "ba");
#endif
#endif
}

// Checks components taken from both ends, and the rest between them.
void walks() {
    for (const std::string &path : strings("/.a", 5)) {
        const std::vector<component> parts = parts_of(path);
        for (unsigned turns = 0; turns < 8; turns++) {
            unix_path::walk walk{view(path)};
            std::size_t front = 0, behind = parts.size();
            for (unsigned at = 0; at < 3; at++) {
                const bool is_front = (turns >> at & 1) == 1, is_left = front < behind;
                const auto part = is_front ? walk.next() : walk.next_back();
                CHECK(part.has_value() == is_left);
                CHECK(!is_left || *part == parts[is_front ? front++ : --behind]);
            }
            const std::vector<component> rest = parts_of(walk.rest());
            CHECK(std::equal(rest.begin(), rest.end(), parts.begin() + std::ptrdiff_t(front),
                             parts.begin() + std::ptrdiff_t(behind)));
        }
    }
}

void parents() {
    for (const std::string &path : strings("/.a", 6)) {
        std::vector<std::string_view> found, wanted{path};
        for (const view &ancestor : view(path).ancestors()) {
            found.push_back(ancestor.bytes());
        }
        for (auto parent = view(path).parent(); parent; parent = parent->parent()) {
            wanted.push_back(parent->bytes());
        }
        CHECK(found == wanted);
        const auto first = view(path).ancestors().begin();
        CHECK(std::next(first) != first && first == view(path).ancestors().begin());
    }
}

// Checks that each chunk begins where the one before it ends, and that the chunks, with their
// invalid bytes replaced, form the lossy string.
void chunks() {
    for (const std::string &path : strings("a\xFF\xE2\x82", 5)) {
        const view it = path;
        std::string bytes, shown;
        for (const unix_path::chunk &chunk : it.chunks()) {
            CHECK(chunk.valid.data() == it.data() + bytes.size() && chunk.broken.size() <= 3);
            bytes.append(chunk.valid).append(chunk.broken);
            shown.append(chunk.valid).append(chunk.broken.empty() ? "" : "\uFFFD");
        }
        CHECK(bytes == path && shown == it.to_string_lossy());
        const auto first = it.chunks().begin();
        CHECK((first == it.chunks().end()) == path.empty() && first == it.chunks().begin());
        CHECK(path.empty() || std::next(first) != first);
    }
}

// Checks that a call writes `whole` to each buffer that is large enough, and reports the required
// size for a smaller one. If `whole` is an error, checks that the call returns the same error.
void in_each_room(const result<std::string> &whole,
                  const std::function<result<std::string_view>(buffer)> &call) {
    for (std::size_t room = 0; room <= 24; room++) {
        std::array<char, 24> memory;
        memory.fill('\x5A');
        const auto written = call(buffer(memory.data(), room));
        const std::size_t length = written ? written->size() : 0;
        if (!whole) {
            CHECK(!written && written.error() == whole.error() && written.required_size() == 0);
        } else if (whole->size() > room) {
            CHECK(!written && written.error() == error::short_buffer);
            CHECK(written.required_size() == whole->size());
        } else {
            CHECK(written && *written == *whole && written->data() == memory.data());
            CHECK(written.required_size() == 0);
        }
        CHECK(std::all_of(memory.begin() + std::ptrdiff_t(length), memory.end(),
                          [](char byte) { return byte == '\x5A'; }));
    }
    CHECK(call(buffer(nullptr, 0)).has_value() == (whole.has_value() && whole->empty()));
}

void buffers() {
    const std::vector<std::string> some{"",        "/",         "a.b", "/x//y.tar/.",
                                        "a/../..", "../b\xFF", "./c"};
    for (const std::string &path : some) {
        const view a = path;
        in_each_room(a.canonical(), [=](buffer out) { return a.canonical(out); });
        in_each_room(a.to_string_lossy(), [=](buffer out) { return a.to_string_lossy(out); });
        in_each_room(a.resolved(), [=](buffer out) { return a.resolved(out); });
        const std::string key = a.key();
        in_each_room(key, [=](buffer out) { return a.key(out); });
        in_each_room(unix_path::from_key(key),
                     [&](buffer out) { return unix_path::from_key(key, out); });
        in_each_room(unix_path::key_range_end(key),
                     [&](buffer out) { return unix_path::key_range_end(key, out); });
        CHECK(*unix_path::from_key(key) == a.canonical());
        for (const std::string &other : some) {
            const view b = other;
            in_each_room(a.join(b), [=](buffer out) { return a.join(b, out); });
            in_each_room(a.with_file_name(b), [=](buffer out) { return a.with_file_name(b, out); });
            in_each_room(a.with_extension(b.bytes()),
                         [=](buffer out) { return a.with_extension(b.bytes(), out); });
            in_each_room(a.with_added_extension(b.bytes()),
                         [=](buffer out) { return a.with_added_extension(b.bytes(), out); });
            in_each_room(a.join_verbatim(b), [=](buffer out) { return a.join_verbatim(b, out); });
            in_each_room(a.relative_path(b), [=](buffer out) { return a.relative_path(b, out); });
            in_each_room(a.join_beneath(b), [=](buffer out) { return a.join_beneath(b, out); });
            in_each_room(a.join_in_root(b), [=](buffer out) { return a.join_in_root(b, out); });
        }
    }
    char array[8];
    std::string string(8, ' ');
    std::vector<char> list(8);
    CHECK(view("a").canonical(array)->data() == array);
    CHECK(view("a").canonical(string)->data() == string.data());
    CHECK(view("a").canonical(list)->data() == list.data());
}

// Checks each member with a null pointer for the empty path, and for an empty buffer.
void null_views() {
    const view none{std::string_view()}, string = static_cast<const char *>(nullptr);
    const buffer room(nullptr, 0);
    CHECK(none.data() == nullptr && string.data() == nullptr && view().data() == nullptr);
    CHECK(none == "" && none < "a" && none.hash() == view("").hash() && !none.has_nul());
    CHECK(none.starts_with(none) && none.ends_with(string) && view("a").starts_with(none));
    CHECK(!none.is_absolute() && none.is_utf8() && !none.escapes() && none.common_dir(none) == 0);
    CHECK(none.check_request() == unix_path::request_check::ok && none.is_canonical());
    CHECK(!none.parent() && !none.file_name() && !none.file_stem() && !none.extension());
    CHECK(!none.file_prefix() && none.strip_prefix(none)->empty());
    CHECK(view("a").strip_prefix(none)->bytes() == "a" && !none.strip_prefix("a"));
    CHECK(none.components().begin() == none.components().end() && none.components().empty());
    CHECK(std::distance(none.ancestors().begin(), none.ancestors().end()) == 1);
    CHECK(none.chunks().begin() == none.chunks().end());
    unix_path::walk walk(none);
    CHECK(!walk.next() && !walk.next_back() && walk.rest().empty());
    CHECK(none.join(none).empty() && none.join("a") == "a" && view("a").join(none) == "a/"sv);
    CHECK(none.with_file_name(none).empty() && none.with_extension({})->empty());
    CHECK(none.canonical().empty() && none.to_string_lossy().empty() && none.resolved().empty());
    CHECK(none.join_beneath(none)->empty() && none.join_in_root(none)->empty());
    CHECK(none.request_is_root() && !none.ends_in_slash());
    CHECK(none.join(none, room)->empty() && none.with_file_name(none, room)->empty());
    CHECK(none.with_added_extension({})->empty() && none.with_added_extension({}, room)->empty());
    CHECK(none.with_extension({}, room)->empty() && none.canonical(room)->empty());
    CHECK(none.to_string_lossy(room)->empty() && none.resolved(room)->empty());
    CHECK(none.relative_path(none)->empty() && none.relative_path(none, room)->empty());
    CHECK(none.join_verbatim(none)->empty() && none.join_verbatim(none, room)->empty());
    CHECK(none.join_beneath(none, room)->empty() && none.join_in_root(none, room)->empty());
    CHECK(none.key().empty() && none.key(room)->empty() && unix_path::from_key({})->empty());
    CHECK(unix_path::from_key({}, room)->empty() && !unix_path::key_range_end({}, room));
    CHECK(view("a").canonical(room).required_size() == 1);
}

void maps() {
    std::map<std::string, int, unix_path::less> sizes{{"src//main.c", 1}, {"a/b", 2}};
    std::unordered_map<std::string, int, unix_path::hash, unix_path::equal_to> numbers{{"a/b", 3}};
    std::set<view> set{"a/b", "a//b/.", "a.b"};
    const view asked = "src/./main.c";
    const std::size_t before = requests;
    CHECK(sizes.find(asked) != sizes.end() && sizes.find(asked)->second == 1);
    CHECK(sizes.find("src/main.h"sv) == sizes.end() && sizes.begin()->second == 2);
    CHECK(set.size() == 2 && set.begin()->bytes() == "a/b" && set.count("a/./b") == 1);
#ifdef __cpp_lib_generic_unordered_lookup
    CHECK(numbers.find(view("a//b"))->second == 3);
#endif
    CHECK(requests == before);
    CHECK(numbers.find("a//b/.")->second == 3 && numbers.count("ab") == 0);
}

// Checks which members do not allocate, and that a string is allocated once.
void memory() {
    const std::string root = "/a/root/that/is/longer/than/a/short/string/can/be", name = "a/../b.c";
    const view a = root, b = name;
    char out[128];
    std::size_t before = requests, length = 0;
    for (component part : a.components()) {
        length += part.bytes().size();
    }
    for (auto at = a.components().rbegin(); at != a.components().rend(); ++at) {
        length += (*at).bytes().size();
    }
    for (view ancestor : a.ancestors()) {
        length += ancestor.hash() % 2;
    }
    for (const unix_path::chunk &chunk : a.chunks()) {
        length += chunk.valid.size();
    }
    CHECK(a.join(b, out) && a.with_file_name(b, out) && a.with_extension(".x", out));
    CHECK(a.with_added_extension(".x", out) && a.is_canonical());
    CHECK(a.canonical(out) && a.to_string_lossy(out) && a.resolved(out));
    CHECK(a.relative_path("/a/b", out));
    CHECK(a.join_verbatim("c", out) && a.join_verbatim(b, out).error() == error::escapes);
    CHECK(a.join_beneath(b, out) && a.join_in_root(b, out) && a == a && a <= a && length > 0);
    CHECK(!b.escapes() && !b.request_is_root() && !b.ends_in_slash());
    CHECK(a.strip_prefix("/a/root")->file_name() == "be" && a.common_dir(b) == 0);
    CHECK(requests == before);
    const std::string joined = a.join(b), canonical = a.canonical(), text = a.to_string_lossy();
    CHECK(requests == before + 3);
    const std::string resolved = a.resolved();
    const auto beneath = a.join_beneath(b);
    CHECK(requests == before + 5 && resolved == root && *beneath == root + "/b.c");
}

// Returns true if std::terminate ends a child process that calls `look`, which uses a missing
// value.
bool ends_program(void (*look)()) {
    std::fflush(stdout);
    const pid_t child = fork();
    if (child == 0) {
        std::set_terminate([] { std::_Exit(7); });
        look();
        std::_Exit(0);
    }
    int status = 0;
    return child > 0 && waitpid(child, &status, 0) == child && WIFEXITED(status)
           && WEXITSTATUS(status) == 7;
}

void looked_at_errors() {
    CHECK(ends_program([] { std::puts((*view("a").join_verbatim("..")).c_str()); }));
    CHECK(ends_program([] { std::puts(view("a").join_verbatim("..")->c_str()); }));
    CHECK(ends_program([] {
        const auto refused = view("a").with_extension("/");
        std::puts((*refused).c_str());
    }));
    CHECK(ends_program([] { std::puts(view("a").join_verbatim("..").value().c_str()); }));
    CHECK(ends_program([] {
        const auto refused = view("a").with_extension("/");
        std::puts(refused.value().c_str());
    }));
    CHECK(ends_program([] { (void)view("a").join_verbatim("b").error(); }));
    CHECK(!ends_program([] { (void)view("a").join_verbatim("..").error(); }));
    CHECK(!ends_program([] { (void)view("a").join_verbatim("b").value(); }));
}

}  // namespace

int main() {
    run("comparisons", comparisons);
    run("names", names);
    run("results", results);
    run("results that are moved", moved_results);
    run("results by functions", chained_results);
    run("results in buffers, by functions", chained_buffers);
    run("checked requests", checked_requests);
    run("places", places);
    run("iterators", iterators);
    run("reversed parts", reversed_parts);
    run("values that iterators return", returned_values);
    run("components as texts and paths", converted_parts);
    run("streams", streams);
    run("pipelines", pipelines);
    run("walks", walks);
    run("parents", parents);
    run("chunks", chunks);
    run("buffers", buffers);
    run("null views", null_views);
    run("maps", maps);
    run("memory", memory);
    run("errors that are looked at", looked_at_errors);
    return finish();
}
