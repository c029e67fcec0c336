// The decision on the entries of an archive: the rows of tests/entries.txt, and what records can't
// have or come from.
#include "unix_path_archive.hpp"

#include <fstream>
#include <list>
#include <sstream>
#include <string>
#include <vector>

#include "check.hpp"

#ifdef HAS_VIEWS
#include <ranges>
#endif

namespace {

using unix_path::check_entries;
using unix_path::entry;
using unix_path::entry_kind;
using unix_path::entry_level;
using unix_path::refusal_reason;
using namespace std::string_view_literals;

constexpr entry_kind dir = entry_kind::directory, file = entry_kind::file,
                     link = entry_kind::symbolic_link;

// Returns a decision as a row has it: `accepted`, or the reason and both indices.
std::string shown(const unix_path::decision &found) {
    if (found) {
        return "accepted";
    }
    const unix_path::refusal why = found.refusal();
    std::ostringstream out;
    out << (why.reason == refusal_reason::other_kind ? "kind" : to_string(why.reason)) << ' '
        << why.entry << ' ' << why.cause;
    return out.str();
}

void rows() {
    std::ifstream table("tests/entries.txt");
    int count = 0;
    for (std::string line; std::getline(table, line);) {
        std::string_view left = line;
        if (line.empty() || line[0] == '#') {
            continue;
        }
        const bool is_inside = take_field(left) == "inside";
        const std::string_view wanted = take_field(left);
        std::vector<entry> list;
        while (!left.empty()) {
            const std::string_view kind = take_field(left), path = take_field(left);
            list.push_back({kind.size() == 1 ? entry_kind(kind[0]) : entry_kind::other, path,
                            take_field(left)});
        }
        const auto level = is_inside ? entry_level::inside : entry_level::closed;
        const std::string found = shown(check_entries(list, level));
        CHECK(found == wanted || std::printf("%s: %s\n", line.c_str(), found.c_str()) < 0);
        count++;
    }
    CHECK(count > 40);
}

// An entry with a NUL, which would begin another field, is refused, unless one before it is.
void nuls() {
    CHECK(shown(check_entries({{file, "a"}, {file, "b\0c"sv}})) == "name 1 1");
    CHECK(shown(check_entries({{link, "a", "b\0"sv}, {file, "/"}})) == "name 0 0");
    CHECK(shown(check_entries({{file, "a\0\0f\0b"sv}})) == "name 0 0");
    CHECK(shown(check_entries({{link, "a", "b"}, {file, "a/c"}, {file, "\0"sv}}))
          == "below_leaf 1 0");
    CHECK(shown(check_entries({{file, "a"}, {entry_kind('\0'), "b"}})) == "kind 1 1");
    CHECK(shown(check_entries({})) == "accepted");
}

// Any range will do whose items convert to entries.
void ranges() {
    struct header {
        std::string name;
        operator entry() const { return {file, name}; }
    };
    const std::list<header> headers{{"a"}, {"b"}, {"../c"}};
    CHECK(shown(check_entries(headers)) == "name 2 2");
    CHECK(check_entries(std::vector<header>{{"a"}, {"b"}}).is_accepted());
    const entry array[] = {{file, "a"}, {dir, "b"}};
    CHECK(check_entries(array).is_accepted());
#ifdef HAS_VIEWS
    const std::vector<std::string> names{"a", "b/../.."};
    const auto entry_of = [](const std::string &name) { return entry{file, name}; };
    CHECK(shown(check_entries(std::views::transform(names, entry_of))) == "name 1 1");
#endif
}

void names() {
    std::ostringstream out;
    for (auto why : {refusal_reason::name, refusal_reason::other_kind, refusal_reason::below_leaf,
                     refusal_reason::link_used_twice, refusal_reason::target_is_link,
                     refusal_reason::leads_out}) {
        out << why << ' ';
    }
    CHECK(out.str() == "name other_kind below_leaf link_used_twice target_is_link leads_out ");
}

}  // namespace

int main() {
    run("rows", rows);
    run("NULs", nuls);
    run("ranges", ranges);
    run("names", names);
    return finish();
}
