// The rows of tests/rows.txt, for the header for C++. Each row is written again with the answer of
// the member that the row names. If the two rows differ, the row in the file is wrong or malformed.
#include "unix_path.hpp"

#include <algorithm>
#include <cstdio>
#include <cstdlib>
#include <fstream>
#include <iterator>
#include <optional>
#include <string>
#include <string_view>
#include <vector>

#include "check.hpp"

namespace {

using unix_path::component;
using unix_path::component_kind;
using unix_path::result;
using unix_path::view;
using fields = std::vector<std::string>;

// Returns the field that represents these bytes.
std::string spelled(std::string_view bytes) {
    std::string field;
    for (std::size_t at = 0; at < bytes.size(); at++) {
        const auto byte = static_cast<unsigned char>(bytes[at]);
        const bool is_at_end = at == 0 || at + 1 == bytes.size();
        const bool is_coded = byte < ' ' || byte > '~' || byte == '|'
                              || (byte == ' ' && is_at_end) || (byte == '!' && at == 0);
        char form[5];
        std::snprintf(form, sizeof form, is_coded ? "\\x%02X" : byte == '\\' ? "\\%c" : "%c", byte);
        field += form;
    }
    return field;
}

// Returns the bytes that a field represents.
std::string unescaped(std::string_view field) {
    std::string bytes;
    for (std::size_t at = 0; at < field.size(); at++) {
        if (field.substr(at, 2) == "\\x" && field.size() - at >= 4) {
            const std::string digits(field.substr(at + 2, 2));
            bytes += static_cast<char>(std::strtoul(digits.c_str(), nullptr, 16));
            at += 3;
        } else {
            at += field[at] == '\\' && at + 1 < field.size() ? 1 : 0;
            bytes += field[at];
        }
    }
    return bytes;
}

// Returns the answer of a member for a path, as the fields of a row.
fields shown(view, const fields &answer) { return answer; }

fields shown(view, bool is_true) { return {is_true ? "true" : "false"}; }

fields shown(view, std::size_t number) { return {std::to_string(number)}; }

fields shown(view, unix_path::request_check check) {
    return {std::to_string(static_cast<int>(check))};
}

fields shown(view, const std::string &bytes) { return {spelled(bytes)}; }

fields shown(view, const result<std::string> &answer) {
    return {answer ? spelled(*answer) : std::string("!") + unix_path::to_string(answer.error())};
}

fields shown(view path, std::optional<view> place) {
    if (!place) {
        return {"!none"};
    }
    return {spelled(place->bytes()), std::to_string(place->data() - path.data())};
}

fields shown(view path, std::optional<std::string_view> place) {
    return shown(path, place ? std::optional<view>(*place) : std::nullopt);
}

fields hash_of(view path) {
    char digits[32];
    std::snprintf(digits, sizeof digits, "0x%016llx", static_cast<unsigned long long>(path.hash()));
    return {digits};
}

// Returns the order of two paths, checked against the order of the swapped paths and the operators.
fields order_of(view a, view b) {
    const int order = a.compare(b);
    const bool is_known = b.compare(a) == -order && (a == b) == (order == 0)
                          && (a < b) == (order < 0) && (a >= b) == (order >= 0);
    return {is_known ? std::to_string(order) : "not from each side"};
}

component_kind kind_of(std::string_view part) {
    return part == "/"    ? component_kind::root_dir
           : part == "."  ? component_kind::cur_dir
           : part == ".." ? component_kind::parent_dir
                          : component_kind::normal;
}

// Returns the components of an iterator. Checks that the reverse iterator returns the same, and
// that the rest of a new walk reaches from the first component to the last.
fields parts_of(view path, view) {
    const unix_path::components all = path.components();
    std::vector<component> parts(all.begin(), all.end());
    bool is_known = std::vector<component>(all.rbegin(), all.rend())
                    == std::vector<component>(parts.rbegin(), parts.rend());
    fields taken;
    for (component part : parts) {
        is_known = is_known && part.kind() == kind_of(part.bytes());
        taken.push_back(spelled(part.bytes()));
        taken.push_back(std::to_string(part.bytes().data() - path.data()));
    }
    const view whole = unix_path::walk(path).rest();
    if (!parts.empty()) {
        const std::string_view last = parts.back().bytes();
        is_known = is_known && whole.data() == parts.front().bytes().data()
                   && whole.data() + whole.size() == last.data() + last.size();
    }
    return is_known && whole.empty() == parts.empty() ? taken : fields{"not from each end"};
}

fields ancestors_of(view path, view) {
    fields taken;
    for (view ancestor : path.ancestors()) {
        const bool begins = ancestor.data() == path.data();
        taken.push_back(begins ? spelled(ancestor.bytes()) : "not the path's beginning");
    }
    return taken;
}

fields chunks_of(view path, view) {
    fields taken;
    for (unix_path::chunk chunk : path.chunks()) {
        taken.push_back(spelled(chunk.valid));
        taken.push_back(spelled(chunk.broken));
    }
    return taken;
}

// A view that has a member for each call, also for calls that are operators or functions in the
// header, and for calls that have further checks.
struct all_calls : view {
    explicit all_calls(view path) : view(path) {}
    fields compare(view b) const { return order_of(*this, b); }
    fields hash() const { return hash_of(*this); }
    bool equal(view b) const { return *this == b && !(*this != b); }
    result<std::string> from_key() const { return unix_path::from_key(bytes()); }
    result<std::string> key_range_end() const { return unix_path::key_range_end(bytes()); }
};

// A call: its name, the number of its paths, and the function that makes it.
struct call {
    std::string_view name;
    std::size_t paths;
    fields (*ask)(view, view);
};

const call calls[] = {
#define BEGIN(name) {#name, 1, parts_of},
#define NEXT_SPAN(name) {#name, 1, ancestors_of},
#define NEXT_CHUNK(name) {#name, 1, chunks_of},
#define FIND(name) {#name, 1, [](view a, view) { return shown(a, all_calls(a).name()); }},
#define ASK(answer, name) FIND(name)
#define MAKE(name) FIND(name)
#define FIND_OF_TWO(name)                                                                          \
    {#name, 2, [](view a, view b) { return shown(a, all_calls(a).name(b.bytes())); }},
#define ASK_TWO(answer, name) FIND_OF_TWO(name)
#define MAKE_OF_TWO(name) FIND_OF_TWO(name)
#include "../calls.inc"
};

// Makes the row's call, and returns the row written again with the call's result. Returns a message
// if there is no call with the row's name.
std::string asked(std::string_view row) {
    const std::string_view name = take_field(row);
    const auto call = std::find_if(std::begin(calls), std::end(calls),
                                   [&](const auto &it) { return it.name == name; });
    if (call == std::end(calls)) {
        return "no call of this name";
    }
    std::string paths[2], line(name);
    fields all;
    for (std::size_t at = 0; at < call->paths; at++) {
        paths[at] = unescaped(take_field(row));
        all.push_back(spelled(paths[at]));
    }
    for (const std::string &field : call->ask(paths[0], paths[1])) {
        all.push_back(field);
    }
    for (const std::string &field : all) {
        line += field.empty() ? " |" : " | " + field;
    }
    return line;
}

}  // namespace

int main() {
    std::ifstream file("tests/rows.txt");
    int count = 0, wrong = 0;
    for (std::string row; std::getline(file, row);) {
        if (row.empty() || row[0] == '#') {
            continue;
        }
        const std::string found = asked(row);
        count++;
        if (found != row && wrong++ < 5) {
            std::printf("%s, and not %s\n", found.c_str(), row.c_str());
        }
    }
    std::printf("%d rows, 0 left out; %d wrong\n", count, wrong);
    return count == 0 || wrong != 0;
}
