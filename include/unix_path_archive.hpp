// Whether the entries of an archive can lead an extractor out of its directory, for C++17 and
// later, over unix_path.hpp.
//
// This asks before it unpacks. Here a file would be written through a link:
//
//     const unix_path::entry list[] = {{unix_path::entry_kind::symbolic_link, "x", "/etc"},
//                                      {unix_path::entry_kind::file, "x/passwd"}};
//     if (auto decision = unix_path::check_entries(list)) {
//         std::cout << "unpack it\n";
//     } else {
//         const unix_path::refusal why = decision.refusal();
//         std::cout << list[why.entry].path << ": " << why.reason << '\n';
//     }
//
// It prints `x: leads_out`. The example needs <iostream>.
//
// unix_path.h has the rule, above unix_path_check_entries, and what it promises. The list has to
// come from the program that extracts, with the same options, and the directory has to be new.
#ifndef UNIX_PATH_ARCHIVE_HPP
#define UNIX_PATH_ARCHIVE_HPP

#include "unix_path.hpp"

#if __cplusplus >= 201703L

#include <initializer_list>
#include <vector>

namespace unix_path {

/// The kind of an entry, as the letter in a listing. Devices and the like are `other`.
enum class entry_kind : char {
    directory = 'd',
    file = 'f',
    symbolic_link = 'l',
    hard_link = 'h',
    other = 'o',
};

/// An entry of an archive: its kind, its path and a link's target, whose bytes live elsewhere.
struct entry {
    entry_kind kind;
    std::string_view path;
    std::string_view target = {};
};

/// Which extractors write nothing outside for an accepted list. In doubt, take `closed`.
enum class entry_level : std::uint32_t {
    /// Those that don't follow a symbolic link when they work on the link's own path. Links may
    /// lead anywhere afterwards.
    inside = UNIX_PATH_INSIDE,
    /// Also those that do. No link that they make leads out.
    closed = UNIX_PATH_CLOSED,
};

/// Why an entry is refused. An extractor uses the path of each entry and the target of each hard
/// link.
enum class refusal_reason : std::uint32_t {
    /// A path that is used has a root or a `..`, or ends in `/` or `/.` though it is not a
    /// directory's; or the entry has a NUL.
    name = UNIX_PATH_REFUSED_NAME,
    /// The kind is `other`.
    other_kind = UNIX_PATH_REFUSED_KIND,
    /// A path that is used is below a file's or a link's.
    below_leaf = UNIX_PATH_REFUSED_BELOW_LEAF,
    /// The path of a symbolic link is used twice.
    link_used_twice = UNIX_PATH_REFUSED_LINK_USED_TWICE,
    /// The target of a hard link is a link.
    target_is_link = UNIX_PATH_REFUSED_TARGET_IS_LINK,
    /// At the level `closed`: the target of a symbolic link has a root, more `..` than directories
    /// above the link, or a `..` after a name.
    leads_out = UNIX_PATH_REFUSED_LEADS_OUT,
};

/// Returns the reason's name, such as "below_leaf": a C string of static storage duration.
constexpr const char *to_string(refusal_reason why) noexcept {
    switch (why) {
    case refusal_reason::other_kind:
        return "other_kind";
    case refusal_reason::below_leaf:
        return "below_leaf";
    case refusal_reason::link_used_twice:
        return "link_used_twice";
    case refusal_reason::target_is_link:
        return "target_is_link";
    case refusal_reason::leads_out:
        return "leads_out";
    case refusal_reason::name:
        break;
    }
    return "name";
}

/// Writes the reason's name.
template <typename Traits>
std::basic_ostream<char, Traits> &operator<<(std::basic_ostream<char, Traits> &out,
                                             refusal_reason why) {
    return out << to_string(why);
}

/// A refused entry: its index, the index of the entry that it clashes with, or its own, and why.
struct refusal {
    std::size_t entry, cause;
    refusal_reason reason;
};

/// What check_entries decides: true if the entries are accepted.
class [[nodiscard]] decision {
  public:
    decision() noexcept = default;
    decision(unix_path::refusal why) noexcept : refusal_(why) {}

    bool is_accepted() const noexcept { return !refusal_.has_value(); }
    explicit operator bool() const noexcept { return is_accepted(); }
    /// Returns the refused entry with the lowest index. If there is none, ends the program by
    /// std::terminate.
    unix_path::refusal refusal() const noexcept {
        if (is_accepted()) {
            std::terminate();
        }
        return *refusal_;
    }

  private:
    std::optional<unix_path::refusal> refusal_{};
};

namespace detail {

// The records of entries that unix_path_check_entries reads.
class entry_records {
  public:
    // Appends an entry. Returns false for one with a NUL, which no record can have.
    bool add(const entry &added) {
        if (view(added.path).has_nul() || view(added.target).has_nul()) {
            return false;
        }
        bytes_ += letter(added.kind);
        bytes_.append(1, '\0').append(added.path).append(1, '\0').append(added.target);
        bytes_ += '\0';
        count_++;
        return true;
    }

    std::size_t count() const noexcept { return count_; }

    // Returns what the library decides. An index that is none of the entries' becomes the last.
    decision check(entry_level level) const {
        if (count_ == 0) {
            return {};
        }
        const std::size_t needed = unix_path_entries_scratch(bytes_.data(), bytes_.size());
        std::vector<unix_path_slot> slots(needed == 0 ? 1 : needed);
        unix_path_refusal found = {0, 0, UNIX_PATH_REFUSED_NAME};
        const std::uint32_t answer =
            unix_path_check_entries(bytes_.data(), bytes_.size(), slots.data(), slots.size(),
                                    static_cast<std::uint32_t>(level), &found);
        if (answer == UNIX_PATH_ENTRIES_ACCEPTED) {
            return {};
        }
        const std::size_t last = count_ - 1;
        return refusal{found.entry < last ? found.entry : last,
                       found.cause < last ? found.cause : last,
                       static_cast<refusal_reason>(found.reason)};
    }

  private:
    static char letter(entry_kind kind) noexcept {
        switch (kind) {
        case entry_kind::directory:
        case entry_kind::file:
        case entry_kind::symbolic_link:
        case entry_kind::hard_link:
            return static_cast<char>(kind);
        case entry_kind::other:
            break;
        }
        return static_cast<char>(entry_kind::other);
    }

    std::string bytes_{};
    std::size_t count_ = 0;
};

}  // namespace detail

/// Decides whether an extractor that unpacks these entries can write outside of its new directory.
/// The range is of what converts to `entry`. Allocates the records, and 40 bytes for each entry and
/// each hard link. A list without entries is accepted: refuse it if the listing may have failed.
template <typename Range>
decision check_entries(Range &&entries, entry_level level = entry_level::closed) {
    detail::entry_records records;
    for (const entry it : entries) {
        if (!records.add(it)) {
            const decision before = records.check(level);
            const std::size_t index = records.count();
            return before ? decision(refusal{index, index, refusal_reason::name}) : before;
        }
    }
    return records.check(level);
}
inline decision check_entries(std::initializer_list<entry> entries,
                              entry_level level = entry_level::closed) {
    return check_entries<const std::initializer_list<entry> &>(entries, level);
}

}  // namespace unix_path

#endif
#endif
