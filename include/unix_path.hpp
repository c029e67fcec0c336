// Unix paths as plain bytes, for C++17 and later, over the calls of unix_path.h. For a path that
// owns its bytes include unix_path_owned.hpp.
//
// This joins a request from outside to a root, so that the result stays beneath the root:
//
//     unix_path::view root = "/srv/www";
//     auto file = root.join_beneath("img/../a.png");
//     std::puts(file ? file->c_str() : unix_path::to_string(file.error()));
//
// It prints `/srv/www/a.png`. For the request `../etc/passwd` it would print the name of the error,
// escapes. For the decoded path of a URL call join_in_root.
//
// This looks up a path in a map that has the path in another spelling:
//
//     std::map<std::string, int, unix_path::less> sizes{{"src//main.c", 42}};
//     auto found = sizes.find(unix_path::view("src/./main.c"));
//     std::puts(found == sizes.end() ? "none" : found->first.c_str());
//
// It prints `src//main.c`. The look-up copies nothing.
//
// The components of a path are a range in both directions, and from C++20 on a view and a borrowed
// range:
//
//     auto parts = unix_path::view("/src/./main.c").components();
//     auto names = std::count_if(parts.begin(), parts.end(), [](unix_path::component part) {
//         return part.kind() == unix_path::kind::normal;
//     });
//     std::cout << names << " names, and the last is " << parts.back() << '\n';
//
// It prints `2 names, and the last is main.c`. The examples need <algorithm>, <cstdio>, <iostream>,
// <map> and <string>; unix_path.h says how to link.
//
// A member function does the same as the call of its name in unix_path.h. That header describes the
// calls, their error codes, and their use by threads and signal handlers. The calls are proved.
// This file is not: only tests check that it passes on arguments and results.
//
// unix_path_archive.hpp has the decision on archives.
//
// Nothing here throws by itself. A function that is `noexcept` does not allocate. A function that
// returns a std::string, or a result with one, throws std::bad_alloc if an allocation fails, and
// std::length_error if the result is longer than any string. A std::string_view with a null pointer
// is an empty path. A part of a path that a function returns, such as a file name, refers to the
// path's own bytes, which have to outlive it. clang warns of parts that don't.
#ifndef UNIX_PATH_HPP
#define UNIX_PATH_HPP

#if __cplusplus < 201703L
#error "unix_path.hpp needs C++17 or later"
#else

#include <cstddef>
#include <cstdint>
#include <exception>
#include <functional>
#include <iosfwd>
#include <iterator>
#include <optional>
#include <string>
#include <string_view>
#include <type_traits>
#include <utility>

#include "unix_path.h"

#ifndef unix_path_components
#error "unix_path.hpp needs the functions of unix_path.h, which UNIX_PATH_EXPORTS_ONLY leaves out"
#endif

#if defined(__cpp_impl_three_way_comparison) && __has_include(<compare>)
#include <compare>
#endif

#if defined(__has_cpp_attribute)
#if __has_cpp_attribute(clang::lifetimebound)
#define UNIX_PATH_LIFETIME [[clang::lifetimebound]]
#endif
#endif
#ifndef UNIX_PATH_LIFETIME
#define UNIX_PATH_LIFETIME
#endif

// Refuses a call with a sentence: older compilers show the line that has it.
#if __cplusplus > 202302L && defined(__cpp_deleted_function)
#define UNIX_PATH_REFUSED(sentence) = delete (sentence)
#else
#define UNIX_PATH_REFUSED(sentence) = delete
#endif

namespace unix_path {

/// The reason why a call has no result.
enum class error {
    /// The extension has a slash.
    separator,
    /// The request escapes; for join_verbatim, it has a root or any `..`.
    escapes,
    /// The request has a NUL byte, at which a system call ends a path.
    nul_in_request,
    /// No path has these bytes as its key.
    not_a_key,
    /// The key is empty, and its range has no end.
    no_end,
    /// No path without a root leads from the first path to the second.
    no_relative_path,
    /// The result has more bytes than a buffer can have.
    too_long,
    /// The caller's buffer is shorter than result::required_size().
    short_buffer,
};

/// Returns the error's name, such as "escapes": a C string of static storage duration.
constexpr const char *to_string(error why) noexcept {
    switch (why) {
    case error::separator:
        return "separator";
    case error::escapes:
        return "escapes";
    case error::nul_in_request:
        return "nul_in_request";
    case error::not_a_key:
        return "not_a_key";
    case error::no_end:
        return "no_end";
    case error::no_relative_path:
        return "no_relative_path";
    case error::too_long:
        return "too_long";
    case error::short_buffer:
        break;
    }
    return "short_buffer";
}

/// Writes the error's name. Here and below `<<` needs <ostream>, which a program that has a stream
/// includes.
template <typename Traits>
std::basic_ostream<char, Traits> &operator<<(std::basic_ostream<char, Traits> &out, error why) {
    return out << to_string(why);
}

/// The value that a call returns, or an error. Its members are named as in std::expected. Reading
/// the value of a result that has an error, or the error of a result that has a value, ends the
/// program by std::terminate, since nothing here throws.
template <typename T>
class [[nodiscard]] result {
  public:
    using value_type = T;
    using error_type = unix_path::error;

    result(T value) noexcept(std::is_nothrow_move_constructible_v<T>) : value_(std::move(value)) {}
    result(error_type why, std::size_t size = 0) noexcept : required_size_(size), error_(why) {}

    bool has_value() const noexcept { return value_.has_value(); }
    explicit operator bool() const noexcept { return has_value(); }

    /// Returns the value, as `*` does. If the result is an rvalue, the value is moved out of it.
    const T &value() const & noexcept UNIX_PATH_LIFETIME { return checked(); }
    T value() && noexcept(std::is_nothrow_move_constructible_v<T>) {
        checked();
        return std::move(*value_);
    }
    const T &operator*() const & noexcept UNIX_PATH_LIFETIME { return checked(); }
    T operator*() && noexcept(std::is_nothrow_move_constructible_v<T>) {
        return std::move(*this).value();
    }
    const T *operator->() const noexcept UNIX_PATH_LIFETIME { return &checked(); }
    /// Returns the value, or `other` if there is an error.
    T value_or(T other) const & { return has_value() ? *value_ : std::move(other); }
    T value_or(T other) && { return std::move(has_value() ? *value_ : other); }

    /// Returns the error, which `to_string(answer.error())` names.
    error_type error() const noexcept {
        if (has_value()) {
            std::terminate();
        }
        return error_;
    }
    /// Returns the number of bytes that the buffer needs if the error is `short_buffer`; otherwise
    /// returns 0.
    std::size_t required_size() const noexcept { return required_size_; }

    /// Calls the function with the value, and returns the function's result. If there is an error,
    /// returns a result of the same type with the error and `required_size()`.
    template <typename Function>
    auto and_then(Function &&function) const & {
        using next = std::decay_t<std::invoke_result_t<Function, const T &>>;
        return has_value() ? next(std::invoke(std::forward<Function>(function), *value_))
                           : next(error_, required_size_);
    }
    template <typename Function>
    auto and_then(Function &&function) && {
        using next = std::decay_t<std::invoke_result_t<Function, T>>;
        return has_value() ? next(std::invoke(std::forward<Function>(function), std::move(*value_)))
                           : next(error_, required_size_);
    }
    /// Like `and_then`, for a function that returns a plain value and not a result or void. Returns
    /// this value in a result.
    template <typename Function>
    auto transform(Function &&function) const & {
        using next = result<std::decay_t<std::invoke_result_t<Function, const T &>>>;
        return has_value() ? next(std::invoke(std::forward<Function>(function), *value_))
                           : next(error_, required_size_);
    }
    template <typename Function>
    auto transform(Function &&function) && {
        using next = result<std::decay_t<std::invoke_result_t<Function, T>>>;
        return has_value() ? next(std::invoke(std::forward<Function>(function), std::move(*value_)))
                           : next(error_, required_size_);
    }

  private:
    const T &checked() const noexcept {
        if (!has_value()) {
            std::terminate();
        }
        return *value_;
    }

    std::optional<T> value_{};
    std::size_t required_size_ = 0;
    error_type error_ = error_type::too_long;
};

/// The caller's buffer: a pointer and a size in bytes, an array of `char`, or anything with
/// `data()` and `size()`, such as a std::array, a std::vector or a std::span. An object that owns
/// its bytes, such as a std::vector, has to be a variable and not a temporary, so that the bytes
/// live on.
class buffer {
  public:
    constexpr buffer(char *data, std::size_t size) noexcept : data_(data), size_(size) {}
    template <std::size_t size>
    constexpr buffer(char (&array)[size]) noexcept : data_(array), size_(size) {}
    template <typename T, typename = std::enable_if_t<std::is_convertible_v<
                              decltype(std::declval<T &>().data()), char *>>>
    constexpr buffer(T &room) noexcept : data_(room.data()), size_(room.size()) {}
    template <typename T, typename = std::enable_if_t<std::is_convertible_v<
                              decltype(std::declval<const T &>().data()), char *>>>
    constexpr buffer(const T &room) noexcept : data_(room.data()), size_(room.size()) {}

    constexpr char *data() const noexcept { return data_; }
    constexpr std::size_t size() const noexcept { return size_; }

  private:
    char *data_;
    std::size_t size_;
};

/// The kind of a component.
enum class component_kind : std::uint32_t {
    root_dir = UNIX_PATH_ROOT_DIR,
    cur_dir = UNIX_PATH_CUR_DIR,
    parent_dir = UNIX_PATH_PARENT_DIR,
    normal = UNIX_PATH_NORMAL,
};

/// Returns the kind's name, such as "root_dir": a C string of static storage duration.
constexpr const char *to_string(component_kind kind) noexcept {
    switch (kind) {
    case component_kind::root_dir:
        return "root_dir";
    case component_kind::cur_dir:
        return "cur_dir";
    case component_kind::parent_dir:
        return "parent_dir";
    case component_kind::normal:
        break;
    }
    return "normal";
}

/// A shorter name: `part.kind() == unix_path::kind::normal`.
using kind = component_kind;

/// Writes the kind's name.
template <typename Traits>
std::basic_ostream<char, Traits> &operator<<(std::basic_ostream<char, Traits> &out,
                                             component_kind shown) {
    return out << to_string(shown);
}

/// A component of a path: its kind and its bytes, which are bytes of the path and not a copy.
/// Components are equal if both their kinds and their bytes are. A component converts to a
/// std::string_view, to a view, and by `std::string(part)` to a copy.
class component {
  public:
    constexpr component() noexcept = default;
    constexpr component(component_kind kind, std::string_view bytes) noexcept
        : kind_(kind), bytes_(bytes) {}

    constexpr component_kind kind() const noexcept { return kind_; }
    constexpr std::string_view bytes() const noexcept { return bytes_; }
    constexpr operator std::string_view() const noexcept { return bytes_; }

    friend bool operator==(component a, component b) noexcept {
        return a.kind_ == b.kind_ && a.bytes_ == b.bytes_;
    }
    friend bool operator!=(component a, component b) noexcept { return !(a == b); }
    /// Writes the bytes.
    template <typename Traits>
    friend std::basic_ostream<char, Traits> &operator<<(std::basic_ostream<char, Traits> &out,
                                                        component part) {
        return out << part.bytes_;
    }

  private:
    component_kind kind_ = component_kind::normal;
    std::string_view bytes_{};
};

/// A chunk of a path: valid UTF-8 and the invalid bytes after it, as unix_path_next_chunk finds
/// them. They are bytes of the path and not a copy.
struct chunk {
    std::string_view valid, broken;

    friend bool operator==(chunk a, chunk b) noexcept {
        return a.valid == b.valid && a.broken == b.broken;
    }
    friend bool operator!=(chunk a, chunk b) noexcept { return !(a == b); }
};

/// Returns the version of the loaded library, as unix_path_version does.
inline std::uint32_t version() noexcept { return unix_path_version(); }

/// The result of view::check_request.
enum class request_check : std::int32_t {
    ok = UNIX_PATH_REQUEST_OK,
    has_root = UNIX_PATH_REQUEST_HAS_ROOT,
    escapes = UNIX_PATH_REQUEST_ESCAPES,
    has_nul = UNIX_PATH_REQUEST_HAS_NUL,
};

class view;
class path;
class components;
class ancestors;
class chunks;

namespace detail {

// Returns at most `length` bytes from index `start` on, cut where the bytes end. Whatever the
// library returned, the slice is in these bytes.
constexpr std::string_view slice(std::string_view bytes, std::size_t start,
                                 std::size_t length) noexcept {
    return bytes.substr(start < bytes.size() ? start : bytes.size(), length);
}

// The calls with `out`, with the paths on which they are made.
struct of_one {
    std::size_t (*call)(const void *, std::size_t, void *, std::size_t);
    std::string_view a;
    std::size_t operator()(char *out, std::size_t room) const noexcept {
        return call(a.data(), a.size(), out, room);
    }
};
struct of_two {
    std::size_t (*call)(const void *, std::size_t, const void *, std::size_t, void *, std::size_t);
    std::string_view a, b;
    std::size_t operator()(char *out, std::size_t room) const noexcept {
        return call(a.data(), a.size(), b.data(), b.size(), out, room);
    }
};

inline error error_of(std::size_t answer) noexcept {
    switch (answer) {
    case UNIX_PATH_SEPARATOR: return error::separator;
    case UNIX_PATH_ESCAPES: return error::escapes;
    case UNIX_PATH_NUL_IN_REQUEST: return error::nul_in_request;
    case UNIX_PATH_NOT_A_KEY: return error::not_a_key;
    case UNIX_PATH_NO_END: return error::no_end;
    case UNIX_PATH_NO_RELATIVE_PATH: return error::no_relative_path;
    default: return error::too_long;
    }
}

// Returns what the call writes, or its error. The string has `room` bytes at first.
template <typename Owned, typename Call>
result<Owned> grown(std::size_t room, const Call &call) {
    std::string out(room, '\0');
    for (;;) {
        const std::size_t length = call(out.data(), out.size());
        if (!unix_path_is_length(length)) {
            return error_of(length);
        }
        const bool is_written = length <= out.size();
        out.resize(length);
        if (is_written) {
            return result<Owned>(Owned(std::move(out)));
        }
    }
}

// Returns what a call writes that fails only if its result is longer than any string. For such a
// result the string throws std::length_error.
template <typename Owned, typename Call>
Owned whole(std::size_t room, const Call &call) {
    result<Owned> out = grown<Owned>(room, call);
    if (!out.has_value()) {
        std::string().reserve(SIZE_MAX);
    }
    return *std::move(out);
}

// Returns what the call writes to the buffer, or its error.
template <typename Call>
result<std::string_view> written(buffer out, const Call &call) noexcept {
    const std::size_t length = call(out.data(), out.size());
    if (!unix_path_is_length(length)) {
        return error_of(length);
    }
    if (length > out.size()) {
        return {error::short_buffer, length};
    }
    return std::string_view(out.data(), length);
}

// The operators of view and path, which both convert to a View. Paths are compared by components.
template <typename View>
class operators {
    friend bool operator==(View a, View b) noexcept {
        return unix_path_equal(a.data(), a.size(), b.data(), b.size());
    }
    friend bool operator!=(View a, View b) noexcept { return !(a == b); }
    friend bool operator<(View a, View b) noexcept { return a.compare(b) < 0; }
    friend bool operator<=(View a, View b) noexcept { return a.compare(b) <= 0; }
    friend bool operator>(View a, View b) noexcept { return a.compare(b) > 0; }
    friend bool operator>=(View a, View b) noexcept { return a.compare(b) >= 0; }
#ifdef __cpp_lib_three_way_comparison
    friend std::weak_ordering operator<=>(View a, View b) noexcept { return a.compare(b) <=> 0; }
#endif
    /// Returns the hash, under the name that Boost's containers look for.
    friend std::size_t hash_value(View path) noexcept { return path.hash(); }
    /// Writes the bytes, without quotes.
    template <typename Traits>
    friend std::basic_ostream<char, Traits> &operator<<(std::basic_ostream<char, Traits> &out,
                                                        View path) {
        return out << path.bytes();
    }
};

// The calls that view and path share: `Self` is one of the two, and `Owned` the type of the paths
// that it returns. View is view, which is not yet complete here.
template <typename View, typename Self, typename Owned>
class calls : public operators<View> {
  public:
    // Comparisons by components. `compare` returns -1, 0 or 1.

    int compare(View other) const noexcept {
        return unix_path_compare(self().data(), self().size(), other.data(), other.size());
    }
    std::uint64_t hash() const noexcept { return unix_path_hash(self().data(), self().size()); }

    // Questions.

    /// Returns true if there are no bytes.
    constexpr bool empty() const noexcept { return self().bytes().empty(); }
    /// Returns true if the path has a NUL byte, at which a system call ends the path.
    constexpr bool has_nul() const noexcept {
        return self().bytes().find('\0') != std::string_view::npos;
    }
    /// Returns true if this path begins with the components of base. `/dest/../etc` starts with
    /// `/dest`: join a path from outside by `join_beneath`.
    bool starts_with(View base) const noexcept {
        return unix_path_starts_with(self().data(), self().size(), base.data(), base.size());
    }
    bool ends_with(View end) const noexcept {
        return unix_path_ends_with(self().data(), self().size(), end.data(), end.size());
    }
    bool is_absolute() const noexcept {
        return unix_path_is_absolute(self().data(), self().size());
    }
    bool is_relative() const noexcept { return !is_absolute(); }
    bool is_utf8() const noexcept { return unix_path_is_utf8(self().data(), self().size()); }
    bool is_canonical() const noexcept {
        return unix_path_is_canonical(self().data(), self().size());
    }
    /// Returns true if the path has a root or ever goes above where it starts.
    bool escapes() const noexcept { return unix_path_escapes(self().data(), self().size()); }
    /// Returns the first reason for which `join_beneath` refuses a request, or `ok`.
    request_check check_request() const noexcept {
        return static_cast<request_check>(unix_path_check_request(self().data(), self().size()));
    }
    /// Returns true if no name remains of a request when `join_in_root` resolves it: the join is
    /// then the root itself.
    bool request_is_root() const noexcept {
        return unix_path_request_is_root(self().data(), self().size());
    }
    /// Returns true if the last component is a name and a slash or a `/.` follows it.
    bool ends_in_slash() const noexcept {
        return unix_path_ends_in_slash(self().data(), self().size());
    }
    /// Returns the index just after the last slash of the longest prefix that the bytes of both
    /// paths share, or 0 if this prefix has no slash.
    std::size_t common_dir(View other) const noexcept {
        return unix_path_common_dir(self().data(), self().size(), other.data(), other.size());
    }

    // New paths and keys. Without `out`, a function allocates: a view returns a std::string, and a
    // path a path. With `out`, it writes to a buffer, allocates nothing and appends no NUL. An
    // error is the error code of the call: unix_path.h has a table of the error codes. The system
    // reads a path only up to its first NUL, for which `has_nul` tests, and refuses an empty path:
    // pass `.` instead.
    //
    // `join` is for trusted paths. The other joins are for requests, which are paths from outside.
    // They join a request to this path, the root, which stays verbatim. A table in unix_path.h
    // compares the four joins. All are lexical: where a component below the root may be a link, let
    // the system refuse links, as openat2 of Linux does.

    /// Joins two trusted paths. Returns `path` itself if it has a root. For a request from outside
    /// call `join_beneath` instead.
    Owned join(View path) const { return whole<Owned>(both(path), with(unix_path_join, path)); }
    result<std::string_view> join(View path, buffer out) const noexcept {
        return written(out, with(unix_path_join, path));
    }
    Owned with_file_name(View name) const {
        return whole<Owned>(both(name), with(unix_path_with_file_name, name));
    }
    result<std::string_view> with_file_name(View name, buffer out) const noexcept {
        return written(out, with(unix_path_with_file_name, name));
    }
    result<Owned> with_extension(std::string_view extension) const {
        return grown<Owned>(both(extension), with(unix_path_with_extension, extension));
    }
    result<std::string_view> with_extension(std::string_view extension, buffer out) const noexcept {
        return written(out, with(unix_path_with_extension, extension));
    }
    result<Owned> with_added_extension(std::string_view extension) const {
        return grown<Owned>(both(extension), with(unix_path_with_added_extension, extension));
    }
    result<std::string_view> with_added_extension(std::string_view extension, buffer out) const
        noexcept {
        return written(out, with(unix_path_with_added_extension, extension));
    }
    Owned canonical() const { return whole<Owned>(self().size(), with(unix_path_canonical)); }
    result<std::string_view> canonical(buffer out) const noexcept {
        return written(out, with(unix_path_canonical));
    }
    std::string to_string_lossy() const {
        return whole<std::string>(self().size(), with(unix_path_to_string_lossy));
    }
    result<std::string_view> to_string_lossy(buffer out) const noexcept {
        return written(out, with(unix_path_to_string_lossy));
    }
    Owned resolved() const { return whole<Owned>(self().size(), with(unix_path_resolved)); }
    result<std::string_view> resolved(buffer out) const noexcept {
        return written(out, with(unix_path_resolved));
    }
    /// Joins root and request verbatim, for a root whose components may be links. Refuses a request
    /// with a root, a `..` or a NUL. The system follows links below the root wherever they lead.
    result<Owned> join_verbatim(View request) const {
        return grown<Owned>(both(request), with(unix_path_join_verbatim, request));
    }
    result<std::string_view> join_verbatim(View request, buffer out) const noexcept {
        return written(out, with(unix_path_join_verbatim, request));
    }
    /// Joins a request that must stay beneath the root. Returns the root's bytes and then the names
    /// that the request resolves to, without the request's trailing slash. To resolve the root's
    /// own `..` too, join to the path that the root's `resolved` returns.
    result<Owned> join_beneath(View request) const {
        return grown<Owned>(both(request), with(unix_path_join_beneath, request));
    }
    result<std::string_view> join_beneath(View request, buffer out) const noexcept {
        return written(out, with(unix_path_join_beneath, request));
    }
    /// Joins a request as in a chroot, such as the decoded path of a URL. It is like
    /// `join_beneath`, except that leading slashes of the request are dropped, and a `..` at the
    /// root stays there. No call decodes `%2e`.
    result<Owned> join_in_root(View request) const {
        return grown<Owned>(both(request), with(unix_path_join_in_root, request));
    }
    result<std::string_view> join_in_root(View request, buffer out) const noexcept {
        return written(out, with(unix_path_join_in_root, request));
    }
    /// Returns the relative path from this path to `to`. Both are resolved lexically. Where a
    /// component of this path may be a link, only the system knows where `..` leads.
    result<Owned> relative_path(View to) const {
        return grown<Owned>(both(to), with(unix_path_relative_path, to));
    }
    result<std::string_view> relative_path(View to, buffer out) const noexcept {
        return written(out, with(unix_path_relative_path, to));
    }
    /// Returns the key of the path, for a store that compares keys byte by byte.
    std::string key() const { return whole<std::string>(self().size() + 2, with(unix_path_key)); }
    result<std::string_view> key(buffer out) const noexcept {
        return written(out, with(unix_path_key));
    }

    // Names of std::filesystem::path for which there is another name here, mostly since the result
    // differs. docs/CPP.md compares all of them.

    void begin() const UNIX_PATH_REFUSED("loop over components()");
    void end() const UNIX_PATH_REFUSED("loop over components()");
    void filename() const UNIX_PATH_REFUSED("call file_name(), which is nothing for `..`");
    void stem() const UNIX_PATH_REFUSED("call file_stem(), which is nothing for `..`");
    void parent_path() const UNIX_PATH_REFUSED("call parent(), which is nothing for `/`");
    void has_filename() const UNIX_PATH_REFUSED("call file_name().has_value()");
    void has_stem() const UNIX_PATH_REFUSED("call file_stem().has_value()");
    void has_extension() const UNIX_PATH_REFUSED("call extension().has_value()");
    void has_parent_path() const UNIX_PATH_REFUSED("call parent().has_value()");
    void root_name() const UNIX_PATH_REFUSED("no path has a root name");
    void has_root_name() const UNIX_PATH_REFUSED("no path has a root name");
    void root_path() const UNIX_PATH_REFUSED("call is_absolute(): the only root is `/`");
    void root_directory() const UNIX_PATH_REFUSED("call is_absolute(): the only root is `/`");
    void has_root_path() const UNIX_PATH_REFUSED("call is_absolute()");
    void has_root_directory() const UNIX_PATH_REFUSED("call is_absolute()");
    void relative_path() const UNIX_PATH_REFUSED("call strip_prefix(\"/\"), or base.relative_path");
    void has_relative_path() const UNIX_PATH_REFUSED("call strip_prefix(\"/\")");
    void lexically_normal() const UNIX_PATH_REFUSED("call resolved(), which drops a last slash");
    void lexically_relative(View) const UNIX_PATH_REFUSED("call base.relative_path(path)");
    void lexically_proximate(View) const UNIX_PATH_REFUSED("call base.relative_path(path)");
    void make_preferred() const UNIX_PATH_REFUSED("needs nothing: the separator is `/`");
    void generic_string() const UNIX_PATH_REFUSED("call string() of path");
    void u8string() const UNIX_PATH_REFUSED("call string() of path, or is_utf8()");
    void remove_filename() const UNIX_PATH_REFUSED("call pop() of path");
    void replace_filename(View) const UNIX_PATH_REFUSED("call set_file_name of path");
    void replace_extension(View) const UNIX_PATH_REFUSED("call set_extension(\"rs\") of path");

  private:
    constexpr const Self &self() const noexcept { return static_cast<const Self &>(*this); }
    of_one with(std::size_t (*call)(const void *, std::size_t, void *, std::size_t)) const
        noexcept {
        return {call, self().bytes()};
    }
    of_two with(std::size_t (*call)(const void *, std::size_t, const void *, std::size_t, void *,
                                    std::size_t),
                View other) const noexcept {
        return {call, self().bytes(), other.bytes()};
    }
    // Returns the size of this path and another, with one byte between them.
    std::size_t both(View other) const noexcept { return self().size() + other.size() + 1; }
};

}  // namespace detail

/// A path, which refers to bytes that live elsewhere. Paths are compared by their components:
/// `a/./b//` equals `a/b`. To compare bytes, compare `bytes()`. The calls of detail::calls above,
/// such as `starts_with` and `join_beneath`, are members too.
class view : public detail::calls<view, view, std::string> {
  public:
    constexpr view() noexcept = default;
    constexpr view(std::string_view bytes) noexcept : bytes_(bytes) {}
    view(const std::string &bytes UNIX_PATH_LIFETIME) noexcept : bytes_(bytes) {}
    /// Creates a path that ends at the string's first NUL. The null pointer becomes the empty path.
    constexpr view(const char *string) noexcept
        : bytes_(string == nullptr ? std::string_view() : std::string_view(string)) {}
    view(std::nullptr_t) = delete;
    /// Creates a path of one component.
    constexpr view(component part) noexcept : bytes_(part.bytes()) {}
    /// Refers to the bytes of a path of unix_path_owned.hpp.
    view(const path &owned UNIX_PATH_LIFETIME) noexcept;
    /// Refuses types that convert to a temporary std::string, to whose bytes the view could not
    /// refer.
    template <class T, std::enable_if_t<std::is_convertible_v<const T &, std::string> &&
                                            !std::is_convertible_v<const T &, std::string_view> &&
                                            !std::is_convertible_v<const T &, const char *> &&
                                            !std::is_base_of_v<path, T>,
                                        int> = 0>
    view(const T &) UNIX_PATH_REFUSED("pass native() of a std::filesystem::path");

    constexpr std::string_view bytes() const noexcept { return bytes_; }
    constexpr const char *data() const noexcept { return bytes_.data(); }
    constexpr std::size_t size() const noexcept { return bytes_.size(); }
    /// Returns a copy of the bytes.
    explicit operator std::string() const { return std::string(bytes_); }
    /// A system call needs a NUL after the path, which a view doesn't have.
    void c_str() const UNIX_PATH_REFUSED("call path(view).c_str(): a view has no NUL after it");
    void native() const UNIX_PATH_REFUSED("call bytes(): a view has no string");
    void string() const UNIX_PATH_REFUSED("call std::string(view): a view has no string");
    bool pop() const UNIX_PATH_REFUSED("call parent(): a view doesn't change");

    // Slices of the path. The parent, and the rest after a base, are views. A name, or a part of
    // one, is a std::string_view.

    std::optional<view> parent() const noexcept {
        unix_path_span span;
        return path_at(unix_path_parent(data(), size(), &span), span);
    }
    /// Returns the rest of the path after base, or nothing if `starts_with(base)` is false. For
    /// `/dest/../etc` and `/dest` it is `../etc`.
    std::optional<view> strip_prefix(view base) const noexcept {
        unix_path_span span;
        return path_at(
            unix_path_strip_prefix(data(), size(), base.data(), base.size(), &span), span);
    }
    std::optional<std::string_view> file_name() const noexcept {
        unix_path_span span;
        return text_at(unix_path_file_name(data(), size(), &span), span);
    }
    std::optional<std::string_view> file_stem() const noexcept {
        unix_path_span span;
        return text_at(unix_path_file_stem(data(), size(), &span), span);
    }
    /// Returns the part of the file name after its last dot: `gz` for `a.tar.gz`, and not `.gz`.
    std::optional<std::string_view> extension() const noexcept {
        unix_path_span span;
        return text_at(unix_path_extension(data(), size(), &span), span);
    }
    std::optional<std::string_view> file_prefix() const noexcept {
        unix_path_span span;
        return text_at(unix_path_file_prefix(data(), size(), &span), span);
    }
    /// Returns the components, as a range in both directions.
    unix_path::components components() const noexcept;
    /// Returns the path, its parent, the parent's parent, and so on.
    unix_path::ancestors ancestors() const noexcept;
    /// Returns the chunks of valid UTF-8 and of invalid bytes.
    unix_path::chunks chunks() const noexcept;

  private:
    std::optional<std::string_view> text_at(bool is_there, const unix_path_span &span) const
        noexcept {
        return is_there ? std::optional(detail::slice(bytes_, span.start, span.length))
                        : std::nullopt;
    }
    std::optional<view> path_at(bool is_there, const unix_path_span &span) const noexcept {
        return is_there ? std::optional(view(detail::slice(bytes_, span.start, span.length)))
                        : std::nullopt;
    }

    std::string_view bytes_{};
};

/// A walk that takes components from both ends. The components taken from the front, those of the
/// rest, and those taken from the back are together the path's components, however the calls are
/// mixed.
class walk {
  public:
    explicit walk(view path) noexcept : path_(path) {
        unix_path_components(path.data(), path.size(), &walk_);
    }
    /// Takes and returns the first component of the rest, or nothing if the rest is empty.
    std::optional<component> next() noexcept {
        unix_path_part part;
        return part_at(unix_path_next(path_.data(), path_.size(), &walk_, &part), part);
    }
    /// Takes and returns the last component of the rest, or nothing if the rest is empty.
    std::optional<component> next_back() noexcept {
        unix_path_part part;
        return part_at(unix_path_next_back(path_.data(), path_.size(), &walk_, &part), part);
    }
    /// Returns the rest, as a path.
    view rest() const noexcept {
        unix_path_span span;
        unix_path_as_path(path_.data(), path_.size(), &walk_, &span);
        return detail::slice(path_.bytes(), span.start, span.length);
    }

  private:
    std::optional<component> part_at(bool is_there, const unix_path_part &part) const noexcept {
        if (!is_there) {
            return std::nullopt;
        }
        return component(static_cast<component_kind>(part.kind),
                         detail::slice(path_.bytes(), part.start, part.length));
    }

    view path_;
    unix_path_walk walk_{};
};

namespace detail {

// The result of an iterator's `->` if its `*` returns a value and not a reference.
template <typename T>
class arrow {
  public:
    explicit arrow(T value) noexcept : value_(value) {}
    const T *operator->() const noexcept { return &value_; }

  private:
    T value_;
};

}  // namespace detail

// The iterators below return values, which outlive the iterator and refer to the path's bytes. Two
// iterators over one path are equal if both are at the same item, or both at the end. By C++17's
// rules an iterator that returns values is only an input iterator. Nevertheless these iterators,
// like those of std::vector<bool>, have the category of the steps that they can make, so that
// std::prev can step back.

/// The components of a path, as a range in both directions.
class components {
  public:
    /// The position of a component, or the end.
    class iterator {
      public:
        using iterator_category = std::bidirectional_iterator_tag;
        using value_type = component;
        using difference_type = std::ptrdiff_t;
        using reference = component;
        using pointer = detail::arrow<component>;

        iterator() noexcept = default;
        component operator*() const noexcept {
            return {static_cast<component_kind>(part_.kind),
                    detail::slice(path_.bytes(), part_.start, part_.length)};
        }
        pointer operator->() const noexcept { return pointer(**this); }
        iterator &operator++() noexcept {
            unix_path_walk left = left_;
            unix_path_part part;
            if (left.front == unknown) {
                left = {part_.start, path_.size()};
                // Takes the component that this iterator is at.
                (void)unix_path_next(path_.data(), path_.size(), &left, &part);
            }
            const bool is_left = unix_path_next(path_.data(), path_.size(), &left, &part);
            *this = is_left ? iterator(path_, left, part) : iterator(path_, path_.size());
            return *this;
        }
        iterator &operator--() noexcept {
            unix_path_walk before = {0, part_.start};
            unix_path_part part;
            const bool is_there = unix_path_next_back(path_.data(), path_.size(), &before, &part);
            before.front = unknown;
            *this = is_there ? iterator(path_, before, part) : iterator(path_, path_.size());
            return *this;
        }
        iterator operator++(int) noexcept {
            iterator before = *this;
            ++*this;
            return before;
        }
        iterator operator--(int) noexcept {
            iterator before = *this;
            --*this;
            return before;
        }
        friend bool operator==(const iterator &a, const iterator &b) noexcept {
            return a.part_.start == b.part_.start;
        }
        friend bool operator!=(const iterator &a, const iterator &b) noexcept { return !(a == b); }

      private:
        friend class components;
        // The value of left_.front after a step back. The next step forward then computes left_.
        static constexpr std::size_t unknown = SIZE_MAX;

        // Creates an iterator from which `++` steps to the first component at or after index
        // `start`. If `start` is the path's length, it is the end.
        iterator(view path, std::size_t start) noexcept
            : path_(path), left_{start, path.size()}, part_{start, 0, UNIX_PATH_NORMAL} {}
        iterator(view path, unix_path_walk left, const unix_path_part &part) noexcept
            : path_(path), left_(left), part_(part) {}

        view path_;
        // The rest of a walk that has just taken this iterator's component.
        unix_path_walk left_ = {0, 0};
        unix_path_part part_ = {0, 0, UNIX_PATH_NORMAL};
    };
    /// Steps from the last component to the first. std::reverse_iterator does not work here: in
    /// C++17 its `->` in libc++ takes the address of the result of `*`, which is a temporary value.
    class reverse_iterator {
      public:
        using iterator_category = std::bidirectional_iterator_tag;
        using value_type = component;
        using difference_type = std::ptrdiff_t;
        using reference = component;
        using pointer = iterator::pointer;

        reverse_iterator() noexcept = default;
        explicit reverse_iterator(iterator base) noexcept : base_(base) {}
        /// Returns the position after the component, as std::reverse_iterator does.
        iterator base() const noexcept { return base_; }
        component operator*() const noexcept { return *--base(); }
        pointer operator->() const noexcept { return pointer(**this); }
        reverse_iterator &operator++() noexcept {
            --base_;
            return *this;
        }
        reverse_iterator &operator--() noexcept {
            ++base_;
            return *this;
        }
        reverse_iterator operator++(int) noexcept { return reverse_iterator(base_--); }
        reverse_iterator operator--(int) noexcept { return reverse_iterator(base_++); }
        friend bool operator==(const reverse_iterator &a, const reverse_iterator &b) noexcept {
            return a.base_ == b.base_;
        }
        friend bool operator!=(const reverse_iterator &a, const reverse_iterator &b) noexcept {
            return !(a == b);
        }

      private:
        iterator base_;
    };
    using const_iterator = iterator;
    using value_type = component;

    components() noexcept = default;
    explicit components(view path) noexcept : path_(path) {}
    iterator begin() const noexcept { return ++iterator(path_, 0); }
    iterator end() const noexcept { return iterator(path_, path_.size()); }
    reverse_iterator rbegin() const noexcept { return reverse_iterator(end()); }
    reverse_iterator rend() const noexcept { return reverse_iterator(begin()); }
    /// Returns the first component, which only the empty path lacks. There it is an empty name.
    component front() const noexcept { return *begin(); }
    /// Returns the last component, which only the empty path lacks. There it is an empty name.
    component back() const noexcept { return *rbegin(); }
    /// Returns true if there is no component: only the empty path has none.
    bool empty() const noexcept { return path_.empty(); }

  private:
    view path_;
};

/// A path and its parents, longest first, as a range in one direction.
class ancestors {
  public:
    class iterator {
      public:
        using iterator_category = std::forward_iterator_tag;
        using value_type = view;
        using difference_type = std::ptrdiff_t;
        using reference = view;
        using pointer = detail::arrow<view>;

        iterator() noexcept = default;
        explicit iterator(view path) noexcept : whole_(path), next_(path.size()) { ++*this; }
        view operator*() const noexcept { return *path_; }
        pointer operator->() const noexcept { return pointer(**this); }
        iterator &operator++() noexcept {
            unix_path_span span;
            const bool is_there =
                unix_path_next_ancestor(whole_.data(), whole_.size(), &next_, &span);
            path_ = is_there ? std::optional(view(detail::slice(whole_.bytes(), 0, span.length)))
                             : std::nullopt;
            return *this;
        }
        iterator operator++(int) noexcept {
            iterator before = *this;
            ++*this;
            return before;
        }
        friend bool operator==(const iterator &a, const iterator &b) noexcept {
            return a.path_.has_value() == b.path_.has_value()
                   && (!a.path_ || a.path_->size() == b.path_->size());
        }
        friend bool operator!=(const iterator &a, const iterator &b) noexcept { return !(a == b); }

      private:
        // The path whose ancestors these are, and the length of its next ancestor.
        view whole_{};
        std::size_t next_ = SIZE_MAX;
        std::optional<view> path_{};
    };
    using const_iterator = iterator;
    using value_type = view;

    ancestors() noexcept = default;
    explicit ancestors(view path) noexcept : path_(path) {}
    iterator begin() const noexcept { return iterator(path_); }
    iterator end() const noexcept { return iterator(); }

  private:
    view path_;
};

/// The chunks of a path, as a range in one direction.
class chunks {
  public:
    class iterator {
      public:
        using iterator_category = std::forward_iterator_tag;
        using value_type = chunk;
        using difference_type = std::ptrdiff_t;
        using reference = chunk;
        using pointer = detail::arrow<chunk>;

        iterator() noexcept = default;
        explicit iterator(view path) noexcept : path_(path), next_(0) { ++*this; }
        chunk operator*() const noexcept { return *chunk_; }
        pointer operator->() const noexcept { return pointer(**this); }
        iterator &operator++() noexcept {
            unix_path_chunk found;
            if (!unix_path_next_chunk(path_.data(), path_.size(), &next_, &found)) {
                chunk_ = std::nullopt;
                return *this;
            }
            const std::string_view left = detail::slice(path_.bytes(), found.start, SIZE_MAX);
            chunk_ = chunk{detail::slice(left, 0, found.valid_length),
                           detail::slice(left, found.valid_length, found.broken_length)};
            return *this;
        }
        iterator operator++(int) noexcept {
            iterator before = *this;
            ++*this;
            return before;
        }
        friend bool operator==(const iterator &a, const iterator &b) noexcept {
            return a.chunk_.has_value() == b.chunk_.has_value()
                   && (!a.chunk_ || a.next_ == b.next_);
        }
        friend bool operator!=(const iterator &a, const iterator &b) noexcept { return !(a == b); }

      private:
        // The path, and the index of its next chunk.
        view path_{};
        std::size_t next_ = SIZE_MAX;
        std::optional<chunk> chunk_{};
    };
    using const_iterator = iterator;
    using value_type = chunk;

    chunks() noexcept = default;
    explicit chunks(view path) noexcept : path_(path) {}
    iterator begin() const noexcept { return iterator(path_); }
    iterator end() const noexcept { return iterator(); }

  private:
    view path_;
};

inline unix_path::components view::components() const noexcept {
    return unix_path::components(*this);
}
inline unix_path::ancestors view::ancestors() const noexcept { return unix_path::ancestors(*this); }
inline unix_path::chunks view::chunks() const noexcept { return unix_path::chunks(*this); }

/// Compares paths by their components. A `std::map<std::string, V, less>` looks up a view without
/// copying its bytes.
struct less {
    using is_transparent = void;
    bool operator()(view a, view b) const noexcept { return a < b; }
};

/// Returns true if two paths have the same components.
struct equal_to {
    using is_transparent = void;
    bool operator()(view a, view b) const noexcept { return a == b; }
};

/// Hashes a path. In a `std::unordered_map<std::string, V, hash, equal_to>` equal paths are one
/// key. From C++20 on, this map looks up a view without copying its bytes. In C++17 a
/// `std::unordered_map<view, V>` does so; the bytes of its keys live elsewhere and have to outlive
/// the map. The hash is unkeyed: an attacker who chooses the paths can force collisions, so use a
/// std::map for such paths.
struct hash {
    using is_transparent = void;
    std::size_t operator()(view path) const noexcept { return path.hash(); }
};

/// Returns the canonical form of the paths for which view::key returns this key, or
/// error::not_a_key.
inline result<std::string> from_key(std::string_view key) {
    return detail::grown<std::string>(key.size() + key.size() / 2,
                                      detail::of_one{unix_path_from_key, key});
}
inline result<std::string_view> from_key(std::string_view key, buffer out) noexcept {
    return detail::written(out, detail::of_one{unix_path_from_key, key});
}

/// Returns the end of a key's range, or error::no_end or error::not_a_key. A path starts with the
/// key's path if and only if the path's own key is at least the key and less than this end.
inline result<std::string> key_range_end(std::string_view key) {
    return detail::grown<std::string>(key.size(), detail::of_one{unix_path_key_range_end, key});
}
inline result<std::string_view> key_range_end(std::string_view key, buffer out) noexcept {
    return detail::written(out, detail::of_one{unix_path_key_range_end, key});
}

}  // namespace unix_path

#if defined(__cpp_lib_ranges)
template <>
inline constexpr bool std::ranges::enable_view<unix_path::components> = true;
template <>
inline constexpr bool std::ranges::enable_borrowed_range<unix_path::components> = true;
template <>
inline constexpr bool std::ranges::enable_view<unix_path::ancestors> = true;
template <>
inline constexpr bool std::ranges::enable_borrowed_range<unix_path::ancestors> = true;
template <>
inline constexpr bool std::ranges::enable_view<unix_path::chunks> = true;
template <>
inline constexpr bool std::ranges::enable_borrowed_range<unix_path::chunks> = true;
#endif

/// The hash of unix_path::hash, for maps whose keys are views.
template <>
struct std::hash<unix_path::view> {
    std::size_t operator()(unix_path::view path) const noexcept { return path.hash(); }
};

#endif
#endif
