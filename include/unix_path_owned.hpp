// A path that owns its bytes, and formatters, for C++17 and later, over unix_path.hpp.
//
// This edits a path, and finds it in a map by another spelling:
//
//     unix_path::path file = "src//main.c";
//     std::map<unix_path::path, int, unix_path::less> sizes{{file, 42}};
//     file.set_extension("o");
//     std::cout << file << ' ' << sizes.find("src/./main.c")->second << '\n';
//
// It prints `src//main.o 42`. The look-up copies nothing. The example needs <iostream> and <map>.
//
// Where the standard library has <format>, std::format writes views, paths and components as it
// writes a string of their bytes, and errors and kinds as it writes their names.
//
// If an allocation fails, a member throws std::bad_alloc and leaves the path unchanged.
#ifndef UNIX_PATH_OWNED_HPP
#define UNIX_PATH_OWNED_HPP

#include "unix_path.hpp"

#if __cplusplus >= 201703L

#if __has_include(<version>)
#include <version>
#endif
#ifdef __cpp_lib_format
#include <format>
#endif

namespace unix_path {

/// A path that owns its bytes, which it stores as given. It compares, hashes and is ordered by its
/// components, as a view is, and passes for a view wherever one is wanted. The calls of
/// detail::calls, such as `join_beneath`, are members, and return a path instead of a std::string.
///
/// A view of a path's bytes, such as the parent that `parent` returns, is valid until the path is
/// changed, moved or destroyed.
class path : public detail::calls<view, path, path> {
  public:
    using value_type = char;
    using string_type = std::string;
    static constexpr char preferred_separator = '/';

    path() noexcept = default;
    /// Takes over the string's bytes.
    path(std::string bytes) noexcept : bytes_(std::move(bytes)) {}
    /// Copies the bytes of what converts to a view: of a std::string_view, a component, or a C
    /// string up to its NUL. The null pointer of type `const char *` becomes the empty path.
    template <typename T, std::enable_if_t<std::is_convertible_v<const T &, unix_path::view>
                                               && !std::is_same_v<T, std::string>,
                                           int> = 0>
    path(const T &source) : bytes_(unix_path::view(source).bytes()) {}
    path(std::nullptr_t) = delete;

    // The bytes. A pointer, a reference or a std::string_view to them is valid as long as a view.

    std::string_view bytes() const noexcept UNIX_PATH_LIFETIME { return bytes_; }
    const char *data() const noexcept UNIX_PATH_LIFETIME { return bytes_.data(); }
    std::size_t size() const noexcept { return bytes_.size(); }
    const std::string &native() const noexcept UNIX_PATH_LIFETIME { return bytes_; }
    /// Returns the bytes with a NUL after them. A system call reads them only up to the first NUL,
    /// for which `has_nul` tests.
    const char *c_str() const noexcept UNIX_PATH_LIFETIME { return bytes_.c_str(); }
    /// Returns a copy of the bytes. If the path is an rvalue, its string is moved out of it.
    std::string string() const & { return bytes_; }
    std::string string() && noexcept { return std::move(bytes_); }
    operator std::string() const & { return bytes_; }
    operator std::string() && noexcept { return std::move(bytes_); }

    // Slices of the path, as those of a view.

    std::optional<unix_path::view> parent() const noexcept UNIX_PATH_LIFETIME {
        return all().parent();
    }
    std::optional<unix_path::view> strip_prefix(unix_path::view base) const
        noexcept UNIX_PATH_LIFETIME {
        return all().strip_prefix(base);
    }
    std::optional<std::string_view> file_name() const noexcept UNIX_PATH_LIFETIME {
        return all().file_name();
    }
    std::optional<std::string_view> file_stem() const noexcept UNIX_PATH_LIFETIME {
        return all().file_stem();
    }
    std::optional<std::string_view> extension() const noexcept UNIX_PATH_LIFETIME {
        return all().extension();
    }
    std::optional<std::string_view> file_prefix() const noexcept UNIX_PATH_LIFETIME {
        return all().file_prefix();
    }
    unix_path::components components() const noexcept UNIX_PATH_LIFETIME {
        return all().components();
    }
    unix_path::ancestors ancestors() const noexcept UNIX_PATH_LIFETIME { return all().ancestors(); }
    unix_path::chunks chunks() const noexcept UNIX_PATH_LIFETIME { return all().chunks(); }

    // Edits. What they are given may be a part of this path.

    /// Joins a trusted path to this one, as `join` does: `a` and `b` become `a/b`. A path with a
    /// root replaces this one. For a path from outside call `join_beneath` instead.
    path &push(unix_path::view other) { return *this = join(other); }
    path &append(unix_path::view other) { return push(other); }
    path &operator/=(unix_path::view other) { return push(other); }
    /// Removes the last component, so that `parent` is left: `a/b` becomes `a`. Returns false, and
    /// leaves the path unchanged, if it is empty or the root.
    bool pop() noexcept {
        const std::optional<unix_path::view> left = parent();
        if (left) {
            bytes_.resize(left->size());
        }
        return left.has_value();
    }
    /// Replaces the file name, as `with_file_name` does: `a/b/` and `c` become `a/c`. If there is
    /// no file name, the new one is joined.
    path &set_file_name(unix_path::view name) { return *this = with_file_name(name); }
    /// Replaces or adds the extension, which is written without its dot: `a.rs` and `o` become
    /// `a.o`. An empty one removes the extension. Returns false, and leaves the path unchanged, if
    /// there is no file name or the new extension has a slash.
    bool set_extension(std::string_view extension) {
        return took(with_extension(extension));
    }
    /// Adds an extension: `a.tar` and `gz` become `a.tar.gz`. An empty one adds nothing. Returns
    /// false as `set_extension` does.
    bool add_extension(std::string_view extension) {
        return took(with_added_extension(extension));
    }
    /// Appends bytes, without a slash: `a` and `.bak` become `a.bak`.
    path &operator+=(unix_path::view more) {
        bytes_ += more.bytes();
        return *this;
    }
    path &operator+=(char more) {
        bytes_ += more;
        return *this;
    }
    path &concat(unix_path::view more) { return *this += more; }
    void clear() noexcept { bytes_.clear(); }
    void swap(path &other) noexcept { bytes_.swap(other.bytes_); }
    friend void swap(path &a, path &b) noexcept { a.swap(b); }

  private:
    unix_path::view all() const noexcept { return *this; }
    bool took(result<path> edited) noexcept {
        const bool is_taken = edited.has_value() && file_name().has_value();
        if (is_taken) {
            *this = *std::move(edited);
        }
        return is_taken;
    }

    std::string bytes_;
};

inline view::view(const path &owned UNIX_PATH_LIFETIME) noexcept : bytes_(owned.bytes()) {}

/// Joins two trusted paths, as `join` does. For a path from outside call `join_beneath` instead.
inline path operator/(view a, view b) { return path(a.join(b)); }

}  // namespace unix_path

/// The hash of unix_path::hash, for maps whose keys are paths.
template <>
struct std::hash<unix_path::path> : std::hash<unix_path::view> {};

#ifdef __cpp_lib_concepts
// A path and a view are compared as views, so that algorithms of std::ranges find one by the other.
template <template <typename> typename A, template <typename> typename B>
struct std::basic_common_reference<unix_path::path, unix_path::view, A, B> {
    using type = unix_path::view;
};
template <template <typename> typename A, template <typename> typename B>
struct std::basic_common_reference<unix_path::view, unix_path::path, A, B> {
    using type = unix_path::view;
};
#endif

#ifdef __cpp_lib_format
/// Formats a path as a string of its bytes.
template <>
struct std::formatter<unix_path::view> : std::formatter<std::string_view> {
    template <typename Context>
    auto format(unix_path::view path, Context &context) const {
        return std::formatter<std::string_view>::format(path.bytes(), context);
    }
};
template <>
struct std::formatter<unix_path::path> : std::formatter<unix_path::view> {};
template <>
struct std::formatter<unix_path::component> : std::formatter<unix_path::view> {};

/// Formats the name of an error, and of a kind.
template <>
struct std::formatter<unix_path::error> : std::formatter<std::string_view> {
    template <typename Context>
    auto format(unix_path::error why, Context &context) const {
        return std::formatter<std::string_view>::format(unix_path::to_string(why), context);
    }
};
template <>
struct std::formatter<unix_path::component_kind> : std::formatter<std::string_view> {
    template <typename Context>
    auto format(unix_path::component_kind kind, Context &context) const {
        return std::formatter<std::string_view>::format(unix_path::to_string(kind), context);
    }
};
#endif

#endif
#endif
