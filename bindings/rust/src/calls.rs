//! The calls of the library over slices and buffers, for programs that keep paths as bytes.
//!
//! A function that finds something in a path returns a slice of the path. A function that makes a
//! path writes it to the beginning of a [`Buffer`] and returns it; the rest of a slice is
//! unchanged. It fails with [`Error::Short`] if a slice is too short for the result and no other
//! error applies, and with [`Error::NoMemory`] if a vector can't grow. Only the other errors are
//! named below. If a function fails, nothing is written. No function panics, and only those that
//! write to a vector allocate.
//!
//! ```
//! use unix_path_proved::calls::{join, join_beneath, parent};
//! use unix_path_proved::Error;
//!
//! assert_eq!(parent(b"/tmp//foo/./bar.txt"), Some(&b"/tmp//foo"[..]));
//!
//! let mut out = [0; 8];
//! assert_eq!(join(b"/tmp", b"foo", &mut out), Ok(&b"/tmp/foo"[..]));
//! assert_eq!(join(b"/tmp/", b"foo.txt", &mut out), Err(Error::Short { needed: 12 }));
//!
//! let mut path = vec![];
//! assert_eq!(join_beneath(b"/srv", b"a/../b.txt", &mut path), Ok(&b"/srv/b.txt"[..]));
//! assert_eq!(join_beneath(b"/srv", b"../etc", &mut path), Err(Error::Escapes));
//! assert_eq!(path, b"/srv/b.txt");
//! ```
//!
//! Each function is described at the method of [`Path`](crate::Path) with its name.
use crate::error::{Error, RequestError};
use crate::ffi::{Ask, AskTwo, Find, FindOfTwo, Make, MakeOfTwo};
use core::cmp::Ordering;

#[cfg(feature = "alloc")]
pub use crate::edits::{add_extension, pop, push, set_extension, set_file_name};
pub use crate::ffi::Buffer;

/// Returns the path without its last component; see [`Path::parent`](crate::Path::parent).
///
/// ```
/// assert_eq!(unix_path_proved::calls::parent(b"/a//b/"), Some(&b"/a"[..]));
/// assert_eq!(unix_path_proved::calls::parent(b"/"), None);
/// ```
#[must_use]
#[inline]
pub fn parent(path: &[u8]) -> Option<&[u8]> {
    Find::PARENT.find(path)
}

/// Returns the last component if it is a name; see [`Path::file_name`](crate::Path::file_name).
///
/// ```
/// assert_eq!(unix_path_proved::calls::file_name(b"foo.txt/."), Some(&b"foo.txt"[..]));
/// ```
#[must_use]
#[inline]
pub fn file_name(path: &[u8]) -> Option<&[u8]> {
    Find::FILE_NAME.find(path)
}

/// Returns the file name up to its last dot; see [`Path::file_stem`](crate::Path::file_stem).
///
/// ```
/// assert_eq!(unix_path_proved::calls::file_stem(b"a/foo.tar.gz"), Some(&b"foo.tar"[..]));
/// ```
#[must_use]
#[inline]
pub fn file_stem(path: &[u8]) -> Option<&[u8]> {
    Find::FILE_STEM.find(path)
}

/// Returns the part of the file name after its last dot; see
/// [`Path::extension`](crate::Path::extension).
///
/// ```
/// assert_eq!(unix_path_proved::calls::extension(b"a/foo.tar.gz"), Some(&b"gz"[..]));
/// ```
#[must_use]
#[inline]
pub fn extension(path: &[u8]) -> Option<&[u8]> {
    Find::EXTENSION.find(path)
}

/// Returns the file name up to its first dot after the first byte; see
/// [`Path::file_prefix`](crate::Path::file_prefix).
///
/// ```
/// assert_eq!(unix_path_proved::calls::file_prefix(b"a/foo.tar.gz"), Some(&b"foo"[..]));
/// ```
#[must_use]
#[inline]
pub fn file_prefix(path: &[u8]) -> Option<&[u8]> {
    Find::FILE_PREFIX.find(path)
}

/// Returns the rest of `path` after `base`, or `None` if [`starts_with`] is false; see
/// [`Path::strip_prefix`](crate::Path::strip_prefix).
///
/// ```
/// assert_eq!(unix_path_proved::calls::strip_prefix(b"/a//b/", b"/a"), Some(&b"b"[..]));
/// assert_eq!(unix_path_proved::calls::strip_prefix(b"/ab", b"/a"), None);
/// ```
#[must_use]
#[inline]
pub fn strip_prefix<'a>(path: &'a [u8], base: &[u8]) -> Option<&'a [u8]> {
    FindOfTwo::STRIP_PREFIX.find(path, base)
}

/// Returns true if the components of `path` start with those of `base`; see
/// [`Path::starts_with`](crate::Path::starts_with).
///
/// ```
/// assert!(unix_path_proved::calls::starts_with(b"/etc//passwd", b"/etc/"));
/// ```
#[must_use]
#[inline]
pub fn starts_with(path: &[u8], base: &[u8]) -> bool {
    AskTwo::STARTS_WITH.ask(path, base)
}

/// Returns true if the components of `path` end with those of `child`; see
/// [`Path::ends_with`](crate::Path::ends_with).
///
/// ```
/// assert!(unix_path_proved::calls::ends_with(b"/etc/passwd", b"passwd/"));
/// ```
#[must_use]
#[inline]
pub fn ends_with(path: &[u8], child: &[u8]) -> bool {
    AskTwo::ENDS_WITH.ask(path, child)
}

/// Returns true if two paths have the same components, like `==` of [`Path`](crate::Path).
///
/// ```
/// assert!(unix_path_proved::calls::equal(b"a//b/.", b"a/b"));
/// assert!(!unix_path_proved::calls::equal(b"./a", b"a"));
/// ```
#[must_use]
#[inline]
pub fn equal(a: &[u8], b: &[u8]) -> bool {
    AskTwo::EQUAL.ask(a, b)
}

/// Compares two paths by their components, like `cmp` of [`Path`](crate::Path).
///
/// ```
/// use std::cmp::Ordering::{Equal, Less};
/// assert_eq!(unix_path_proved::calls::compare(b"a/b", b"a.b"), Less);
/// assert_eq!(unix_path_proved::calls::compare(b"a//b/", b"a/b"), Equal);
/// ```
#[must_use]
#[inline]
pub fn compare(a: &[u8], b: &[u8]) -> Ordering {
    AskTwo::COMPARE.ask(a, b).cmp(&0)
}

/// Returns a hash that equal paths share, the same in every run and on every machine.
///
/// The hash is unkeyed: if an attacker may choose the paths, feed a [`Path`](crate::Path) to a
/// keyed hasher.
///
/// ```
/// assert_eq!(unix_path_proved::calls::hash(b"a//b/."), unix_path_proved::calls::hash(b"a/b"));
/// ```
#[must_use]
#[inline]
pub fn hash(path: &[u8]) -> u64 {
    Ask::HASH.ask(path)
}

/// Returns true if the path is valid UTF-8 (RFC 3629).
///
/// ```
/// assert!(unix_path_proved::calls::is_utf8("/tmp/é".as_bytes()));
/// assert!(!unix_path_proved::calls::is_utf8(b"/tmp/\xE9"));
/// ```
#[must_use]
#[inline]
pub fn is_utf8(path: &[u8]) -> bool {
    Ask::IS_UTF8.ask(path)
}

/// Returns true if the path is in canonical form; see
/// [`Path::is_canonical`](crate::Path::is_canonical).
///
/// ```
/// assert!(unix_path_proved::calls::is_canonical(b"./a/b"));
/// ```
#[must_use]
#[inline]
pub fn is_canonical(path: &[u8]) -> bool {
    Ask::IS_CANONICAL.ask(path)
}

/// Returns true if the path begins with a slash.
///
/// ```
/// assert!(unix_path_proved::calls::is_absolute(b"/a"));
/// ```
#[must_use]
#[inline]
pub fn is_absolute(path: &[u8]) -> bool {
    Ask::IS_ABSOLUTE.ask(path)
}

/// Returns true if the path escapes; see [`Path::escapes`](crate::Path::escapes).
///
/// ```
/// assert!(unix_path_proved::calls::escapes(b"a/../../root/x"));
/// ```
#[must_use]
#[inline]
pub fn escapes(path: &[u8]) -> bool {
    Ask::ESCAPES.ask(path)
}

/// Returns `Ok` if [`join_beneath`] joins the request, and otherwise why it is refused; see
/// [`Path::check_request`](crate::Path::check_request).
///
/// ```
/// use unix_path_proved::{calls::check_request, RequestError};
/// assert_eq!(check_request(b"a/../b"), Ok(()));
/// assert_eq!(check_request(b"/../a"), Err(RequestError::Rooted));
/// ```
#[inline]
pub fn check_request(path: &[u8]) -> Result<(), RequestError> {
    match Ask::CHECK_REQUEST.ask(path) {
        0 => Ok(()),
        1 => Err(RequestError::Rooted),
        2 => Err(RequestError::Escapes),
        _ => Err(RequestError::Nul),
    }
}

/// Returns true if a request is the root itself; see
/// [`Path::request_is_root`](crate::Path::request_is_root).
///
/// ```
/// assert!(unix_path_proved::calls::request_is_root(b"a/.."));
/// ```
#[must_use]
#[inline]
pub fn request_is_root(path: &[u8]) -> bool {
    Ask::REQUEST_IS_ROOT.ask(path)
}

/// Returns true if the last component is a name and a slash or a `/.` follows it; see
/// [`Path::ends_in_slash`](crate::Path::ends_in_slash).
///
/// ```
/// assert!(unix_path_proved::calls::ends_in_slash(b"a/"));
/// ```
#[must_use]
#[inline]
pub fn ends_in_slash(path: &[u8]) -> bool {
    Ask::ENDS_IN_SLASH.ask(path)
}

/// Returns the bytes of `a` up to the last slash of the longest common prefix; see
/// [`Path::common_dir`](crate::Path::common_dir).
///
/// ```
/// assert_eq!(unix_path_proved::calls::common_dir(b"x/ab", b"x/ac"), b"x/");
/// ```
#[must_use]
#[inline]
pub fn common_dir<'a>(a: &'a [u8], b: &[u8]) -> &'a [u8] {
    a.get(..AskTwo::COMMON_DIR.ask(a, b)).unwrap_or_default()
}

/// Defines functions that make something from two paths, or from a path and a name.
macro_rules! make_of_two {
    ($($(#[$doc:meta])* $name:ident($first:ident, $second:ident) = $call:expr;)*) => {$(
        $(#[$doc])*
        #[inline]
        pub fn $name<'o, B: Buffer + ?Sized>(
            $first: &[u8],
            $second: &[u8],
            out: &'o mut B,
        ) -> Result<&'o [u8], Error> {
            $call.write($first, $second, out)
        }
    )*};
}

make_of_two! {
    /// Joins two trusted paths; see [`Path::join`](crate::Path::join).
    ///
    /// ```
    /// let mut out = [0; 16];
    /// assert_eq!(unix_path_proved::calls::join(b"/a", b"b", &mut out), Ok(&b"/a/b"[..]));
    /// ```
    join(base, path) = MakeOfTwo::JOIN;

    /// Replaces the file name; see [`Path::with_file_name`](crate::Path::with_file_name).
    ///
    /// ```
    /// let mut out = [0; 16];
    /// let made = unix_path_proved::calls::with_file_name(b"/a/b", b"c", &mut out);
    /// assert_eq!(made, Ok(&b"/a/c"[..]));
    /// ```
    with_file_name(path, name) = MakeOfTwo::WITH_FILE_NAME;

    /// Replaces the extension; see [`Path::with_extension`](crate::Path::with_extension).
    ///
    /// Fails with `Separator` if and only if the extension contains a slash.
    ///
    /// ```
    /// use unix_path_proved::{calls::with_extension, Error};
    /// let mut out = [0; 16];
    /// assert_eq!(with_extension(b"a/b.c", b"d", &mut out), Ok(&b"a/b.d"[..]));
    /// assert_eq!(with_extension(b"a/b.c", b"d/e", &mut out), Err(Error::Separator));
    /// ```
    with_extension(path, extension) = MakeOfTwo::WITH_EXTENSION;

    /// Appends an extension; see
    /// [`Path::with_added_extension`](crate::Path::with_added_extension).
    ///
    /// Fails with `Separator` if and only if the extension contains a slash.
    ///
    /// ```
    /// let mut out = [0; 16];
    /// let made = unix_path_proved::calls::with_added_extension(b"b.tar", b"gz", &mut out);
    /// assert_eq!(made, Ok(&b"b.tar.gz"[..]));
    /// ```
    with_added_extension(path, extension) = MakeOfTwo::WITH_ADDED_EXTENSION;

    /// Joins a request that must stay beneath the root; see
    /// [`Path::join_beneath`](crate::Path::join_beneath) for the errors. The result's length is at
    /// most `root.len() + 1 + request.len()`.
    ///
    /// ```
    /// use unix_path_proved::{calls::join_beneath, Error};
    /// let mut out = [0; 16];
    /// assert_eq!(join_beneath(b"/srv/", b"a/..//b/", &mut out), Ok(&b"/srv/b"[..]));
    /// assert_eq!(join_beneath(b"/srv", b"../b", &mut out), Err(Error::Escapes));
    /// ```
    join_beneath(root, request) = MakeOfTwo::JOIN_BENEATH;

    /// Joins a request as in a chroot; see [`Path::join_in_root`](crate::Path::join_in_root) for
    /// the error. The result's length is at most `root.len() + 1 + request.len()`.
    ///
    /// ```
    /// let mut out = [0; 16];
    /// let joined = unix_path_proved::calls::join_in_root(b"/srv", b"/a/../../b/", &mut out);
    /// assert_eq!(joined, Ok(&b"/srv/b"[..]));
    /// ```
    join_in_root(root, request) = MakeOfTwo::JOIN_IN_ROOT;

    /// Joins root and request verbatim; see [`Path::join_verbatim`](crate::Path::join_verbatim) for
    /// the errors. The result's length is at most `root.len() + 1 + request.len()`.
    ///
    /// ```
    /// let mut out = [0; 24];
    /// let joined = unix_path_proved::calls::join_verbatim(b"/srv/../www", b"./a", &mut out);
    /// assert_eq!(joined, Ok(&b"/srv/../www/./a"[..]));
    /// ```
    join_verbatim(root, request) = MakeOfTwo::JOIN_VERBATIM;

    /// Finds the relative path from one path to another; see
    /// [`Path::relative_path`](crate::Path::relative_path) for the error. Its length is at most
    /// `3 * (from.len() + 1) / 2 + to.len()`.
    ///
    /// ```
    /// let mut out = [0; 16];
    /// let way = unix_path_proved::calls::relative_path(b"/a/b/c", b"/a/d", &mut out);
    /// assert_eq!(way, Ok(&b"../../d"[..]));
    /// ```
    relative_path(from, to) = MakeOfTwo::RELATIVE_PATH;
}

/// Writes the canonical form; see [`Path::canonical`](crate::Path::canonical). Its length is at
/// most `path.len()`.
///
/// ```
/// let mut out = [0; 16];
/// assert_eq!(unix_path_proved::calls::canonical(b".//a/./b/", &mut out), Ok(&b"./a/b"[..]));
/// ```
#[inline]
pub fn canonical<'o, B: Buffer + ?Sized>(path: &[u8], out: &'o mut B) -> Result<&'o [u8], Error> {
    Make::CANONICAL.write(path, path.len(), out)
}

/// Writes the path as valid UTF-8, with U+FFFD in place of invalid bytes; see
/// [`Path::to_string_lossy`](crate::Path::to_string_lossy). Its length is at most `3 * path.len()`.
///
/// ```
/// let mut out = [0; 16];
/// let text = unix_path_proved::calls::to_string_lossy(b"caf\xE9", &mut out).unwrap();
/// assert_eq!(text, "caf\u{FFFD}".as_bytes());
/// ```
#[inline]
pub fn to_string_lossy<'o, B: Buffer + ?Sized>(
    path: &[u8],
    out: &'o mut B,
) -> Result<&'o [u8], Error> {
    Make::TO_STRING_LOSSY.write(path, path.len(), out)
}

/// Resolves each `..` lexically; see [`Path::resolved`](crate::Path::resolved). The result's length
/// is at most `path.len()`.
///
/// ```
/// let mut out = [0; 16];
/// assert_eq!(unix_path_proved::calls::resolved(b"/../a", &mut out), Ok(&b"/a"[..]));
/// ```
#[inline]
pub fn resolved<'o, B: Buffer + ?Sized>(path: &[u8], out: &'o mut B) -> Result<&'o [u8], Error> {
    Make::RESOLVED.write(path, path.len(), out)
}

/// Writes the key of the path; see [`Path::key`](crate::Path::key). Its length is at most
/// `path.len() + 2`.
///
/// ```
/// let mut out = [0; 16];
/// assert_eq!(unix_path_proved::calls::key(b"/a", &mut out), Ok(&b"\0\x01a\0"[..]));
/// ```
#[inline]
pub fn key<'o, B: Buffer + ?Sized>(path: &[u8], out: &'o mut B) -> Result<&'o [u8], Error> {
    Make::KEY.write(path, path.len().saturating_add(2), out)
}

/// Writes the canonical form of the paths that have this key; see
/// [`PathBuf::from_key`](crate::PathBuf::from_key) for the error. Its length is at most
/// `key.len() + key.len() / 2`.
///
/// ```
/// let mut out = [0; 16];
/// assert_eq!(unix_path_proved::calls::from_key(b"\0\x02a\0", &mut out), Ok(&b"./a"[..]));
/// ```
#[inline]
pub fn from_key<'o, B: Buffer + ?Sized>(key: &[u8], out: &'o mut B) -> Result<&'o [u8], Error> {
    Make::FROM_KEY.write(key, key.len(), out)
}

/// Writes the end of a key's range. A path starts with the key's path if and only if its own key is
/// in the range, which goes from the key (inclusive) to this end (exclusive). Returns `None` for
/// the empty key, whose range contains all keys. [`Path::key_range`](crate::Path::key_range)
/// returns both.
///
/// The end is the key with its last byte incremented by one. Fails with `NotAKey` if and only if no
/// path has these bytes as its key.
///
/// ```
/// use unix_path_proved::{calls::key_range_end, Error};
/// let mut out = [0; 16];
/// assert_eq!(key_range_end(b"a\0", &mut out), Ok(Some(&b"a\x01"[..])));
/// assert_eq!(key_range_end(b"", &mut out), Ok(None));
/// assert_eq!(key_range_end(b"/a", &mut out), Err(Error::NotAKey));
/// ```
#[inline]
pub fn key_range_end<'o, B: Buffer + ?Sized>(
    key: &[u8],
    out: &'o mut B,
) -> Result<Option<&'o [u8]>, Error> {
    if key.is_empty() {
        return Ok(None);
    }
    Make::KEY_RANGE_END.write(key, key.len(), out).map(Some)
}
