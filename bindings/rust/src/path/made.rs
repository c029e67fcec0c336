//! Methods that make a path from others. Each allocates at most once, unless stated otherwise, and
//! ends the program if the allocation fails.
use super::Path;
use crate::calls;
use crate::error::Error;
use crate::memory::{try_made, value};
use crate::path_buf::PathBuf;
use crate::unix_str::UnixStr;
use alloc::borrow::{Cow, ToOwned};
use alloc::boxed::Box;
use alloc::vec::Vec;
use core::ops::Bound;

impl Path {
    /// Returns the path as text, with U+FFFD in place of invalid bytes.
    ///
    /// Allocates only if some bytes are invalid.
    ///
    /// ```
    /// use unix_path_proved::Path;
    /// assert_eq!(Path::new("/é").to_string_lossy(), "/é");
    /// assert_eq!(Path::new(b"caf\xE9").to_string_lossy(), "caf\u{FFFD}");
    /// ```
    #[must_use]
    #[inline]
    pub fn to_string_lossy(&self) -> Cow<'_, str> {
        self.as_unix_str().to_string_lossy()
    }

    /// Copies the path to a new [`PathBuf`].
    ///
    /// ```
    /// use unix_path_proved::{Path, PathBuf};
    /// assert_eq!(Path::new("a").to_path_buf(), PathBuf::from("a"));
    /// ```
    #[must_use]
    #[inline]
    pub fn to_path_buf(&self) -> PathBuf {
        PathBuf::of(self.as_bytes().to_vec())
    }

    /// Returns the canonical form: the shortest path with the same components, which all equal
    /// paths share.
    ///
    /// Equivalent to collecting [`components`](Path::components), but in one call of the library
    /// and with one allocation. Not in Rust's std.
    ///
    /// ```
    /// use unix_path_proved::{Path, PathBuf};
    /// let path = Path::new(".//a/./b/");
    /// assert_eq!(path.canonical().as_unix_str(), "./a/b");
    /// assert_eq!(path.canonical(), path.components().collect::<PathBuf>());
    /// ```
    #[must_use]
    #[inline]
    pub fn canonical(&self) -> PathBuf {
        let path = self.as_bytes();
        PathBuf::of(value(try_made(path.len(), |out| {
            calls::canonical(path, out)
        })))
    }

    /// Resolves each `..` lexically: it is dropped together with the name before it.
    ///
    /// The result is in canonical form: each `.` is dropped too, and so is a `..` after the root.
    /// Without a root, a `..` with no name before it stays, at the beginning of the result. An
    /// empty result means the current directory.
    ///
    /// Symbolic links are not followed: if a component before a `..` is one, the result may name
    /// another file.
    ///
    /// ```
    /// use unix_path_proved::Path;
    /// assert_eq!(Path::new("a/../..//b/.").resolved().as_unix_str(), "../b");
    /// assert_eq!(Path::new("/../a").resolved().as_unix_str(), "/a");
    /// ```
    #[must_use]
    #[inline]
    pub fn resolved(&self) -> PathBuf {
        let path = self.as_bytes();
        PathBuf::of(value(try_made(path.len(), |out| {
            calls::resolved(path, out)
        })))
    }

    /// Joins a trusted path to this path; for a request from outside use
    /// [`join_beneath`](Path::join_beneath).
    ///
    /// The result is `path` if it has a root; otherwise it is both paths, with a slash between them
    /// if one is missing. Nothing is resolved, so `..` may lead out of this path.
    ///
    /// ```
    /// use unix_path_proved::{Path, PathBuf};
    /// assert_eq!(Path::new("/a").join("b"), PathBuf::from("/a/b"));
    /// assert_eq!(Path::new("/a").join("/b"), PathBuf::from("/b"));
    /// ```
    #[must_use]
    #[inline]
    pub fn join<P: AsRef<Path>>(&self, path: P) -> PathBuf {
        let (base, path) = (self.as_bytes(), path.as_ref().as_bytes());
        value(made_of_two(base, path, |out| calls::join(base, path, out)))
    }

    /// Joins a request that must stay beneath this path, such as an entry of an archive.
    ///
    /// The result is this path verbatim, and after it the names that the request resolves to, with
    /// a slash between two of them and, where one is needed, after this path. After this path there
    /// is no `..`, no `.`, no NUL and no trailing slash. If the request has no name, the result is
    /// this path itself; [`request_is_root`](Path::request_is_root) checks for this. If this path
    /// is empty too, the result is empty and means the current directory.
    ///
    /// Fails with `Escapes` if and only if the request [`escapes`](Path::escapes): it has a root,
    /// or its `..` lead above where it starts. Otherwise fails with `Nul` if and only if the
    /// request has a NUL byte, at which a system call would cut the result.
    /// [`check_request`](Path::check_request) distinguishes a root from a `..`.
    ///
    /// The request is resolved lexically: if a component below this path may be a link, let the
    /// system refuse links. This path is not resolved. To resolve its `..` too, call
    /// [`resolved`](Path::resolved) first.
    ///
    /// ```
    /// use unix_path_proved::{Error, Path};
    /// let root = Path::new("/srv");
    /// assert_eq!(root.join_beneath("a/..//b/").unwrap().as_unix_str(), "/srv/b");
    /// assert_eq!(root.join_beneath("../b"), Err(Error::Escapes));
    /// assert_eq!(root.join_beneath("/b"), Err(Error::Escapes));
    /// assert_eq!(root.join_beneath(b"b\0.png"), Err(Error::Nul));
    /// ```
    #[inline]
    pub fn join_beneath<P: AsRef<Path>>(&self, request: P) -> Result<PathBuf, Error> {
        let (root, request) = (self.as_bytes(), request.as_ref().as_bytes());
        made_of_two(root, request, |out| calls::join_beneath(root, request, out))
    }

    /// Joins a request as in a chroot, such as the decoded path of a URL.
    ///
    /// The request is resolved as in a process whose root directory is this path. This is
    /// [`join_beneath`](Path::join_beneath), except that leading slashes are dropped, and a `..` at
    /// the root stays at the root, so no request escapes. A server that should refuse such a `..`
    /// calls `join_beneath` with the request without its leading slashes.
    ///
    /// Fails with `Nul` if and only if the request has a NUL byte.
    ///
    /// ```
    /// use unix_path_proved::{Error, Path};
    /// let root = Path::new("/srv");
    /// assert_eq!(root.join_in_root("/a/../../b/").unwrap().as_unix_str(), "/srv/b");
    /// assert_eq!(root.join_in_root(b"..\0/b"), Err(Error::Nul));
    /// ```
    #[inline]
    pub fn join_in_root<P: AsRef<Path>>(&self, request: P) -> Result<PathBuf, Error> {
        let (root, request) = (self.as_bytes(), request.as_ref().as_bytes());
        made_of_two(root, request, |out| calls::join_in_root(root, request, out))
    }

    /// Joins a request to this path, both verbatim, for a path that is a link or may contain links.
    ///
    /// The system follows links below this path wherever they lead. Each `..` in this path stays.
    ///
    /// Fails with `Escapes` if and only if the request has a root or a `..`. Otherwise fails with
    /// `Nul` if and only if the request has a NUL byte, at which a system call would cut the
    /// result.
    ///
    /// ```
    /// use unix_path_proved::{Error, Path};
    /// let root = Path::new("/srv/../www");
    /// assert_eq!(root.join_verbatim("./a").unwrap().as_unix_str(), "/srv/../www/./a");
    /// assert_eq!(root.join_verbatim("a/../b"), Err(Error::Escapes));
    /// assert_eq!(root.join_verbatim(b"..\0/a"), Err(Error::Nul));
    /// ```
    #[inline]
    pub fn join_verbatim<P: AsRef<Path>>(&self, request: P) -> Result<PathBuf, Error> {
        let (root, request) = (self.as_bytes(), request.as_ref().as_bytes());
        made_of_two(root, request, |out| {
            calls::join_verbatim(root, request, out)
        })
    }

    /// Finds the relative path from this path to another, lexically. It may allocate twice.
    ///
    /// Both paths are resolved, and the components that both then start with are dropped. The
    /// result is a `..` for each name in the rest of this path, followed by the rest of the other.
    /// An empty result means the current directory.
    ///
    /// Symbolic links are not followed: if a component is one, the result may lead elsewhere.
    ///
    /// Fails with `NoRelativePath` if and only if one path has a root and the other has none, or a
    /// `..` remains of this path: then no path without a root leads from one to the other.
    ///
    /// ```
    /// use unix_path_proved::{Error, Path};
    /// let way = Path::new("/a/b/c").relative_path("/a/d");
    /// assert_eq!(way.unwrap().as_unix_str(), "../../d");
    /// assert_eq!(Path::new("../x").relative_path("y"), Err(Error::NoRelativePath));
    /// ```
    #[inline]
    pub fn relative_path<P: AsRef<Path>>(&self, to: P) -> Result<PathBuf, Error> {
        let (from, to) = (self.as_bytes(), to.as_ref().as_bytes());
        made_of_two(from, to, |out| calls::relative_path(from, to, out))
    }

    /// Returns the path with its file name replaced by `file_name`, or with `file_name` joined to
    /// it if it has no file name.
    ///
    /// ```
    /// use unix_path_proved::{Path, PathBuf};
    /// assert_eq!(Path::new("/a/b").with_file_name("c"), PathBuf::from("/a/c"));
    /// assert_eq!(Path::new("..").with_file_name("c"), PathBuf::from("../c"));
    /// ```
    #[must_use]
    #[inline]
    pub fn with_file_name<S: AsRef<UnixStr>>(&self, file_name: S) -> PathBuf {
        let (path, name) = (self.as_bytes(), file_name.as_ref().as_bytes());
        value(made_of_two(path, name, |out| {
            calls::with_file_name(path, name, out)
        }))
    }

    /// Returns the path with the extension of its file name replaced, or added if there is none. An
    /// empty `extension` removes the old one. A path without a file name is unchanged.
    ///
    /// Rust's `Path::with_extension` returns `..` for `..a` whatever the extension is.
    ///
    /// ```
    /// use unix_path_proved::{Path, PathBuf};
    /// assert_eq!(Path::new("a/b.c").with_extension("d"), PathBuf::from("a/b.d"));
    /// assert_eq!(Path::new("a/b.c").with_extension(""), PathBuf::from("a/b"));
    /// ```
    ///
    /// # Panics
    ///
    /// Panics if the extension contains a slash, as in Rust; in `unix_path` 1.0.1 it adds
    /// components.
    #[must_use]
    #[inline]
    pub fn with_extension<S: AsRef<UnixStr>>(&self, extension: S) -> PathBuf {
        let (path, extension) = (self.as_bytes(), extension.as_ref().as_bytes());
        value(made_of_two(path, extension, |out| {
            calls::with_extension(path, extension, out)
        }))
    }

    /// Returns the path with a dot and the extension appended to its file name. An empty
    /// `extension` changes nothing. A path without a file name is unchanged.
    ///
    /// ```
    /// use unix_path_proved::{Path, PathBuf};
    /// assert_eq!(Path::new("b.tar").with_added_extension("gz"), PathBuf::from("b.tar.gz"));
    /// ```
    ///
    /// # Panics
    ///
    /// Panics if the extension contains a slash, as in Rust.
    #[must_use]
    #[inline]
    pub fn with_added_extension<S: AsRef<UnixStr>>(&self, extension: S) -> PathBuf {
        let (path, extension) = (self.as_bytes(), extension.as_ref().as_bytes());
        value(made_of_two(path, extension, |out| {
            calls::with_added_extension(path, extension, out)
        }))
    }

    /// Returns the key of the path, for stores that sort by the bytes of their keys.
    ///
    /// Keys compare as the paths do, and are identical if and only if the paths are equal. The key
    /// contains the components in order, as these bytes (in hexadecimal): the root as 00 01, a
    /// leading `.` as 00 02, and each `..` as 00 03. A name is written as its bytes and then 00;
    /// each of its bytes that is less than 2F is incremented by one.
    ///
    /// ```
    /// use unix_path_proved::{Path, PathBuf};
    /// assert_eq!(Path::new("/a").key(), b"\0\x01a\0");
    /// assert_eq!(Path::new("x//y.z/.").key(), b"x\0y/z\0");
    /// assert_eq!(PathBuf::from_key(b"x\0y/z\0").unwrap(), Path::new("x/y.z"));
    /// ```
    #[must_use]
    #[inline]
    pub fn key(&self) -> Vec<u8> {
        let path = self.as_bytes();
        value(try_made(path.len() + 2, |out| calls::key(path, out)))
    }

    /// Returns the range of the keys of all paths that start with this path. Allocates twice.
    ///
    /// ```
    /// use std::collections::BTreeMap;
    /// use unix_path_proved::Path;
    /// let paths = ["a.c", "a/b", "a//c/d", "b"].map(|path| (Path::new(path).key(), path));
    /// let sorted = BTreeMap::from(paths);
    /// let below = sorted.range(Path::new("a").key_range());
    /// assert!(below.map(|(_, path)| *path).eq(["a/b", "a//c/d"]));
    /// ```
    #[must_use]
    pub fn key_range(&self) -> (Bound<Vec<u8>>, Bound<Vec<u8>>) {
        let key = self.key();
        let mut is_open = false;
        let end = value(try_made(key.len(), |out| {
            let end = calls::key_range_end(&key, out)?;
            is_open = end.is_none();
            Ok(end.unwrap_or_default())
        }));
        let end = match is_open {
            true => Bound::Unbounded,
            false => Bound::Excluded(end),
        };
        (Bound::Included(key), end)
    }

    /// Converts to a [`PathBuf`], in the same memory.
    ///
    /// ```
    /// use unix_path_proved::{Path, PathBuf};
    /// let boxed: Box<Path> = Path::new("a").into();
    /// assert_eq!(boxed.into_path_buf(), PathBuf::from("a"));
    /// ```
    #[must_use]
    #[inline]
    pub fn into_path_buf(self: Box<Path>) -> PathBuf {
        PathBuf::of(Path::out_of_box(self).into_vec())
    }
}

impl ToOwned for Path {
    type Owned = PathBuf;

    #[inline]
    fn to_owned(&self) -> PathBuf {
        self.to_path_buf()
    }

    #[inline]
    fn clone_into(&self, target: &mut PathBuf) {
        self.as_unix_str().clone_into(target.as_mut_unix_string());
    }
}

/// Returns the path that a call makes from a path and a second argument.
#[inline]
fn made_of_two<F>(path: &[u8], other: &[u8], call: F) -> Result<PathBuf, Error>
where
    F: FnOnce(&mut Vec<u8>) -> Result<&[u8], Error>,
{
    try_made(path.len() + 1 + other.len(), call).map(PathBuf::of)
}
