//! Paths that can be edited.
use crate::calls;
use crate::error::Error;
use crate::memory::{try_made, value, with_memory};
use crate::path::Path;
use crate::unix_str::UnixStr;
use crate::unix_string::UnixString;
use crate::walks::Iter;
use alloc::borrow::{Borrow, Cow};
use alloc::boxed::Box;
use alloc::vec::Vec;
use core::cmp::Ordering;
use core::convert::Infallible;
use core::fmt;
use core::hash::{Hash, Hasher};
use core::ops::{Deref, DerefMut};
use core::str::FromStr;

/// A [`Path`] that owns its bytes and can be edited.
///
/// It is compared, ordered and hashed as its path.
///
/// ```
/// use unix_path_proved::PathBuf;
/// let mut path = PathBuf::from("/tmp");
/// path.push("foo");
/// path.set_extension("txt");
/// assert_eq!(path.as_unix_str(), "/tmp/foo.txt");
/// assert!(path.pop());
/// assert_eq!(path, ["/", "tmp"].iter().collect::<PathBuf>());
/// ```
#[derive(Clone, Default)]
pub struct PathBuf {
    pub(crate) text: UnixString,
}

impl PathBuf {
    /// Creates a path from these bytes.
    #[inline]
    pub(crate) const fn of(bytes: Vec<u8>) -> PathBuf {
        PathBuf {
            text: UnixString::from_vec(bytes),
        }
    }

    /// Creates an empty path. Does not allocate.
    ///
    /// ```
    /// use unix_path_proved::PathBuf;
    /// assert_eq!(PathBuf::new(), PathBuf::from(""));
    /// ```
    #[must_use]
    #[inline]
    pub const fn new() -> PathBuf {
        PathBuf::of(Vec::new())
    }

    /// Returns the path.
    ///
    /// ```
    /// use unix_path_proved::{Path, PathBuf};
    /// assert_eq!(PathBuf::from("a").as_path(), Path::new("a"));
    /// ```
    #[must_use]
    #[inline]
    pub fn as_path(&self) -> &Path {
        self
    }

    /// Joins another path to this one, or replaces this one if the other has a root.
    ///
    /// A slash is added between them if one is missing. The running time depends on the length of
    /// the other path, not of this one.
    ///
    /// ```
    /// use unix_path_proved::{Path, PathBuf};
    /// let mut path = PathBuf::from("/tmp");
    /// path.push("a");
    /// assert_eq!(path, Path::new("/tmp/a"));
    /// path.push("/etc");
    /// assert_eq!(path, Path::new("/etc"));
    /// ```
    #[inline]
    pub fn push<P: AsRef<Path>>(&mut self, path: P) {
        let other = path.as_ref().as_bytes();
        value(self.edited(other, |bytes| calls::push(bytes, other)));
    }

    /// Shortens the path to its parent, which removes the last component. Returns false and changes
    /// nothing if the path has no component, or only the root. Does not allocate.
    ///
    /// ```
    /// use unix_path_proved::PathBuf;
    /// let mut path = PathBuf::from("/a//b/");
    /// assert!(path.pop());
    /// assert_eq!(path.as_unix_str(), "/a");
    /// assert!(path.pop() && !path.pop());
    /// ```
    #[inline]
    pub fn pop(&mut self) -> bool {
        calls::pop(&mut self.text.bytes)
    }

    /// Replaces the file name, or joins the name to the path if it has no file name.
    ///
    /// The parent is unchanged if `file_name` is one name. It may change for any other `file_name`,
    /// such as `..` or `/a`.
    ///
    /// ```
    /// use unix_path_proved::{Path, PathBuf};
    /// let mut path = PathBuf::from("/a/b/");
    /// path.set_file_name("c");
    /// assert_eq!(path, Path::new("/a/c"));
    /// ```
    #[inline]
    pub fn set_file_name<S: AsRef<UnixStr>>(&mut self, file_name: S) {
        let name = file_name.as_ref().as_bytes();
        value(self.edited(name, |bytes| calls::set_file_name(bytes, name)));
    }

    /// Replaces the extension of the file name, or adds one if there is none. An empty extension
    /// removes the old one. Returns false and changes nothing if there is no file name.
    ///
    /// ```
    /// use unix_path_proved::{Path, PathBuf};
    /// let mut path = PathBuf::from("a/b.c/");
    /// assert!(path.set_extension("d"));
    /// assert_eq!(path, Path::new("a/b.d"));
    /// assert!(!PathBuf::from("..").set_extension("d"));
    /// ```
    ///
    /// # Panics
    ///
    /// Panics if the extension contains a slash, with or without a file name, as in Rust; in
    /// `unix_path` 1.0.1 it adds components. The path is then unchanged.
    #[inline]
    pub fn set_extension<S: AsRef<UnixStr>>(&mut self, extension: S) -> bool {
        let extension = extension.as_ref().as_bytes();
        value(self.edited(extension, |bytes| calls::set_extension(bytes, extension)))
    }

    /// Appends a dot and the extension to the file name. An empty extension changes nothing.
    /// Returns false and changes nothing if there is no file name.
    ///
    /// ```
    /// use unix_path_proved::{Path, PathBuf};
    /// let mut path = PathBuf::from("a/b.tar/");
    /// assert!(path.add_extension("gz"));
    /// assert_eq!(path, Path::new("a/b.tar.gz"));
    /// ```
    ///
    /// # Panics
    ///
    /// Panics if the extension contains a slash, as in Rust. The path is then unchanged.
    #[inline]
    pub fn add_extension<S: AsRef<UnixStr>>(&mut self, extension: S) -> bool {
        let extension = extension.as_ref().as_bytes();
        value(self.edited(extension, |bytes| calls::add_extension(bytes, extension)))
    }

    /// Edits the path's bytes, and ends the program if an allocation fails.
    #[inline]
    fn edited<T>(
        &mut self,
        other: &[u8],
        edit: impl FnOnce(&mut Vec<u8>) -> Result<T, Error>,
    ) -> Result<T, Error> {
        let room = self.as_bytes().len() + 1 + other.len();
        with_memory(edit(&mut self.text.bytes), room)
    }

    /// Returns the canonical form of the paths that have this key; see [`Path::key`].
    ///
    /// Fails with `NotAKey` if and only if no path has these bytes as its key.
    ///
    /// ```
    /// use unix_path_proved::{Error, PathBuf};
    /// assert_eq!(PathBuf::from_key(b"\0\x01a\0\0\x03").unwrap().as_unix_str(), "/a/..");
    /// assert_eq!(PathBuf::from_key(b"a\0\0\x01"), Err(Error::NotAKey));
    /// ```
    #[inline]
    pub fn from_key(key: &[u8]) -> Result<PathBuf, Error> {
        let room = key.len().saturating_add(key.len() / 2);
        try_made(room, |out| calls::from_key(key, out)).map(PathBuf::of)
    }

    /// Returns the path's text, to change it as text, like `PathBuf::as_mut_os_string` of Rust.
    ///
    /// ```
    /// use unix_path_proved::{Path, PathBuf};
    /// let mut path = PathBuf::from("/foo");
    /// path.as_mut_unix_string().push("bar");
    /// assert_eq!(path, Path::new("/foobar"));
    /// ```
    #[must_use]
    #[inline]
    pub fn as_mut_unix_string(&mut self) -> &mut UnixString {
        &mut self.text
    }

    /// Returns the path without ever freeing its memory.
    ///
    /// ```
    /// use unix_path_proved::{Path, PathBuf};
    /// let path: &'static mut Path = PathBuf::from("a").leak();
    /// assert_eq!(*path, *Path::new("a"));
    /// ```
    #[must_use]
    #[inline]
    pub fn leak<'a>(self) -> &'a mut Path {
        Path::of_mut(self.text.into_vec().leak())
    }

    /// Converts to the path's text, in the same memory, like `PathBuf::into_os_string` of Rust.
    ///
    /// ```
    /// assert_eq!(unix_path_proved::PathBuf::from("a//b").into_unix_string(), "a//b");
    /// ```
    #[must_use]
    #[inline]
    pub fn into_unix_string(self) -> UnixString {
        self.text
    }

    /// Converts to a boxed path, without spare capacity.
    ///
    /// ```
    /// use unix_path_proved::{Path, PathBuf};
    /// assert_eq!(&*PathBuf::from("a").into_boxed_path(), Path::new("a"));
    /// ```
    #[must_use]
    #[inline]
    pub fn into_boxed_path(self) -> Box<Path> {
        Path::in_box(self.text.into_vec().into_boxed_slice())
    }
}

impl Deref for PathBuf {
    type Target = Path;

    #[inline]
    fn deref(&self) -> &Path {
        Path::of(self.text.as_bytes())
    }
}

impl DerefMut for PathBuf {
    #[inline]
    fn deref_mut(&mut self) -> &mut Path {
        Path::of_mut(&mut self.text.bytes)
    }
}

impl Borrow<Path> for PathBuf {
    #[inline]
    fn borrow(&self) -> &Path {
        self
    }
}

impl PartialEq for PathBuf {
    #[inline]
    fn eq(&self, other: &PathBuf) -> bool {
        self.as_path() == other.as_path()
    }
}

impl Eq for PathBuf {}

impl PartialOrd for PathBuf {
    #[inline]
    fn partial_cmp(&self, other: &PathBuf) -> Option<Ordering> {
        Some(self.cmp(other))
    }
}

impl Ord for PathBuf {
    #[inline]
    fn cmp(&self, other: &PathBuf) -> Ordering {
        self.as_path().cmp(other.as_path())
    }
}

/// Feeds the hasher the same bytes as the path, as [`Borrow`] requires.
impl Hash for PathBuf {
    #[inline]
    fn hash<H: Hasher>(&self, state: &mut H) {
        self.as_path().hash(state);
    }
}

impl fmt::Debug for PathBuf {
    fn fmt(&self, f: &mut fmt::Formatter<'_>) -> fmt::Result {
        fmt::Debug::fmt(self.as_path(), f)
    }
}

impl<'a> IntoIterator for &'a PathBuf {
    type Item = &'a UnixStr;
    type IntoIter = Iter<'a>;

    #[inline]
    fn into_iter(self) -> Iter<'a> {
        self.iter()
    }
}

/// Pushes each path in order.
impl<P: AsRef<Path>> Extend<P> for PathBuf {
    #[inline]
    fn extend<I: IntoIterator<Item = P>>(&mut self, paths: I) {
        paths.into_iter().for_each(|path| self.push(path));
    }
}

/// Pushes the paths in order onto an empty path. If they are the components of one path, the result
/// is the canonical form of that path.
impl<P: AsRef<Path>> FromIterator<P> for PathBuf {
    #[inline]
    fn from_iter<I: IntoIterator<Item = P>>(paths: I) -> PathBuf {
        let mut joined = PathBuf::new();
        joined.extend(paths);
        joined
    }
}

/// Converts in the same memory if the path is owned, and otherwise copies it.
impl From<Cow<'_, Path>> for PathBuf {
    #[inline]
    fn from(cow: Cow<'_, Path>) -> PathBuf {
        cow.into_owned()
    }
}

impl FromStr for PathBuf {
    type Err = Infallible;

    #[inline]
    fn from_str(s: &str) -> Result<PathBuf, Infallible> {
        Ok(PathBuf::from(s))
    }
}
