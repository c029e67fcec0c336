//! Methods that answer a question about one or two paths. They return slices of the path, and none
//! allocates.
use super::Path;
use crate::calls;
use crate::error::{RequestError, StripPrefixError};
use crate::unix_str::UnixStr;
use crate::walks::{Ancestors, Components, Iter};

impl Path {
    /// Returns true if the path begins with a slash.
    ///
    /// ```
    /// use unix_path_proved::Path;
    /// assert!(Path::new("/a").is_absolute());
    /// assert!(!Path::new("a/").is_absolute());
    /// ```
    #[must_use]
    #[inline]
    pub fn is_absolute(&self) -> bool {
        calls::is_absolute(self.as_bytes())
    }

    /// Returns true if the path does not begin with a slash.
    ///
    /// ```
    /// assert!(unix_path_proved::Path::new("a/").is_relative());
    /// ```
    #[must_use]
    #[inline]
    pub fn is_relative(&self) -> bool {
        !self.is_absolute()
    }

    /// Returns true if the path begins with a slash, like [`is_absolute`](Path::is_absolute).
    ///
    /// ```
    /// assert!(unix_path_proved::Path::new("/a").has_root());
    /// ```
    #[must_use]
    #[inline]
    pub fn has_root(&self) -> bool {
        self.is_absolute()
    }

    /// Returns the path without its last component, or `None` if the path has no component, or only
    /// the root.
    ///
    /// ```
    /// use unix_path_proved::Path;
    /// assert_eq!(Path::new("/a//b/").parent().unwrap().as_unix_str(), "/a");
    /// assert_eq!(Path::new("/").parent(), None);
    /// assert_eq!(Path::new("").parent(), None);
    /// ```
    #[must_use]
    #[inline]
    pub fn parent(&self) -> Option<&Path> {
        calls::parent(self.as_bytes()).map(Path::of)
    }

    /// Returns an iterator over the path, its parent, that parent's parent, and so on.
    ///
    /// ```
    /// use unix_path_proved::Path;
    /// assert!(Path::new("/a/b").ancestors().eq(["/a/b", "/a", "/"].map(Path::new)));
    /// ```
    #[inline]
    pub fn ancestors(&self) -> Ancestors<'_> {
        Ancestors::new(self)
    }

    /// Returns the last component if it is a name.
    ///
    /// ```
    /// use unix_path_proved::Path;
    /// assert_eq!(Path::new("foo.txt/.").file_name().unwrap(), "foo.txt");
    /// assert_eq!(Path::new("foo/..").file_name(), None);
    /// ```
    #[must_use]
    #[inline]
    pub fn file_name(&self) -> Option<&UnixStr> {
        calls::file_name(self.as_bytes()).map(UnixStr::of)
    }

    /// Returns the file name up to its last dot, or all of it if it has no dot or only a leading
    /// one.
    ///
    /// ```
    /// use unix_path_proved::Path;
    /// assert_eq!(Path::new("a/foo.tar.gz").file_stem().unwrap(), "foo.tar");
    /// assert_eq!(Path::new("a/.foo").file_stem().unwrap(), ".foo");
    /// ```
    #[must_use]
    #[inline]
    pub fn file_stem(&self) -> Option<&UnixStr> {
        calls::file_stem(self.as_bytes()).map(UnixStr::of)
    }

    /// Returns the part of the file name after its last dot, or `None` if it has no dot or only a
    /// leading one.
    ///
    /// ```
    /// use unix_path_proved::Path;
    /// assert_eq!(Path::new("a/foo.tar.gz").extension().unwrap(), "gz");
    /// assert_eq!(Path::new("a/.foo").extension(), None);
    /// assert_eq!(Path::new("a/foo.").extension().unwrap(), "");
    /// ```
    #[must_use]
    #[inline]
    pub fn extension(&self) -> Option<&UnixStr> {
        calls::extension(self.as_bytes()).map(UnixStr::of)
    }

    /// Returns the file name up to its first dot after the first byte, or all of it if there is no
    /// such dot.
    ///
    /// ```
    /// use unix_path_proved::Path;
    /// assert_eq!(Path::new("a/foo.tar.gz").file_prefix().unwrap(), "foo");
    /// assert_eq!(Path::new("a/.foo.gz").file_prefix().unwrap(), ".foo");
    /// ```
    #[must_use]
    #[inline]
    pub fn file_prefix(&self) -> Option<&UnixStr> {
        calls::file_prefix(self.as_bytes()).map(UnixStr::of)
    }

    /// Returns the rest of the path after `base`. Fails if and only if
    /// [`starts_with`](Path::starts_with) is false.
    ///
    /// An empty result may be at another position in the path than in Rust's `Path::strip_prefix`.
    ///
    /// The result may escape, like `../etc` below. To keep a request beneath a directory, use
    /// `join_beneath`.
    ///
    /// ```
    /// use unix_path_proved::Path;
    /// let path = Path::new("/a//b/");
    /// assert_eq!(path.strip_prefix("/a"), Ok(Path::new("b")));
    /// assert_eq!(path.strip_prefix("/a/b"), Ok(Path::new("")));
    /// assert!(path.strip_prefix("/a/bc").is_err());
    /// assert_eq!(Path::new("/dest/../etc").strip_prefix("/dest"), Ok(Path::new("../etc")));
    /// ```
    #[inline]
    pub fn strip_prefix<P: AsRef<Path>>(&self, base: P) -> Result<&Path, StripPrefixError> {
        match calls::strip_prefix(self.as_bytes(), base.as_ref().as_bytes()) {
            Some(rest) => Ok(Path::of(rest)),
            None => Err(StripPrefixError::new()),
        }
    }

    /// Returns true if the components of the path start with those of `base`.
    ///
    /// A path that starts with a directory may still leave it, since no `..` is resolved. To keep a
    /// request beneath a directory, use `join_beneath`.
    ///
    /// ```
    /// use unix_path_proved::Path;
    /// assert!(Path::new("/etc//passwd").starts_with("/etc/"));
    /// assert!(!Path::new("/etc/passwd").starts_with("/e"));
    /// assert!(Path::new("/dest/../etc").starts_with("/dest"));
    /// ```
    #[must_use]
    #[inline]
    pub fn starts_with<P: AsRef<Path>>(&self, base: P) -> bool {
        calls::starts_with(self.as_bytes(), base.as_ref().as_bytes())
    }

    /// Returns true if the components of the path end with those of `child`.
    ///
    /// ```
    /// use unix_path_proved::Path;
    /// assert!(Path::new("/etc/passwd").ends_with("passwd/"));
    /// assert!(!Path::new("/etc/passwd").ends_with("/passwd"));
    /// ```
    #[must_use]
    #[inline]
    pub fn ends_with<P: AsRef<Path>>(&self, child: P) -> bool {
        calls::ends_with(self.as_bytes(), child.as_ref().as_bytes())
    }

    /// Returns an iterator over the components of the path, from either end.
    ///
    /// Repeated slashes count as one. A trailing slash is dropped, and so is each `.` except a
    /// leading one.
    ///
    /// ```
    /// use unix_path_proved::{Component::*, Path};
    /// let path = Path::new("/tmp//./a/..");
    /// let names = [Normal("tmp".as_ref()), Normal("a".as_ref())];
    /// assert!(path.components().eq([RootDir, names[0], names[1], ParentDir]));
    /// assert_eq!(path.components().next_back(), Some(ParentDir));
    /// ```
    #[inline]
    pub fn components(&self) -> Components<'_> {
        Components::new(self)
    }

    /// Returns an iterator over the components of the path as text, from either end.
    ///
    /// ```
    /// assert!(unix_path_proved::Path::new("/tmp//a").iter().eq(["/", "tmp", "a"]));
    /// ```
    #[inline]
    pub fn iter(&self) -> Iter<'_> {
        Iter::new(self)
    }

    /// Returns true if the path is in canonical form: [`canonical`](Path::canonical) returns the
    /// same bytes.
    ///
    /// ```
    /// use unix_path_proved::Path;
    /// assert!(Path::new("./a/b").is_canonical());
    /// assert!(!Path::new("a//b").is_canonical());
    /// ```
    #[must_use]
    #[inline]
    pub fn is_canonical(&self) -> bool {
        calls::is_canonical(self.as_bytes())
    }

    /// Returns true if the path escapes: it has a root, or its `..` lead above where it starts,
    /// even if later names come down again. A NUL is accepted.
    ///
    /// Purely lexical: symbolic links are not followed.
    ///
    /// ```
    /// use unix_path_proved::Path;
    /// assert!(Path::new("a/../../root/x").escapes());
    /// assert!(Path::new("/a").escapes());
    /// assert!(!Path::new("a/../..foo").escapes());
    /// ```
    #[must_use]
    #[inline]
    pub fn escapes(&self) -> bool {
        calls::escapes(self.as_bytes())
    }

    /// Returns `Ok` if `join_beneath` joins this request, and otherwise the reason for which it
    /// refuses the request.
    ///
    /// Fails with `Rooted` if and only if the request has a root; otherwise with `Escapes` if and
    /// only if its `..` lead above where it starts; otherwise with `Nul` if and only if it has a
    /// NUL byte, at which a system call would cut it.
    ///
    /// ```
    /// use unix_path_proved::{Path, RequestError};
    /// assert_eq!(Path::new("a/../b").check_request(), Ok(()));
    /// assert_eq!(Path::new("/../a").check_request(), Err(RequestError::Rooted));
    /// assert_eq!(Path::new("a/../..").check_request(), Err(RequestError::Escapes));
    /// assert_eq!(Path::new(b"a\0.png").check_request(), Err(RequestError::Nul));
    /// ```
    #[inline]
    pub fn check_request(&self) -> Result<(), RequestError> {
        calls::check_request(self.as_bytes())
    }

    /// Returns true if this request is the root itself: no name remains when `join_in_root`
    /// resolves it.
    ///
    /// `join_in_root` then returns the root verbatim if the request has no NUL byte, and so does
    /// `join_beneath` unless it refuses the request.
    ///
    /// ```
    /// use unix_path_proved::Path;
    /// assert!(Path::new("a/..").request_is_root());
    /// assert!(Path::new("/").request_is_root());
    /// assert!(!Path::new("a/../b").request_is_root());
    /// ```
    #[must_use]
    #[inline]
    pub fn request_is_root(&self) -> bool {
        calls::request_is_root(self.as_bytes())
    }

    /// Returns true if the last component is a name and a slash or a `/.` follows it: a system call
    /// takes such a path for the path of a directory (POSIX, pathname resolution).
    ///
    /// `join_beneath` and `join_in_root` drop such a slash or `/.` at the end of a request.
    ///
    /// ```
    /// use unix_path_proved::Path;
    /// assert!(["a/", "a/."].iter().all(|path| Path::new(path).ends_in_slash()));
    /// assert!(!["a", "a/..", "/"].iter().any(|path| Path::new(path).ends_in_slash()));
    /// ```
    #[must_use]
    #[inline]
    pub fn ends_in_slash(&self) -> bool {
        calls::ends_in_slash(self.as_bytes())
    }

    /// Returns the bytes of this path up to and including the last slash of the longest common
    /// prefix of both paths' bytes, or the empty path if that prefix has no slash.
    ///
    /// ```
    /// use unix_path_proved::Path;
    /// assert_eq!(Path::new("x/ab").common_dir("x/ac").as_unix_str(), "x/");
    /// assert_eq!(Path::new("a/b").common_dir("ab").as_unix_str(), "");
    /// ```
    #[must_use]
    #[inline]
    pub fn common_dir<P: AsRef<Path>>(&self, other: P) -> &Path {
        Path::of(calls::common_dir(
            self.as_bytes(),
            other.as_ref().as_bytes(),
        ))
    }
}
