//! Iterators over the components of a path, over its ancestors, and over the chunks of a text. No
//! method allocates.
use crate::component::Component;
use crate::ffi::{self, Step, Walk};
use crate::path::Path;
use crate::unix_str::UnixStr;
use core::cmp::Ordering;
use core::fmt;
use core::hash::{Hash, Hasher};
use core::iter::FusedIterator;

/// The rest of a walk, which debug text shows as a list.
struct Left<I>(I);

impl<I: Iterator<Item: fmt::Debug> + Clone> fmt::Debug for Left<I> {
    fn fmt(&self, f: &mut fmt::Formatter<'_>) -> fmt::Result {
        f.debug_list().entries(self.0.clone()).finish()
    }
}

/// An iterator over the components of a path, from either end, returned by [`Path::components`].
///
/// It contains the path and two offsets. Two walks are compared, and a walk is hashed, by the
/// components that remain.
///
/// ```
/// use unix_path_proved::{Component, Path};
/// let mut parts = Path::new("/tmp/a/..").components();
/// assert_eq!(parts.next_back(), Some(Component::ParentDir));
/// assert_eq!(format!("{parts:?}"), r#"Components([RootDir, Normal("tmp"), Normal("a")])"#);
/// assert_eq!(parts, Path::new("/tmp//a").components());
/// ```
#[derive(Clone)]
pub struct Components<'a> {
    path: &'a [u8],
    walk: Walk,
}

impl<'a> Components<'a> {
    #[inline]
    pub(crate) fn new(path: &'a Path) -> Components<'a> {
        let path = path.as_bytes();
        Components {
            path,
            walk: Walk::new(path),
        }
    }

    /// Returns the rest of the path, from the start of the first remaining component to the end of
    /// the last.
    ///
    /// ```
    /// use unix_path_proved::Path;
    /// let mut parts = Path::new("/tmp//foo/./bar.txt/").components();
    /// parts.next();
    /// parts.next_back();
    /// assert_eq!(parts.as_path().as_unix_str(), "tmp//foo");
    /// ```
    #[must_use]
    #[inline]
    pub fn as_path(&self) -> &'a Path {
        Path::of(self.walk.left(self.path).unwrap_or_default())
    }

    #[inline]
    fn step(&mut self, step: Step) -> Option<Component<'a>> {
        let part = step.take(self.path, &mut self.walk)?;
        Component::from_part(part, self.path)
    }
}

impl<'a> Iterator for Components<'a> {
    type Item = Component<'a>;

    #[inline]
    fn next(&mut self) -> Option<Component<'a>> {
        self.step(Step::NEXT)
    }
}

impl DoubleEndedIterator for Components<'_> {
    #[inline]
    fn next_back(&mut self) -> Option<Self::Item> {
        self.step(Step::NEXT_BACK)
    }
}

impl FusedIterator for Components<'_> {}

impl PartialEq for Components<'_> {
    #[inline]
    fn eq(&self, other: &Self) -> bool {
        self.as_path() == other.as_path()
    }
}

impl Eq for Components<'_> {}

impl PartialOrd for Components<'_> {
    #[inline]
    fn partial_cmp(&self, other: &Self) -> Option<Ordering> {
        Some(self.cmp(other))
    }
}

impl Ord for Components<'_> {
    #[inline]
    fn cmp(&self, other: &Self) -> Ordering {
        self.as_path().cmp(other.as_path())
    }
}

/// Feeds the hasher the same bytes as the rest of the path.
impl Hash for Components<'_> {
    #[inline]
    fn hash<H: Hasher>(&self, state: &mut H) {
        self.as_path().hash(state);
    }
}

impl fmt::Debug for Components<'_> {
    fn fmt(&self, f: &mut fmt::Formatter<'_>) -> fmt::Result {
        f.debug_tuple("Components")
            .field(&Left(self.clone()))
            .finish()
    }
}

/// An iterator over the components of a path as text, from either end, returned by [`Path::iter`].
///
/// ```
/// use unix_path_proved::Path;
/// let mut parts = Path::new("/tmp/a").iter();
/// assert_eq!(parts.next().unwrap(), "/");
/// assert_eq!(format!("{parts:?}"), r#"Iter(["tmp", "a"])"#);
/// ```
#[derive(Clone)]
pub struct Iter<'a> {
    parts: Components<'a>,
}

impl<'a> Iter<'a> {
    #[inline]
    pub(crate) fn new(path: &'a Path) -> Iter<'a> {
        Iter {
            parts: path.components(),
        }
    }

    /// Returns the rest of the path, from the start of the first remaining component to the end of
    /// the last.
    ///
    /// ```
    /// use unix_path_proved::Path;
    /// let mut parts = Path::new("/tmp/foo/").iter();
    /// parts.next();
    /// assert_eq!(parts.as_path().as_unix_str(), "tmp/foo");
    /// ```
    #[must_use]
    #[inline]
    pub fn as_path(&self) -> &'a Path {
        self.parts.as_path()
    }
}

impl<'a> Iterator for Iter<'a> {
    type Item = &'a UnixStr;

    #[inline]
    fn next(&mut self) -> Option<&'a UnixStr> {
        self.parts.next().map(Component::as_unix_str)
    }
}

impl DoubleEndedIterator for Iter<'_> {
    #[inline]
    fn next_back(&mut self) -> Option<Self::Item> {
        self.parts.next_back().map(Component::as_unix_str)
    }
}

impl FusedIterator for Iter<'_> {}

impl fmt::Debug for Iter<'_> {
    fn fmt(&self, f: &mut fmt::Formatter<'_>) -> fmt::Result {
        f.debug_tuple("Iter").field(&Left(self.clone())).finish()
    }
}

/// Lets the rest of a walk be used as a path and as text.
macro_rules! walks_as_paths {
    ($($walk:ident)*) => {$(
        impl AsRef<Path> for $walk<'_> {
            #[inline]
            fn as_ref(&self) -> &Path {
                self.as_path()
            }
        }

        impl AsRef<UnixStr> for $walk<'_> {
            #[inline]
            fn as_ref(&self) -> &UnixStr {
                self.as_path().as_unix_str()
            }
        }
    )*};
}

walks_as_paths!(Components Iter);

/// An iterator over a path, its parent, that parent's parent, and so on, returned by
/// [`Path::ancestors`].
///
/// ```
/// let mut above = unix_path_proved::Path::new("a/b").ancestors();
/// assert_eq!(above.nth(1).unwrap().as_unix_str(), "a");
/// ```
#[derive(Clone, Copy, Debug)]
pub struct Ancestors<'a> {
    path: &'a Path,
    next: usize,
}

impl<'a> Ancestors<'a> {
    #[inline]
    pub(crate) fn new(path: &'a Path) -> Ancestors<'a> {
        Ancestors {
            path,
            next: path.as_bytes().len(),
        }
    }
}

impl<'a> Iterator for Ancestors<'a> {
    type Item = &'a Path;

    #[inline]
    fn next(&mut self) -> Option<&'a Path> {
        ffi::next_ancestor(self.path.as_bytes(), &mut self.next).map(Path::of)
    }
}

impl FusedIterator for Ancestors<'_> {}

/// A chunk of a text: the longest run of valid UTF-8 and the invalid bytes after it, like
/// `Utf8Chunk` of Rust.
///
/// ```
/// use unix_path_proved::{Chunk, UnixStr};
/// let chunk = UnixStr::from_bytes(b"a\xFFb").chunks().next();
/// assert_eq!(chunk, Some(Chunk { valid: b"a", broken: b"\xFF" }));
/// ```
#[derive(Clone, Copy, Debug, PartialEq, Eq)]
pub struct Chunk<'a> {
    /// The bytes that are valid UTF-8; none if the chunk begins with invalid bytes.
    pub valid: &'a [u8],
    /// At most 3 invalid bytes, for which the lossy text has one U+FFFD. Only the last chunk can
    /// have none.
    pub broken: &'a [u8],
}

/// An iterator over the chunks of a text, returned by [`UnixStr::chunks`].
///
/// ```
/// assert_eq!(unix_path_proved::UnixStr::from_bytes(b"a\xFFb").chunks().count(), 2);
/// ```
#[derive(Clone, Copy, Debug)]
pub struct Chunks<'a> {
    text: &'a [u8],
    next: usize,
}

impl<'a> Chunks<'a> {
    #[inline]
    pub(crate) fn new(text: &'a [u8]) -> Chunks<'a> {
        Chunks { text, next: 0 }
    }
}

impl<'a> Iterator for Chunks<'a> {
    type Item = Chunk<'a>;

    #[inline]
    fn next(&mut self) -> Option<Chunk<'a>> {
        let (valid, broken) = ffi::next_chunk(self.text, &mut self.next)?;
        Some(Chunk { valid, broken })
    }
}

impl FusedIterator for Chunks<'_> {}
