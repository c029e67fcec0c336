//! Paths.
#[cfg(feature = "alloc")]
mod made;
mod queries;

use crate::calls;
use crate::component::Component;
use crate::display::Display;
use crate::unix_str::UnixStr;
use crate::walks::Iter;
use core::cmp::Ordering;
use core::hash::{Hash, Hasher};

/// A path: any bytes, read as components between slashes.
///
/// It is compared, ordered and hashed by its components, so `a//b/.` equals `a/b`. It is unsized
/// and used behind a reference or a `Box`; `PathBuf` owns its bytes.
///
/// ```
/// use unix_path_proved::Path;
/// let path = Path::new("./foo//bar.txt");
/// assert_eq!(path.parent(), Some(Path::new("./foo")));
/// assert_eq!(path.file_stem().unwrap(), "bar");
/// assert_eq!(path, Path::new("./foo/bar.txt/"));
/// ```
#[repr(transparent)]
pub struct Path(UnixStr);

impl Path {
    /// Returns the path with this text or these bytes, without copying. With the feature `std`, on
    /// Unix, also of a path or a string of std.
    ///
    /// ```
    /// use unix_path_proved::Path;
    /// assert_eq!(Path::new(&String::from("a")), Path::new("a"));
    /// assert_eq!(Path::new(b"\xE9").to_str(), None);
    /// # #[cfg(unix)]
    /// assert_eq!(Path::new(std::path::Path::new("a")), Path::new("a"));
    /// ```
    #[inline]
    pub fn new<S: AsRef<UnixStr> + ?Sized>(s: &S) -> &Path {
        Path::of(s.as_ref().as_bytes())
    }

    /// Returns the path's bytes.
    ///
    /// ```
    /// assert_eq!(unix_path_proved::Path::new("a//é").as_bytes(), b"a//\xC3\xA9");
    /// ```
    #[must_use]
    #[inline]
    pub const fn as_bytes(&self) -> &[u8] {
        self.0.as_bytes()
    }

    /// Returns the path's text, byte for byte, like `Path::as_os_str` of Rust.
    ///
    /// ```
    /// assert_eq!(unix_path_proved::Path::new("a//b").as_unix_str(), "a//b");
    /// ```
    #[must_use]
    #[inline]
    pub fn as_unix_str(&self) -> &UnixStr {
        &self.0
    }

    /// Returns the path's text, to change it in place, like `Path::as_mut_os_str` of Rust.
    ///
    /// ```
    /// use unix_path_proved::PathBuf;
    /// let mut path = PathBuf::from("Foo.TXT");
    /// path.as_mut_unix_str().make_ascii_lowercase();
    /// assert_eq!(path.as_unix_str(), "foo.txt");
    /// ```
    #[must_use]
    #[inline]
    pub fn as_mut_unix_str(&mut self) -> &mut UnixStr {
        &mut self.0
    }

    /// Returns the path as text, or `None` if it is not valid UTF-8.
    ///
    /// Rust's own check decides this, since a `str` depends on it.
    ///
    /// ```
    /// assert_eq!(unix_path_proved::Path::new("/é").to_str(), Some("/é"));
    /// ```
    #[must_use]
    #[inline]
    pub fn to_str(&self) -> Option<&str> {
        self.0.to_str()
    }

    /// Feeds the hasher the blocks of the canonical form.
    fn feed_components<H: Hasher>(&self, state: &mut H) {
        let mut blocks = Blocks {
            block: [0; BLOCK],
            length: 0,
            state,
        };
        let mut separator = "";
        for part in self.components() {
            blocks.push(separator.as_bytes());
            blocks.push(part.as_unix_str().as_bytes());
            separator = if part == Component::RootDir { "" } else { "/" };
        }
        blocks.flush();
    }

    /// Returns a value that prints the path. Does not allocate.
    ///
    /// ```
    /// assert_eq!(unix_path_proved::Path::new("/é").display().to_string(), "/é");
    /// ```
    #[must_use]
    #[inline]
    pub fn display(&self) -> Display<'_> {
        self.as_unix_str().display()
    }
}

impl PartialEq for Path {
    #[inline]
    fn eq(&self, other: &Path) -> bool {
        calls::equal(self.as_bytes(), other.as_bytes())
    }
}

impl Eq for Path {}

impl PartialOrd for Path {
    #[inline]
    fn partial_cmp(&self, other: &Path) -> Option<Ordering> {
        Some(self.cmp(other))
    }
}

impl Ord for Path {
    #[inline]
    fn cmp(&self, other: &Path) -> Ordering {
        calls::compare(self.as_bytes(), other.as_bytes())
    }
}

/// Feeds the hasher the canonical form, in blocks, and then an end mark: two slashes and a NUL. No
/// canonical form has two slashes in a row. So equal paths feed the same bytes, and different
/// paths, or different lists of paths, feed different bytes: if the hasher is keyed, its key
/// determines which of them collide.
impl Hash for Path {
    #[inline]
    fn hash<H: Hasher>(&self, state: &mut H) {
        if self.is_canonical() {
            let blocks = self.as_bytes().chunks(BLOCK);
            blocks.for_each(|block| state.write(block));
        } else {
            self.feed_components(state);
        }
        state.write(b"//\0");
    }
}

/// The number of bytes that are fed to a hasher at once. Equal paths have to feed the same blocks.
const BLOCK: usize = 256;

/// Collects bytes and feeds them to a hasher, block by block.
struct Blocks<'a, H> {
    block: [u8; BLOCK],
    length: usize,
    state: &'a mut H,
}

impl<H: Hasher> Blocks<'_, H> {
    fn push(&mut self, mut bytes: &[u8]) {
        while !bytes.is_empty() {
            let (now, later) = bytes.split_at(bytes.len().min(BLOCK - self.length));
            self.block[self.length..][..now.len()].copy_from_slice(now);
            self.length += now.len();
            bytes = later;
            if self.length == BLOCK {
                self.flush();
            }
        }
    }

    fn flush(&mut self) {
        if self.length > 0 {
            self.state.write(&self.block[..self.length]);
            self.length = 0;
        }
    }
}

impl<'a> IntoIterator for &'a Path {
    type Item = &'a UnixStr;
    type IntoIter = Iter<'a>;

    #[inline]
    fn into_iter(self) -> Iter<'a> {
        self.iter()
    }
}
