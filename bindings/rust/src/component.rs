//! The components of a path.
use crate::ffi::Part;
use crate::path::Path;
use crate::unix_str::UnixStr;
use core::hash::{Hash, Hasher};

/// A component of a path. Components are ordered by variant, and names by their bytes.
///
/// Like `std::path::Component`, but there is no `Prefix`: leave out the arm of a `match` that names
/// it.
///
/// ```
/// use unix_path_proved::{Component, Path};
/// let parts: Vec<_> = Path::new("/tmp").components().collect();
/// assert_eq!(parts, [Component::RootDir, Component::Normal("tmp".as_ref())]);
/// assert_eq!(format!("{parts:?}"), r#"[RootDir, Normal("tmp")]"#);
/// ```
#[derive(Clone, Copy, Debug, PartialEq, Eq, PartialOrd, Ord)]
pub enum Component<'a> {
    /// The root: the path begins with `/`.
    RootDir,
    /// A leading `.`; any other `.` is dropped.
    CurDir,
    /// A `..`, which is kept.
    ParentDir,
    /// A name.
    Normal(&'a UnixStr),
}

impl<'a> Component<'a> {
    /// Returns the component as text: `/`, `.`, `..` or the name.
    ///
    /// ```
    /// use unix_path_proved::{Component, UnixStr};
    /// assert_eq!(Component::RootDir.as_unix_str(), "/");
    /// assert_eq!(Component::Normal(UnixStr::new("a")).as_unix_str(), "a");
    /// ```
    #[must_use]
    #[inline]
    pub fn as_unix_str(self) -> &'a UnixStr {
        match self {
            Component::RootDir => UnixStr::of(b"/"),
            Component::CurDir => UnixStr::of(b"."),
            Component::ParentDir => UnixStr::of(b".."),
            Component::Normal(name) => name,
        }
    }

    /// Converts a `Part` that the library returned for this path. Returns `None` if its kind is
    /// unknown, or if it is a name that is not in the path.
    #[inline]
    pub(crate) fn from_part(part: Part, path: &'a [u8]) -> Option<Component<'a>> {
        match part.kind {
            Part::ROOT_DIR => Some(Component::RootDir),
            Part::CUR_DIR => Some(Component::CurDir),
            Part::PARENT_DIR => Some(Component::ParentDir),
            Part::NORMAL => part
                .of(path)
                .map(|name| Component::Normal(UnixStr::of(name))),
            _ => None,
        }
    }
}

/// Feeds the hasher the component's bytes and then a slash, which no name contains. The components
/// of two paths feed it the same bytes only if the paths are equal.
impl Hash for Component<'_> {
    #[inline]
    fn hash<H: Hasher>(&self, state: &mut H) {
        state.write(self.as_unix_str().as_bytes());
        state.write_u8(b'/');
    }
}

impl AsRef<UnixStr> for Component<'_> {
    #[inline]
    fn as_ref(&self) -> &UnixStr {
        self.as_unix_str()
    }
}

impl AsRef<Path> for Component<'_> {
    #[inline]
    fn as_ref(&self) -> &Path {
        self.as_unix_str().as_ref()
    }
}
