//! The entries of an archive, links among them: whether an extractor that works in a new, empty
//! directory can write outside of it.
//!
//! Names that each stay inside can still lead out: after a link `x` to `/etc`, the file `x/passwd`
//! is written to `/etc/passwd`.
//!
//! ```
//! use unix_path_proved::archive::{check, Entry, Kind, Level, Reason};
//! use unix_path_proved::Path;
//!
//! let entries = [
//!     Entry::new("x", Kind::Symlink(Path::new("/etc"))),
//!     Entry::new("x/passwd", Kind::File),
//! ];
//! let refusal = check(entries, Level::Inside).unwrap_err();
//! assert_eq!((refusal.entry, refusal.cause, refusal.reason), (1, 0, Reason::BelowLeaf));
//! assert_eq!(refusal.to_string(), "entry 1 is below entry 0, a file or a link");
//! ```
use crate::ffi::{entries, refusal_of};
use crate::path::Path;
use alloc::vec::Vec;
use core::fmt;

/// What an entry is.
///
/// ```
/// use unix_path_proved::{archive::Kind, Path};
/// assert_ne!(Kind::Symlink(Path::new("a")), Kind::HardLink(Path::new("a")));
/// ```
#[derive(Clone, Copy, Debug, PartialEq, Eq)]
pub enum Kind<'a> {
    /// A directory.
    Directory,
    /// A file.
    File,
    /// A symbolic link with this target.
    Symlink(&'a Path),
    /// A hard link to this path.
    HardLink(&'a Path),
    /// Anything else, such as a device, which is refused.
    Other,
}

/// An entry of an archive, as the program lists it that extracts it, with the same options.
///
/// ```
/// use unix_path_proved::archive::{Entry, Kind};
/// assert_eq!(Entry::new("a/b", Kind::File).path.as_unix_str(), "a/b");
/// ```
#[derive(Clone, Copy, Debug, PartialEq, Eq)]
pub struct Entry<'a> {
    /// Where the entry is extracted.
    pub path: &'a Path,
    /// What it is.
    pub kind: Kind<'a>,
}

impl<'a> Entry<'a> {
    /// Returns the entry with this path.
    ///
    /// ```
    /// use unix_path_proved::archive::{Entry, Kind};
    /// assert_eq!(Entry::new(b"a", Kind::Directory), Entry::new("a", Kind::Directory));
    /// ```
    #[must_use]
    pub fn new<P: AsRef<Path> + ?Sized>(path: &'a P, kind: Kind<'a>) -> Entry<'a> {
        let path = path.as_ref();
        Entry { path, kind }
    }
}

/// What is accepted. What is accepted is safe in any order of the entries.
///
/// It is not safe for names that the file system takes for equal though they differ, for options
/// that change names, or in a directory that others change meanwhile.
///
/// ```
/// use unix_path_proved::archive::{check, Entry, Kind, Level};
/// use unix_path_proved::Path;
/// let link = [Entry::new("x", Kind::Symlink(Path::new("/etc")))];
/// assert!(check(link, Level::Inside).is_ok() && check(link, Level::Closed).is_err());
/// ```
#[derive(Clone, Copy, Debug, PartialEq, Eq)]
pub enum Level {
    /// Safe for each extractor that does not follow a symbolic link when it works on the link's own
    /// path.
    Inside,
    /// Also safe for those that do: a link that leads out is refused.
    Closed,
}

/// Why an entry is refused. An extractor uses the path of each entry and the target of each hard
/// link.
///
/// ```
/// use unix_path_proved::archive::{check, Entry, Kind, Level, Reason};
/// let refusal = check([Entry::new("../a", Kind::File)], Level::Inside).unwrap_err();
/// assert_eq!(refusal.reason, Reason::Name);
/// ```
#[derive(Clone, Copy, Debug, PartialEq, Eq)]
#[non_exhaustive]
pub enum Reason {
    /// A path that is used has a root or a `..`, or ends in `/` or `/.` though it is not a
    /// directory's; or the entry's path or target has a NUL.
    Name,
    /// The entry is of another kind.
    Kind,
    /// A path that is used is below a file's or a link's.
    BelowLeaf,
    /// The path of a symbolic link is used twice.
    LinkUsedTwice,
    /// The target of a hard link is a link.
    TargetIsLink,
    /// At [`Level::Closed`]: the target of a symbolic link has a root, more `..` than directories
    /// above the link, or a `..` after a name.
    LeadsOut,
}

/// The entry that [`check`] refuses: the first of those that are refused.
///
/// ```
/// use unix_path_proved::archive::{check, Entry, Kind, Level};
/// let refusal = check([Entry::new("a", Kind::Other)], Level::Inside).unwrap_err();
/// assert_eq!(refusal.to_string(), "entry 0 is of a kind that is not accepted");
/// ```
#[derive(Clone, Copy, Debug, PartialEq, Eq)]
pub struct Refusal {
    /// The number of the entry; that of the first is 0.
    pub entry: usize,
    /// The number of the entry that it clashes with, or its own number.
    pub cause: usize,
    /// Why it is refused.
    pub reason: Reason,
}

impl fmt::Display for Refusal {
    fn fmt(&self, f: &mut fmt::Formatter<'_>) -> fmt::Result {
        let Refusal { entry, cause, .. } = self;
        match self.reason {
            Reason::Name => write!(f, "entry {entry} has a path that is not accepted"),
            Reason::Kind => write!(f, "entry {entry} is of a kind that is not accepted"),
            Reason::BelowLeaf => {
                write!(f, "entry {entry} is below entry {cause}, a file or a link")
            }
            Reason::LinkUsedTwice => write!(f, "entry {entry} has the path of entry {cause}"),
            Reason::TargetIsLink => {
                write!(f, "entry {entry} is a hard link to entry {cause}, a link")
            }
            Reason::LeadsOut => write!(f, "entry {entry} is a link that leads out"),
        }
    }
}

impl core::error::Error for Refusal {}

/// Writes a record of an entry. One with a NUL has a path instead that is refused for its name, and
/// that no other entry can clash with.
fn write_record(entry: Entry<'_>, records: &mut Vec<u8>) {
    let (kind, target) = match entry.kind {
        Kind::Directory => (b'd', Path::of(b"")),
        Kind::File => (b'f', Path::of(b"")),
        Kind::Symlink(target) => (b'l', target),
        Kind::HardLink(target) => (b'h', target),
        Kind::Other => (b'?', Path::of(b"")),
    };
    let (mut kind, mut path, mut target) = (kind, entry.path.as_bytes(), target.as_bytes());
    if path.contains(&0) || target.contains(&0) {
        (kind, path, target) = (b'f', b"..", b"");
    }
    for field in [&[kind], path, target] {
        records.extend_from_slice(field);
        records.push(0);
    }
}

/// Decides whether an extractor that works in a new, empty directory can write outside of it.
///
/// Returns the first entry that is refused, if any is. List the entries as the program does that
/// extracts them, with its options. Allocates for all entries together, and ends the program if an
/// allocation fails.
///
/// ```
/// use unix_path_proved::archive::{check, Entry, Kind, Level};
/// let entries = ["a/b", "a/../b"].map(|path| Entry::new(path, Kind::File));
/// assert_eq!(check(entries, Level::Inside).unwrap_err().entry, 1);
/// assert_eq!(check(entries[..1].iter().copied(), Level::Closed), Ok(()));
/// ```
pub fn check<'a>(
    entries: impl IntoIterator<Item = Entry<'a>>,
    level: Level,
) -> Result<(), Refusal> {
    let (mut records, mut slots) = (Vec::new(), 0);
    for entry in entries {
        write_record(entry, &mut records);
        // A hard link uses two paths.
        slots += 1 + usize::from(matches!(entry.kind, Kind::HardLink(_)));
    }
    let level = match level {
        Level::Inside => entries::INSIDE,
        Level::Closed => entries::CLOSED,
    };
    refusal_of(&records, slots, level).map_or(Ok(()), |(entry, cause, reason)| {
        let reason = match reason {
            entries::REFUSED_KIND => Reason::Kind,
            entries::REFUSED_BELOW_LEAF => Reason::BelowLeaf,
            entries::REFUSED_LINK_USED_TWICE => Reason::LinkUsedTwice,
            entries::REFUSED_TARGET_IS_LINK => Reason::TargetIsLink,
            entries::REFUSED_LEADS_OUT => Reason::LeadsOut,
            _ => Reason::Name,
        };
        Err(Refusal {
            entry,
            cause,
            reason,
        })
    })
}
