//! The errors of this crate's methods and functions.
use core::fmt;

/// The reason why a path was not made.
///
/// ```
/// use unix_path_proved::{Error, Path};
/// let error = Path::new("/srv").join_beneath("../etc").unwrap_err();
/// assert_eq!(error, Error::Escapes);
/// assert_eq!(error.to_string(), "path leaves its root");
/// ```
#[derive(Clone, Copy, Debug, PartialEq, Eq)]
#[non_exhaustive]
pub enum Error {
    /// The buffer is too short for the result. Only [`calls`](crate::calls) fail with it.
    Short {
        /// The length of the result.
        needed: usize,
    },
    /// The extension has a slash.
    Separator,
    /// The request of `join_beneath` has a root, or its `..` lead above where it starts. For
    /// `join_verbatim`: the request has a root or a `..`.
    Escapes,
    /// The request of `join_beneath`, `join_in_root` or `join_verbatim` has a NUL byte, and is not
    /// refused as `Escapes`.
    Nul,
    /// An allocation fails. Only [`calls`](crate::calls) fail with it: a method of the types ends
    /// the program.
    NoMemory,
    /// No path has these bytes as its key.
    NotAKey,
    /// No path without a root leads from the first path to the other.
    NoRelativePath,
}

impl fmt::Display for Error {
    fn fmt(&self, f: &mut fmt::Formatter<'_>) -> fmt::Result {
        match self {
            Error::Short { needed } => write!(f, "the buffer is too short for {needed} bytes"),
            Error::Separator => f.write_str("extension contains a separator"),
            Error::Escapes => f.write_str("path leaves its root"),
            Error::Nul => f.write_str("path has a NUL byte"),
            Error::NoMemory => f.write_str("out of memory"),
            Error::NotAKey => f.write_str("not the key of a path"),
            Error::NoRelativePath => f.write_str("no relative path from one path to the other"),
        }
    }
}

impl core::error::Error for Error {}

/// Converts to an I/O error: `OutOfMemory` for `NoMemory`, without allocating, and otherwise
/// `InvalidInput` with the error itself inside.
///
/// ```
/// use std::io;
/// use unix_path_proved::Error;
/// let error = io::Error::from(Error::Escapes);
/// assert_eq!(error.kind(), io::ErrorKind::InvalidInput);
/// assert_eq!(error.to_string(), "path leaves its root");
/// ```
#[cfg(feature = "std")]
impl From<Error> for std::io::Error {
    fn from(error: Error) -> std::io::Error {
        use std::io::ErrorKind::{InvalidInput, OutOfMemory};
        match error {
            Error::NoMemory => OutOfMemory.into(),
            Error::Short { .. }
            | Error::Separator
            | Error::Escapes
            | Error::Nul
            | Error::NotAKey
            | Error::NoRelativePath => std::io::Error::new(InvalidInput, error),
        }
    }
}

/// The reason why [`Path::check_request`](crate::Path::check_request) refuses a path.
///
/// ```
/// use unix_path_proved::{Path, RequestError};
/// let why = Path::new("/etc").check_request().unwrap_err();
/// assert_eq!(why, RequestError::Rooted);
/// assert_eq!(why.to_string(), "path has a root");
/// ```
#[derive(Clone, Copy, Debug, PartialEq, Eq)]
#[non_exhaustive]
pub enum RequestError {
    /// The path has a root.
    Rooted,
    /// The path has no root, and its `..` lead above where it starts.
    Escapes,
    /// The path neither has a root nor escapes, and has a NUL byte.
    Nul,
}

impl fmt::Display for RequestError {
    fn fmt(&self, f: &mut fmt::Formatter<'_>) -> fmt::Result {
        f.pad(match self {
            RequestError::Rooted => "path has a root",
            RequestError::Escapes => "path leaves its root",
            RequestError::Nul => "path has a NUL byte",
        })
    }
}

impl core::error::Error for RequestError {}

/// Converts to an I/O error: `InvalidInput` with the error itself inside.
///
/// ```
/// use std::io;
/// use unix_path_proved::Path;
/// let checked = Path::new("/a").check_request().map_err(io::Error::from);
/// assert_eq!(checked.unwrap_err().kind(), io::ErrorKind::InvalidInput);
/// ```
#[cfg(feature = "std")]
impl From<RequestError> for std::io::Error {
    fn from(error: RequestError) -> std::io::Error {
        std::io::Error::new(std::io::ErrorKind::InvalidInput, error)
    }
}

/// The error that [`Path::strip_prefix`](crate::Path::strip_prefix) returns if the path does not
/// start with the base.
///
/// ```
/// let error = unix_path_proved::Path::new("/a").strip_prefix("b").unwrap_err();
/// assert_eq!(error.to_string(), "prefix not found");
/// ```
#[derive(Clone, Debug, PartialEq, Eq)]
pub struct StripPrefixError(());

impl StripPrefixError {
    #[inline]
    pub(crate) fn new() -> StripPrefixError {
        StripPrefixError(())
    }
}

impl fmt::Display for StripPrefixError {
    fn fmt(&self, f: &mut fmt::Formatter<'_>) -> fmt::Result {
        f.pad("prefix not found")
    }
}

impl core::error::Error for StripPrefixError {}

/// Converts to an I/O error: `InvalidInput` with the error itself inside.
///
/// ```
/// use std::io;
/// use unix_path_proved::Path;
/// let rest = Path::new("/a").strip_prefix("b").map_err(io::Error::from);
/// assert_eq!(rest.unwrap_err().kind(), io::ErrorKind::InvalidInput);
/// ```
#[cfg(feature = "std")]
impl From<StripPrefixError> for std::io::Error {
    fn from(error: StripPrefixError) -> std::io::Error {
        std::io::Error::new(std::io::ErrorKind::InvalidInput, error)
    }
}
