//! Byte strings as text.
use crate::display::Display;
use crate::walks::Chunks;
use core::str;
#[cfg(feature = "alloc")]
use {
    crate::calls,
    crate::memory::{try_made, value},
    crate::unix_string::UnixString,
    alloc::borrow::{Cow, ToOwned},
    alloc::boxed::Box,
    alloc::string::String,
};

/// A name or a path as on Unix: any bytes, most often UTF-8.
///
/// It is compared, ordered and hashed by its bytes. Like `OsStr` of Rust's std on Unix, and
/// `UnixStr` of the crate `unix_str`.
///
/// ```
/// use unix_path_proved::{Path, UnixStr};
/// assert_ne!(UnixStr::new("a//b"), UnixStr::new("a/b"));
/// assert_eq!(Path::new("a//b"), Path::new("a/b"));
/// ```
#[derive(PartialEq, Eq, PartialOrd, Ord, Hash)]
#[repr(transparent)]
pub struct UnixStr([u8]);

impl UnixStr {
    /// Returns the text of a value, without copying.
    ///
    /// ```
    /// assert_eq!(unix_path_proved::UnixStr::new("a/b").as_bytes(), b"a/b");
    /// ```
    #[inline]
    pub fn new<S: AsRef<UnixStr> + ?Sized>(s: &S) -> &UnixStr {
        s.as_ref()
    }

    /// Returns the text with these bytes, without copying. Like `OsStrExt::from_bytes` of Rust.
    ///
    /// ```
    /// use unix_path_proved::UnixStr;
    /// assert_eq!(UnixStr::from_bytes(b"a/b"), "a/b");
    /// ```
    #[must_use]
    #[inline]
    pub const fn from_bytes(bytes: &[u8]) -> &UnixStr {
        UnixStr::of(bytes)
    }

    /// Returns the bytes, like `OsStrExt::as_bytes` of Rust.
    ///
    /// ```
    /// assert_eq!(unix_path_proved::UnixStr::new("é").as_bytes(), b"\xC3\xA9");
    /// ```
    #[must_use]
    #[inline]
    pub const fn as_bytes(&self) -> &[u8] {
        &self.0
    }

    /// Returns the text as a `str`, or `None` if it is not valid UTF-8.
    ///
    /// Rust's own check decides this, since a `str` depends on it.
    ///
    /// ```
    /// use unix_path_proved::UnixStr;
    /// assert_eq!(UnixStr::new("é").to_str(), Some("é"));
    /// assert_eq!(UnixStr::from_bytes(b"\xE9").to_str(), None);
    /// ```
    #[must_use]
    #[inline]
    pub fn to_str(&self) -> Option<&str> {
        str::from_utf8(&self.0).ok()
    }

    /// Returns true if there are no bytes.
    ///
    /// ```
    /// assert!(unix_path_proved::UnixStr::new("").is_empty());
    /// ```
    #[must_use]
    #[inline]
    pub const fn is_empty(&self) -> bool {
        self.0.is_empty()
    }

    /// Returns the number of bytes.
    ///
    /// ```
    /// assert_eq!(unix_path_proved::UnixStr::new("é").len(), 2);
    /// ```
    #[must_use]
    #[inline]
    pub const fn len(&self) -> usize {
        self.0.len()
    }

    /// Returns an iterator over the chunks of the text. A chunk is the longest run of valid UTF-8
    /// and the invalid bytes after it, for which `to_string_lossy` has one U+FFFD.
    ///
    /// Equivalent to `<[u8]>::utf8_chunks` in Rust.
    ///
    /// ```
    /// use unix_path_proved::{Chunk, UnixStr};
    /// let mut chunks = UnixStr::from_bytes(b"a\xFFb").chunks();
    /// assert_eq!(chunks.next(), Some(Chunk { valid: b"a", broken: b"\xFF" }));
    /// assert_eq!(chunks.next(), Some(Chunk { valid: b"b", broken: b"" }));
    /// ```
    #[must_use]
    #[inline]
    pub fn chunks(&self) -> Chunks<'_> {
        Chunks::new(&self.0)
    }

    /// Returns a value that prints the text. Does not allocate.
    ///
    /// ```
    /// assert_eq!(unix_path_proved::UnixStr::new("é").display().to_string(), "é");
    /// ```
    #[must_use]
    #[inline]
    pub fn display(&self) -> Display<'_> {
        Display::new(self)
    }

    /// Returns true if all bytes are ASCII.
    ///
    /// ```
    /// assert!(!unix_path_proved::UnixStr::new("é").is_ascii());
    /// ```
    #[must_use]
    #[inline]
    pub fn is_ascii(&self) -> bool {
        self.0.is_ascii()
    }

    /// Returns true if two texts differ at most in the case of ASCII letters.
    ///
    /// ```
    /// assert!(unix_path_proved::UnixStr::new("a.TXT").eq_ignore_ascii_case("A.txt"));
    /// ```
    #[must_use]
    #[inline]
    pub fn eq_ignore_ascii_case<S: AsRef<UnixStr>>(&self, other: S) -> bool {
        self.0.eq_ignore_ascii_case(other.as_ref().as_bytes())
    }

    /// Replaces each upper-case ASCII letter by its lower-case letter, in place.
    ///
    /// ```
    /// let mut text = unix_path_proved::UnixString::from("GRÜN");
    /// text.make_ascii_lowercase();
    /// assert_eq!(text, "grÜn");
    /// ```
    #[inline]
    pub fn make_ascii_lowercase(&mut self) {
        self.0.make_ascii_lowercase();
    }

    /// Replaces each lower-case ASCII letter by its upper-case letter, in place.
    ///
    /// ```
    /// let mut text = unix_path_proved::UnixString::from("grün");
    /// text.make_ascii_uppercase();
    /// assert_eq!(text, "GRüN");
    /// ```
    #[inline]
    pub fn make_ascii_uppercase(&mut self) {
        self.0.make_ascii_uppercase();
    }
}

#[cfg(feature = "alloc")]
impl UnixStr {
    /// Returns the text, with U+FFFD in place of invalid bytes.
    ///
    /// Allocates only if some bytes are invalid.
    ///
    /// ```
    /// use unix_path_proved::UnixStr;
    /// assert_eq!(UnixStr::from_bytes(b"caf\xE9").to_string_lossy(), "caf\u{FFFD}");
    /// ```
    #[must_use]
    #[inline]
    pub fn to_string_lossy(&self) -> Cow<'_, str> {
        match self.to_str() {
            Some(text) => Cow::Borrowed(text),
            None => Cow::Owned(self.lossy()),
        }
    }

    fn lossy(&self) -> String {
        // Each byte becomes at most three.
        let most = self.0.len().saturating_mul(3);
        let bytes = value(try_made(most, |out| calls::to_string_lossy(&self.0, out)));
        // The bytes are valid UTF-8. If a wrong library returned others, Rust would replace the
        // invalid ones.
        String::from_utf8(bytes)
            .unwrap_or_else(|error| String::from_utf8_lossy(error.as_bytes()).into_owned())
    }

    /// Copies the text to a new [`UnixString`].
    ///
    /// ```
    /// use unix_path_proved::{UnixStr, UnixString};
    /// assert_eq!(UnixStr::new("a").to_unix_string(), UnixString::from("a"));
    /// ```
    #[must_use]
    #[inline]
    pub fn to_unix_string(&self) -> UnixString {
        UnixString::from_vec(self.0.to_vec())
    }

    /// Converts to a [`UnixString`], in the same memory.
    ///
    /// ```
    /// use unix_path_proved::{UnixStr, UnixString};
    /// let boxed: Box<UnixStr> = UnixStr::new("a").into();
    /// assert_eq!(boxed.into_unix_string(), UnixString::from("a"));
    /// ```
    #[must_use]
    #[inline]
    pub fn into_unix_string(self: Box<UnixStr>) -> UnixString {
        UnixString::from_vec(UnixStr::out_of_box(self).into_vec())
    }

    /// Returns a copy with each upper-case ASCII letter replaced by its lower-case letter.
    ///
    /// ```
    /// assert_eq!(unix_path_proved::UnixStr::new("GRÜN").to_ascii_lowercase(), "grÜn");
    /// ```
    #[must_use]
    pub fn to_ascii_lowercase(&self) -> UnixString {
        UnixString::from_vec(self.0.to_ascii_lowercase())
    }

    /// Returns a copy with each lower-case ASCII letter replaced by its upper-case letter.
    ///
    /// ```
    /// assert_eq!(unix_path_proved::UnixStr::new("grün").to_ascii_uppercase(), "GRüN");
    /// ```
    #[must_use]
    pub fn to_ascii_uppercase(&self) -> UnixString {
        UnixString::from_vec(self.0.to_ascii_uppercase())
    }
}

#[cfg(feature = "alloc")]
impl ToOwned for UnixStr {
    type Owned = UnixString;

    #[inline]
    fn to_owned(&self) -> UnixString {
        self.to_unix_string()
    }

    #[inline]
    fn clone_into(&self, target: &mut UnixString) {
        self.0.clone_into(&mut target.bytes);
    }
}

impl<'a> Default for &'a UnixStr {
    /// Returns the empty string.
    #[inline]
    fn default() -> &'a UnixStr {
        UnixStr::of(&[])
    }
}
