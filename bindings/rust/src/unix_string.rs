//! Byte strings as text that can grow.
use crate::unix_str::UnixStr;
use alloc::borrow::{Borrow, Cow};
use alloc::boxed::Box;
use alloc::string::String;
use alloc::vec::Vec;
use core::convert::Infallible;
use core::fmt;
use core::hash::{Hash, Hasher};
use core::ops::{Deref, DerefMut, Index, IndexMut, RangeFull};
use core::str::FromStr;

/// A [`UnixStr`] that owns its bytes and can grow.
///
/// Like `OsString` of Rust's std on Unix, and `UnixString` of the crate `unix_str`.
///
/// ```
/// use unix_path_proved::UnixString;
/// let mut text = UnixString::from("a");
/// text.push(".txt");
/// assert_eq!(text, "a.txt");
/// ```
#[derive(Clone, Default, PartialEq, Eq, PartialOrd, Ord)]
pub struct UnixString {
    pub(crate) bytes: Vec<u8>,
}

impl UnixString {
    /// Creates an empty string. Does not allocate.
    ///
    /// ```
    /// assert!(unix_path_proved::UnixString::new().is_empty());
    /// ```
    #[must_use]
    #[inline]
    pub const fn new() -> UnixString {
        UnixString { bytes: Vec::new() }
    }

    /// Creates a string from these bytes, in the same memory. Like `OsStringExt::from_vec` of Rust.
    ///
    /// ```
    /// use unix_path_proved::UnixString;
    /// assert_eq!(UnixString::from_vec(b"a".to_vec()), "a");
    /// ```
    #[must_use]
    #[inline]
    pub const fn from_vec(bytes: Vec<u8>) -> UnixString {
        UnixString { bytes }
    }

    /// Returns the bytes, in the same memory. Like `OsStringExt::into_vec` of Rust.
    ///
    /// ```
    /// assert_eq!(unix_path_proved::UnixString::from("a").into_vec(), b"a");
    /// ```
    #[must_use]
    #[inline]
    pub fn into_vec(self) -> Vec<u8> {
        self.bytes
    }

    /// Returns the text.
    ///
    /// ```
    /// use unix_path_proved::{UnixStr, UnixString};
    /// assert_eq!(UnixString::from("a").as_unix_str(), UnixStr::new("a"));
    /// ```
    #[must_use]
    #[inline]
    pub fn as_unix_str(&self) -> &UnixStr {
        self
    }

    /// Converts to a `String`, in the same memory. If the bytes are not valid UTF-8, fails with the
    /// string itself as the error.
    ///
    /// ```
    /// use unix_path_proved::UnixString;
    /// assert_eq!(UnixString::from("a").into_string(), Ok("a".to_string()));
    /// let broken = UnixString::from_vec(vec![0xE9]);
    /// assert_eq!(broken.clone().into_string(), Err(broken));
    /// ```
    #[inline]
    pub fn into_string(self) -> Result<String, UnixString> {
        String::from_utf8(self.bytes).map_err(|error| UnixString::from_vec(error.into_bytes()))
    }

    /// Appends the text, without a slash.
    ///
    /// ```
    /// let mut text = unix_path_proved::UnixString::from("a");
    /// text.push("b");
    /// assert_eq!(text, "ab");
    /// ```
    #[inline]
    pub fn push<S: AsRef<UnixStr>>(&mut self, s: S) {
        self.bytes.extend_from_slice(s.as_ref().as_bytes());
    }

    /// Converts to boxed text, without spare capacity.
    ///
    /// ```
    /// use unix_path_proved::UnixString;
    /// assert_eq!(&*UnixString::from("a").into_boxed_unix_str(), "a");
    /// ```
    #[must_use]
    #[inline]
    pub fn into_boxed_unix_str(self) -> Box<UnixStr> {
        UnixStr::in_box(self.bytes.into_boxed_slice())
    }

    /// Returns the text without ever freeing its memory.
    ///
    /// ```
    /// let text: &'static mut _ = unix_path_proved::UnixString::from("a").leak();
    /// assert_eq!(*text, *"a");
    /// ```
    #[must_use]
    #[inline]
    pub fn leak<'a>(self) -> &'a mut UnixStr {
        UnixStr::of_mut(self.bytes.leak())
    }
}

impl Deref for UnixString {
    type Target = UnixStr;

    #[inline]
    fn deref(&self) -> &UnixStr {
        UnixStr::of(&self.bytes)
    }
}

impl DerefMut for UnixString {
    #[inline]
    fn deref_mut(&mut self) -> &mut UnixStr {
        UnixStr::of_mut(&mut self.bytes)
    }
}

impl Index<RangeFull> for UnixString {
    type Output = UnixStr;

    #[inline]
    fn index(&self, _: RangeFull) -> &UnixStr {
        self
    }
}

impl IndexMut<RangeFull> for UnixString {
    #[inline]
    fn index_mut(&mut self, _: RangeFull) -> &mut UnixStr {
        self
    }
}

impl Borrow<UnixStr> for UnixString {
    #[inline]
    fn borrow(&self) -> &UnixStr {
        self
    }
}

/// Feeds the hasher the same bytes as the text, as [`Borrow`] requires.
impl Hash for UnixString {
    #[inline]
    fn hash<H: Hasher>(&self, state: &mut H) {
        self.as_unix_str().hash(state);
    }
}

impl fmt::Debug for UnixString {
    fn fmt(&self, f: &mut fmt::Formatter<'_>) -> fmt::Result {
        fmt::Debug::fmt(self.as_unix_str(), f)
    }
}

/// Appends text, and never fails.
///
/// ```
/// use std::fmt::Write;
/// let mut text = unix_path_proved::UnixString::from("img-");
/// write!(text, "{:03}.png", 7).unwrap();
/// assert_eq!(text, "img-007.png");
/// ```
impl fmt::Write for UnixString {
    #[inline]
    fn write_str(&mut self, s: &str) -> fmt::Result {
        self.push(s);
        Ok(())
    }
}

/// Converts in the same memory if the text is owned, and otherwise copies it.
impl From<Cow<'_, UnixStr>> for UnixString {
    #[inline]
    fn from(cow: Cow<'_, UnixStr>) -> UnixString {
        cow.into_owned()
    }
}

impl FromStr for UnixString {
    type Err = Infallible;

    #[inline]
    fn from_str(s: &str) -> Result<UnixString, Infallible> {
        Ok(UnixString::from(s))
    }
}

/// Appends each text in order.
impl<S: AsRef<UnixStr>> Extend<S> for UnixString {
    #[inline]
    fn extend<I: IntoIterator<Item = S>>(&mut self, texts: I) {
        texts.into_iter().for_each(|text| self.push(text));
    }
}

/// Concatenates the texts.
impl<S: AsRef<UnixStr>> FromIterator<S> for UnixString {
    #[inline]
    fn from_iter<I: IntoIterator<Item = S>>(texts: I) -> UnixString {
        let mut joined = UnixString::new();
        joined.extend(texts);
        joined
    }
}
