//! Paths and texts, as they are printed.
use crate::path::Path;
use crate::unix_str::UnixStr;
use core::fmt::{self, Write};

/// A path or a text that is printed, returned by [`Path::display`] and [`UnixStr::display`].
///
/// Prints invalid bytes as U+FFFD, like `to_string_lossy`, and allocates nothing. Width, fill and
/// alignment work as for a `str`, and a precision is ignored, as std does in Rust 1.95.
///
/// ```
/// use unix_path_proved::Path;
/// assert_eq!(format!("{:>6.2}", Path::new("/tmp").display()), "  /tmp");
/// assert_eq!(format!("{:-^6}", Path::new(b"caf\xE9").display()), "-caf\u{FFFD}-");
/// ```
pub struct Display<'a> {
    text: &'a UnixStr,
}

impl<'a> Display<'a> {
    #[inline]
    pub(crate) fn new(text: &'a UnixStr) -> Display<'a> {
        Display { text }
    }

    /// Returns the pieces of valid text, with U+FFFD between them for invalid bytes.
    fn pieces(&self) -> impl Iterator<Item = &'a str> {
        self.text.as_bytes().utf8_chunks().flat_map(|chunk| {
            let is_whole = chunk.invalid().is_empty();
            [chunk.valid(), if is_whole { "" } else { "\u{FFFD}" }]
        })
    }
}

impl fmt::Debug for Display<'_> {
    fn fmt(&self, f: &mut fmt::Formatter<'_>) -> fmt::Result {
        fmt::Debug::fmt(self.text, f)
    }
}

impl fmt::Display for Display<'_> {
    fn fmt(&self, f: &mut fmt::Formatter<'_>) -> fmt::Result {
        let count = self.pieces().flat_map(str::chars).count();
        let padding = f.width().unwrap_or(0).saturating_sub(count);
        let before = match f.align() {
            Some(fmt::Alignment::Right) => padding,
            Some(fmt::Alignment::Center) => padding / 2,
            _ => 0,
        };
        let fill = f.fill();
        (0..before).try_for_each(|_| f.write_char(fill))?;
        self.pieces().try_for_each(|piece| f.write_str(piece))?;
        (before..padding).try_for_each(|_| f.write_char(fill))
    }
}

/// Writes the character as it appears between quotes in debug text.
fn write_escaped(c: char, f: &mut fmt::Formatter<'_>) -> fmt::Result {
    match c {
        '\'' => f.write_char(c),
        _ => c.escape_debug().try_for_each(|c| f.write_char(c)),
    }
}

/// Writes the bytes between quotes: text with Rust's escapes, and invalid bytes as `\xFF`, like the
/// debug text of Rust's `OsStr`.
impl fmt::Debug for UnixStr {
    fn fmt(&self, f: &mut fmt::Formatter<'_>) -> fmt::Result {
        f.write_char('"')?;
        for chunk in self.as_bytes().utf8_chunks() {
            chunk
                .valid()
                .chars()
                .try_for_each(|c| write_escaped(c, f))?;
            chunk
                .invalid()
                .iter()
                .try_for_each(|byte| write!(f, "\\x{byte:02X}"))?;
        }
        f.write_char('"')
    }
}

/// Writes the debug text of its bytes as a [`UnixStr`].
impl fmt::Debug for Path {
    fn fmt(&self, f: &mut fmt::Formatter<'_>) -> fmt::Result {
        fmt::Debug::fmt(self.as_unix_str(), f)
    }
}
