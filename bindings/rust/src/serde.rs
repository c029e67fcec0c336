//! Paths in data formats: a string, so a path that isn't valid UTF-8 can't be written. Formats that
//! have byte strings may hold a path as one, if it is valid UTF-8.
use crate::path::Path;
use crate::path_buf::PathBuf;
use ::serde::de::{Deserialize, Deserializer, Error, Unexpected, Visitor};
use ::serde::ser::{Error as _, Serialize, Serializer};
use alloc::boxed::Box;
use alloc::string::String;
use alloc::vec::Vec;
use core::fmt;
use core::str;

/// Writes the path as a string. Fails if it isn't valid UTF-8.
impl Serialize for Path {
    fn serialize<S: Serializer>(&self, serializer: S) -> Result<S::Ok, S::Error> {
        let text = self
            .to_str()
            .ok_or_else(|| S::Error::custom("path contains invalid UTF-8 characters"))?;
        serializer.serialize_str(text)
    }
}

/// Writes the path as a string. Fails if it isn't valid UTF-8.
impl Serialize for PathBuf {
    fn serialize<S: Serializer>(&self, serializer: S) -> Result<S::Ok, S::Error> {
        self.as_path().serialize(serializer)
    }
}

/// Reads a path that borrows its bytes from the input.
struct Borrowed;

impl<'de> Visitor<'de> for Borrowed {
    type Value = &'de Path;

    fn expecting(&self, f: &mut fmt::Formatter<'_>) -> fmt::Result {
        f.write_str("a borrowed path")
    }

    fn visit_borrowed_str<E: Error>(self, text: &'de str) -> Result<&'de Path, E> {
        Ok(Path::new(text))
    }

    fn visit_borrowed_bytes<E: Error>(self, bytes: &'de [u8]) -> Result<&'de Path, E> {
        let text = str::from_utf8(bytes);
        text.map(Path::new)
            .map_err(|_| E::invalid_value(Unexpected::Bytes(bytes), &self))
    }
}

/// Reads a string that the format can lend, without copying: of JSON, one without escapes.
impl<'de: 'a, 'a> Deserialize<'de> for &'a Path {
    fn deserialize<D: Deserializer<'de>>(deserializer: D) -> Result<&'a Path, D::Error> {
        deserializer.deserialize_str(Borrowed)
    }
}

/// Reads a path that owns its bytes.
struct Owned;

impl Visitor<'_> for Owned {
    type Value = PathBuf;

    fn expecting(&self, f: &mut fmt::Formatter<'_>) -> fmt::Result {
        f.write_str("path string")
    }

    fn visit_str<E: Error>(self, text: &str) -> Result<PathBuf, E> {
        Ok(PathBuf::from(text))
    }

    fn visit_string<E: Error>(self, text: String) -> Result<PathBuf, E> {
        Ok(PathBuf::from(text))
    }

    fn visit_bytes<E: Error>(self, bytes: &[u8]) -> Result<PathBuf, E> {
        let text = str::from_utf8(bytes);
        text.map(PathBuf::from)
            .map_err(|_| E::invalid_value(Unexpected::Bytes(bytes), &self))
    }

    fn visit_byte_buf<E: Error>(self, bytes: Vec<u8>) -> Result<PathBuf, E> {
        String::from_utf8(bytes)
            .map(PathBuf::from)
            .map_err(|error| E::invalid_value(Unexpected::Bytes(error.as_bytes()), &self))
    }
}

/// Reads a string.
impl<'de> Deserialize<'de> for PathBuf {
    fn deserialize<D: Deserializer<'de>>(deserializer: D) -> Result<PathBuf, D::Error> {
        deserializer.deserialize_string(Owned)
    }
}

/// Reads a string.
impl<'de> Deserialize<'de> for Box<Path> {
    fn deserialize<D: Deserializer<'de>>(deserializer: D) -> Result<Box<Path>, D::Error> {
        PathBuf::deserialize(deserializer).map(PathBuf::into_boxed_path)
    }
}
