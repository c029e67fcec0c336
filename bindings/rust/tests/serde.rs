//! Paths in data formats. Only the feature `serde` compiles this.
#![cfg(feature = "serde")]

use serde::de::value::{BorrowedBytesDeserializer, BytesDeserializer, Error, StringDeserializer};
use serde::de::{Deserialize, IntoDeserializer};
use serde_json::{from_str, json, to_string, to_value};
use std::collections::BTreeMap;
use unix_path_proved::{Path, PathBuf};

/// A path and its JSON.
const ROWS: [(&str, &str); 6] = [
    ("", r#""""#),
    ("/a//b/.", r#""/a//b/.""#),
    ("é", r#""é""#),
    ("a\"b", r#""a\"b""#),
    ("a\\b", r#""a\\b""#),
    ("\n\0", r#""\n\u0000""#),
];

#[test]
fn written_and_read() {
    for (path, text) in ROWS {
        let (view, owned, boxed) = (Path::new(path), PathBuf::from(path), Path::new(path).into());
        assert_eq!(to_string(view).unwrap(), text);
        assert_eq!(to_string(&owned).unwrap(), text);
        assert_eq!(to_string::<Box<Path>>(&boxed).unwrap(), text);
        let read: PathBuf = from_str(text).unwrap();
        assert_eq!(read.as_unix_str(), path);
        let read: Box<Path> = from_str(text).unwrap();
        assert_eq!(read.as_unix_str(), path);
    }
}

#[test]
fn in_other_values() {
    let map = BTreeMap::from([(PathBuf::from("/a"), Box::<Path>::from(Path::new("b")))]);
    let value = json!({"/a": "b"});
    assert_eq!(to_value(&map).unwrap(), value);
    let read: BTreeMap<PathBuf, Box<Path>> = serde_json::from_value(value).unwrap();
    assert_eq!(read, map);
    let read: Vec<PathBuf> = from_str(r#"["a", "b/c"]"#).unwrap();
    assert_eq!(read, ["a", "b/c"].map(PathBuf::from));
}

#[test]
fn borrowed() {
    let text = String::from(r#""/a/b""#);
    let path: &Path = from_str(&text).unwrap();
    assert_eq!(path.as_bytes().as_ptr(), text[1..].as_ptr());
    let error = from_str::<&Path>(r#""a\nb""#).unwrap_err().to_string();
    assert!(error.contains("expected a borrowed path"), "{error}");
}

#[test]
fn refused() {
    let broken = Path::new(b"caf\xE9");
    for error in [to_string(broken), to_string(&broken.to_path_buf())] {
        let error = error.unwrap_err().to_string();
        assert_eq!(error, "path contains invalid UTF-8 characters");
    }
    for text in ["1", "null", "[]", "{}", "true"] {
        let error = from_str::<PathBuf>(text).unwrap_err().to_string();
        assert!(error.contains("expected path string"), "{error}");
        assert!(from_str::<Box<Path>>(text).is_err());
    }
}

/// Reads byte strings, which JSON lacks.
#[test]
fn byte_strings() {
    let read = |bytes| PathBuf::deserialize(BytesDeserializer::<Error>::new(bytes));
    assert_eq!(read(b"/a//b").unwrap().as_unix_str(), "/a//b");
    let error = read(b"caf\xE9").unwrap_err().to_string();
    assert_eq!(error, "invalid value: byte array, expected path string");
    let lent = |bytes| <&Path>::deserialize(BorrowedBytesDeserializer::<Error>::new(bytes));
    assert_eq!(lent(b"/a//b").unwrap().as_unix_str(), "/a//b");
    let error = lent(b"caf\xE9").unwrap_err().to_string();
    assert_eq!(error, "invalid value: byte array, expected a borrowed path");
    let text: StringDeserializer<Error> = String::from("a/b").into_deserializer();
    assert_eq!(PathBuf::deserialize(text).unwrap().as_unix_str(), "a/b");
}
