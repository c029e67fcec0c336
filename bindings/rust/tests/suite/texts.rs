//! Paths as text, compared with std.
use crate::strings::*;
use std::ffi::OsStr;
use std::os::unix::ffi::OsStrExt;
use unix_path_proved::{calls, PathBuf, UnixStr, UnixString};

#[test]
fn of_paths() {
    for s in short(6).iter().chain(&random(100_000)) {
        let (path, want) = (ours(s), theirs(s));
        assert_eq!(path.to_str(), want.to_str());
        assert_eq!(path.to_string_lossy(), want.to_string_lossy());
        assert_eq!(path.display().to_string(), want.display().to_string());
        assert_eq!(format!("{path:?}"), format!("{want:?}"));
        assert_eq!(format!("{:?}", path.display()), format!("{want:?}"));
        assert_eq!(format!("{:?}", PathBuf::from(path)), format!("{want:?}"));
        assert_eq!(calls::is_utf8(s), path.to_str().is_some());
    }
}

#[test]
fn of_texts() {
    for s in random(20_000) {
        let (text, want) = (UnixStr::from_bytes(&s), OsStr::from_bytes(&s));
        assert_eq!(text.to_str(), want.to_str());
        assert_eq!(text.to_string_lossy(), want.to_string_lossy());
        assert_eq!(text.display().to_string(), want.to_string_lossy());
        assert_eq!(format!("{text:?}"), format!("{want:?}"));
        assert_eq!(format!("{:?}", text.to_unix_string()), format!("{want:?}"));
        let string = UnixString::from_vec(s.clone()).into_string();
        assert_eq!(
            string.map_err(UnixString::into_vec),
            String::from_utf8(s).map_err(|it| it.into_bytes())
        );
    }
}

#[test]
fn chunks() {
    for s in over(b"a\xE2\x82\xFF", 5) {
        let (mut all, mut shown) = (vec![], String::new());
        for chunk in UnixStr::from_bytes(&s).chunks() {
            all.extend([chunk.valid, chunk.broken].concat());
            shown.push_str(std::str::from_utf8(chunk.valid).unwrap());
            shown.extend((!chunk.broken.is_empty()).then_some('\u{FFFD}'));
        }
        assert_eq!(shown, String::from_utf8_lossy(&s));
        assert_eq!(all, s);
    }
}

/// Checks the first chunk of texts that have one invalid byte, at each index in turn. The texts are
/// ASCII, or have UTF-8 characters of one to four bytes, and are longer than the blocks that the
/// library reads at once.
#[test]
fn long_chunks() {
    for unit in ["a", "a\u{E9}\u{73BB}\u{1F980}"] {
        let text = unit.repeat(90 / unit.len()).into_bytes();
        assert!(calls::is_utf8(&text));
        for place in 0..text.len() {
            let mut broken = text.clone();
            broken[place] = 0xFF;
            let error = std::str::from_utf8(&broken).unwrap_err();
            let first = UnixStr::from_bytes(&broken).chunks().next().unwrap();
            assert!(!calls::is_utf8(&broken), "{place}");
            assert_eq!(first.valid, &broken[..error.valid_up_to()]);
            assert_eq!(Some(first.broken.len()), error.error_len(), "{place}");
        }
    }
}

#[test]
fn long_texts() {
    for place in 0..40 {
        let text = ["a".repeat(place), "\u{E9}".into(), "a".repeat(39 - place)].concat();
        assert!(calls::is_utf8(text.as_bytes()), "{place}");
    }
    assert_eq!(
        ours(&[0xFF; 1_000]).to_string_lossy(),
        "\u{FFFD}".repeat(1_000)
    );
}

/// Checks the debug text of combining marks, and of characters with their own escapes.
#[test]
fn escapes() {
    for text in [
        "e\u{301}",
        "\u{301}",
        "\t\r\n\0'\\\"",
        "\u{1F600}\u{200B}\u{7F}",
    ] {
        assert_eq!(
            format!("{:?}", UnixStr::new(text)),
            format!("{:?}", OsStr::new(text))
        );
    }
}

#[test]
fn text_is_borrowed() {
    use std::borrow::Cow::{Borrowed, Owned};
    assert!(matches!(ours(b"/a").to_string_lossy(), Borrowed("/a")));
    assert!(matches!(ours(b"\xFF").to_string_lossy(), Owned(text) if text == "\u{FFFD}"));
}

#[test]
fn printed_in_a_field() {
    let (text, broken) = (ours(b"abc").display(), ours(b"\xFFa").display());
    let rows = [
        (format!("{text:5}|"), "abc  |"),
        (format!("{text:>5}"), "  abc"),
        (format!("{text:-^6}"), "-abc--"),
        (format!("{text:.2}"), "abc"),
        (format!("{text:>5.2}"), "  abc"),
        (format!("{:<5}|", ours(b"").display()), "     |"),
        (format!("{:>3.0}", ours("é".as_bytes()).display()), "  é"),
        (format!("{broken:4}|"), "\u{FFFD}a  |"),
        (format!("{broken:*>4.1}"), "**\u{FFFD}a"),
    ];
    for (found, want) in rows {
        assert_eq!(found, want);
    }
}

/// Checks that a path of these bytes is printed in a field as std prints it, with each style: a
/// fill, an alignment and flags, followed by a width `w` and a precision `p`.
macro_rules! prints_as_std {
    ($bytes:expr, $w:expr, $p:expr, $($style:literal)*) => {$(
        prints_as_std!(@ $bytes, concat!("{:", $style, "w$}"), w = $w);
        prints_as_std!(@ $bytes, concat!("{:", $style, ".p$}"), p = $p);
        prints_as_std!(@ $bytes, concat!("{:", $style, "w$.p$}"), w = $w, p = $p);
        prints_as_std!(@ $bytes, concat!("{:", $style, "w$.p$?}"), w = $w, p = $p);
    )*};
    (@ $bytes:expr, concat!($($form:tt)*), $($name:ident = $value:expr),*) => {
        assert_eq!(
            format!(concat!($($form)*), ours($bytes).display(), $($name = $value),*),
            format!(concat!($($form)*), theirs($bytes).display(), $($name = $value),*),
            "{} as {}", $bytes.escape_ascii(), concat!($($form)*)
        );
    };
}

#[test]
fn fields_as_in_std() {
    let strings: Vec<Vec<u8>> = short(2).into_iter().chain(random(500)).collect();
    assert!(strings.iter().any(|s| ours(s).to_str().is_none()));
    for s in &strings {
        for width in [0, 1, 2, 5, 24, 25, 40] {
            for precision in [0, 1, 3, 24, 40] {
                prints_as_std!(s, width, precision, "" "<" "^" ">" "*<" "*^" "é>" "0" "+" "#");
            }
        }
    }
}
