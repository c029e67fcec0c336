//! Whatever the library returns, each result is in its path or buffer, and a call over slices does
//! not panic. A method of the types that makes a path may panic with an error that it can't return.
//!
//! This is true of any library; `answers.c` makes one that returns random results. `calls.rs` lists
//! the calls by shape, and each call of a shape is tested.
#[path = "../../src/ffi/calls.rs"]
#[macro_use]
mod shapes;

use std::borrow::Cow;
use std::cmp::Ordering;
use std::hash::DefaultHasher;
use std::panic::{catch_unwind, set_hook, AssertUnwindSafe};
use unix_path_proved::archive::{check, Entry, Kind, Level};
use unix_path_proved::{calls, Error, Path, PathBuf, RequestError, StripPrefixError, UnixStr};

const PATH: &[u8] = b"/a//b.c";
const ROUNDS: usize = 20_000;

/// Returns true if the slice is empty or lies in the other slice's memory.
fn lies_in(slice: &[u8], other: &[u8]) -> bool {
    let (inner, outer) = (slice.as_ptr_range(), other.as_ptr_range());
    slice.is_empty() || (outer.start <= inner.start && inner.end <= outer.end)
}

/// A type that a call returns.
trait Given {
    /// Returns the bytes that the value refers to or contains.
    fn bytes(&self) -> &[u8];
}

/// Implements `Given` for results without bytes.
macro_rules! no_bytes {
    ($($kind:ty),*) => {
        $(impl Given for $kind {
            fn bytes(&self) -> &[u8] {
                &[]
            }
        })*
    };
}
no_bytes!(bool, u64, usize, Ordering, Result<(), RequestError>);

/// Implements `Given` for results that are bytes of a path.
macro_rules! own_bytes {
    ($($kind:ty),*) => {
        $(impl Given for $kind {
            fn bytes(&self) -> &[u8] {
                AsRef::<UnixStr>::as_ref(self).as_bytes()
            }
        })*
    };
}
own_bytes!(&[u8], &Path, &UnixStr, PathBuf, Vec<u8>);

impl Given for Cow<'_, str> {
    fn bytes(&self) -> &[u8] {
        assert!(std::str::from_utf8(self.as_bytes()).is_ok());
        self.as_bytes()
    }
}

impl<T: Given> Given for Option<T> {
    fn bytes(&self) -> &[u8] {
        self.as_ref().map_or(&[], Given::bytes)
    }
}

impl Given for Result<&Path, StripPrefixError> {
    fn bytes(&self) -> &[u8] {
        self.as_ref().map_or(&[], |path| path.as_bytes())
    }
}

impl<T: Given> Given for Result<T, Error> {
    fn bytes(&self) -> &[u8] {
        self.as_ref().map_or(&[], Given::bytes)
    }
}

#[test]
fn walks() {
    let path = Path::new(PATH);
    for _ in 0..ROUNDS {
        let (mut parts, mut texts) = (path.components(), path.iter());
        for _ in 0..4 {
            for part in [parts.next(), parts.next_back()].into_iter().flatten() {
                assert!(part.as_unix_str().len() <= PATH.len());
            }
            let _ = (texts.next(), texts.next_back());
            assert!(lies_in(parts.as_path().as_bytes(), PATH));
            assert!(lies_in(texts.as_path().as_bytes(), PATH));
        }
        let mut hasher = DefaultHasher::new();
        std::hash::Hash::hash(&(path, &parts), &mut hasher);
        assert!(format!("{parts:?}{texts:?}").starts_with("Components(["));
        let mut above = path.ancestors().take(9);
        assert!(above.all(|it| lies_in(it.as_bytes(), PATH)));
        for chunk in path.as_unix_str().chunks().take(4) {
            assert!(lies_in(chunk.valid, PATH) && lies_in(chunk.broken, PATH));
        }
    }
}

#[test]
fn spans() {
    for _ in 0..ROUNDS {
        macro_rules! of_none {
            ($($name:ident -> $answer:ident;)*) => {
                $(let _: $answer = unix_path_proved::$name();)*
            };
        }
        ask_nothing!(of_none);
        macro_rules! of_one {
            ($($name:ident $(-> $answer:ident)?;)*) => {
                $(assert!(lies_in(calls::$name(PATH).bytes(), PATH));)*
            };
        }
        find!(of_one);
        ask!(of_one);
        macro_rules! of_two {
            ($($name:ident $(-> $answer:ident)?;)*) => {
                $(assert!(lies_in(calls::$name(PATH, b"/a").bytes(), PATH));)*
            };
        }
        find_of_two!(of_two);
        ask_two!(of_two);
    }
}

/// Calls that have no method of the same name and parameters.
trait Renamed {
    fn hash(&self) -> bool {
        false
    }
    fn is_utf8(&self) -> bool {
        false
    }
    fn equal(&self, other: &str) -> bool;
    fn compare(&self, other: &str) -> Ordering;
    fn from_key(&self) -> Result<PathBuf, Error>;
    fn key_range_end(&self) -> bool;
}

impl Renamed for Path {
    fn equal(&self, other: &str) -> bool {
        self == Path::new(other)
    }

    fn compare(&self, other: &str) -> Ordering {
        self.cmp(Path::new(other))
    }

    fn from_key(&self) -> Result<PathBuf, Error> {
        PathBuf::from_key(self.as_bytes())
    }

    fn key_range_end(&self) -> bool {
        self.key_range().0 == self.key_range().1
    }
}

#[test]
fn methods() {
    let path = Path::new(PATH);
    for _ in 0..ROUNDS {
        macro_rules! of_one {
            ($($name:ident $(-> $answer:ident)?;)*) => {
                $(assert!(lies_in(path.$name().bytes(), PATH));)*
            };
        }
        find!(of_one);
        ask!(of_one);
        macro_rules! of_two {
            ($($name:ident $(-> $answer:ident)?;)*) => {
                $(assert!(lies_in(path.$name("/a").bytes(), PATH));)*
            };
        }
        find_of_two!(of_two);
        ask_two!(of_two);
        let _ = (path.is_relative(), path.has_root(), path.to_str());
        assert!(path == path || path.display().to_string() == "/a//b.c");
    }
}

#[test]
fn buffers() {
    for _ in 0..ROUNDS {
        let mut out = [0; 12];
        let range = out.as_ptr_range();
        macro_rules! is_inside {
            ($call:expr) => {
                match $call {
                    Ok(made) => {
                        let bytes = made.bytes();
                        bytes.is_empty() || bytes.as_ptr() == range.start && bytes.len() <= 12
                    }
                    Err(Error::Short { needed }) => needed > 12,
                    Err(_) => true,
                }
            };
        }
        macro_rules! of_one {
            ($($name:ident;)*) => { $(assert!(is_inside!(calls::$name(PATH, &mut out)));)* };
        }
        make!(of_one);
        macro_rules! of_two {
            ($($name:ident;)*) => { $(assert!(is_inside!(calls::$name(PATH, b"x", &mut out)));)* };
        }
        make_of_two!(of_two);
    }
}

#[test]
fn vectors() {
    for _ in 0..ROUNDS {
        let mut out = vec![];
        macro_rules! of_one {
            ($($name:ident;)*) => {$(
                let _ = calls::$name(PATH, &mut out).map(|made| made.bytes().len());
                assert!(out.len() <= out.capacity());
            )*};
        }
        make!(of_one);
        macro_rules! of_two {
            ($($name:ident;)*) => {$(
                let _ = calls::$name(PATH, b"x", &mut out).map(|made| made.bytes().len());
                assert!(out.len() <= out.capacity());
            )*};
        }
        make_of_two!(of_two);
    }
}

#[test]
fn entries_of_archives() {
    let entries = [
        Entry::new("a", Kind::HardLink(Path::new("b"))),
        Entry::new("b", Kind::File),
    ];
    for _ in 0..ROUNDS {
        let refusal = check(entries, Level::Closed).err();
        assert!(refusal.is_none_or(|it| it.to_string().starts_with("entry ")));
    }
}

/// The methods that make a path return at most as many bytes as may be needed, or panic.
#[test]
fn made_paths() {
    set_hook(Box::new(|_| ()));
    let path = Path::new(PATH);
    for _ in 0..ROUNDS / 20 {
        macro_rules! of_one {
            ($($name:ident;)*) => {$(
                let made = catch_unwind(|| path.$name().bytes().len());
                assert!(made.map_or(true, |length| length <= 3 * PATH.len()));
            )*};
        }
        make!(of_one);
        macro_rules! of_two {
            ($($name:ident;)*) => {$(
                let made = catch_unwind(|| path.$name("x").bytes().len());
                assert!(made.map_or(true, |length| length <= 3 * PATH.len()));
            )*};
        }
        make_of_two!(of_two);
    }
}

#[test]
fn edited_vectors() {
    for _ in 0..ROUNDS {
        let mut path = PATH.to_vec();
        path.reserve(8);
        for other in [&b"x"[..], b"/x", &[b'x'; 300]] {
            let _ = calls::push(&mut path, other);
            let _ = calls::set_file_name(&mut path, other);
            let _ = calls::set_extension(&mut path, other);
            let _ = calls::add_extension(&mut path, other);
            let _ = calls::pop(&mut path);
            assert!(path.len() <= path.capacity());
            path.truncate(PATH.len());
        }
    }
}

#[test]
fn edited_paths() {
    set_hook(Box::new(|_| ()));
    for _ in 0..ROUNDS / 20 {
        let mut path = PathBuf::from(PATH);
        for other in ["x", "/x"] {
            let edits: [fn(&mut PathBuf, &str); 4] = [
                |path, other| path.push(other),
                |path, other| path.set_file_name(other),
                |path, other| {
                    path.set_extension(other);
                },
                |path, other| {
                    path.add_extension(other);
                },
            ];
            for edit in edits {
                let _ = catch_unwind(AssertUnwindSafe(|| edit(&mut path, other)));
                assert!(path.as_bytes().len() <= path.capacity());
            }
            path.pop();
        }
    }
}
