//! Edits of a path, compared with edits of std.
use crate::strings::*;
use std::ffi::OsStr;
use std::os::unix::ffi::OsStrExt;
use std::panic::{catch_unwind, AssertUnwindSafe};
use unix_path_proved::{calls, Error, Path, PathBuf, UnixStr};

/// Our path and the same path of std. An edit has to leave the same bytes in both.
#[derive(Default)]
struct Both(PathBuf, std::path::PathBuf);

impl Both {
    fn new(bytes: &[u8]) -> Both {
        Both(ours(bytes).into(), theirs(bytes).into())
    }

    /// Makes the edit with this number on both paths.
    fn edit(&mut self, number: usize, other: &[u8]) {
        let Both(path, want) = self;
        match number {
            0 | 1 => {
                path.push(ours(other));
                want.push(theirs(other));
            }
            2 => assert_eq!(path.pop(), want.pop()),
            3 => {
                path.set_file_name(UnixStr::from_bytes(other));
                want.set_file_name(OsStr::from_bytes(other));
            }
            4 => {
                path.extend([ours(other), Path::new("b")]);
                want.extend([theirs(other), std::path::Path::new("b")]);
            }
            _ if !other.contains(&b'/') => assert_eq!(
                path.set_extension(UnixStr::from_bytes(other)),
                want.set_extension(OsStr::from_bytes(other)),
            ),
            _ => (),
        }
        assert_eq!(bytes(path), std_bytes(want), "{}", other.escape_ascii());
    }
}

#[test]
fn of_short_paths() {
    for a in short(6) {
        for b in short(4) {
            for number in 1..=5 {
                Both::new(&a).edit(number, &b);
            }
        }
    }
}

#[test]
fn of_random_paths() {
    let mut random = Random::new();
    for _ in 0..100_000 {
        let (path, other) = (random.string(), random.string());
        for number in 1..=5 {
            Both::new(&path).edit(number, &other);
        }
    }
}

/// Applies many edits in order to paths that grow.
#[test]
fn in_a_row() {
    let mut random = Random::new();
    for _ in 0..200 {
        let mut both = Both::default();
        for _ in 0..500 {
            let number = random.below(6);
            // A path with a root replaces the path, so most of the strings get no leading slash.
            let other: Vec<u8> = match random.below(8) {
                0 => random.string(),
                _ => random
                    .string()
                    .into_iter()
                    .skip_while(|byte| *byte == b'/')
                    .collect(),
            };
            both.edit(number, &other);
        }
    }
}

/// Edits a copy of the path. Returns the result of the edit, and the edited copy.
fn edited<T>(path: &[u8], edit: impl FnOnce(&mut Vec<u8>) -> T) -> (T, Vec<u8>) {
    let mut copy = path.to_vec();
    (edit(&mut copy), copy)
}

/// Checks that each edit of a vector makes the same path as the method that returns a copy.
fn are_as_made(path: &[u8], other: &[u8]) {
    let (p, q) = (ours(path), ours(other));
    let (pushed, left) = edited(path, |path| calls::push(path, other));
    assert_eq!((pushed, left), (Ok(()), p.join(q).into()));
    let (named, left) = edited(path, |path| calls::set_file_name(path, other));
    assert_eq!((named, left), (Ok(()), p.with_file_name(q).into()));
    let (extended, left) = edited(path, |path| calls::set_extension(path, other));
    let (added, longer) = edited(path, |path| calls::add_extension(path, other));
    if other.contains(&b'/') {
        assert_eq!((extended, &left[..]), (Err(Error::Separator), path));
        assert_eq!((added, &longer[..]), (Err(Error::Separator), path));
    } else {
        let is_named = p.file_name().is_some();
        assert_eq!((extended, left), (Ok(is_named), p.with_extension(q).into()));
        assert_eq!(
            (added, longer),
            (Ok(is_named), p.with_added_extension(q).into())
        );
    }
}

#[test]
fn of_short_vectors() {
    let strings = over(b"/.ab", 4);
    for path in &strings {
        let (is_popped, left) = edited(path, calls::pop);
        let parent = ours(path).parent();
        assert_eq!(is_popped, parent.is_some());
        assert_eq!(left, parent.unwrap_or(ours(path)).as_bytes());
        strings.iter().for_each(|other| are_as_made(path, other));
    }
}

#[test]
fn of_long_vectors() {
    let pieces = ["a", "a/", "../", "/", "a.b/"].map(|piece| piece.repeat(100));
    for path in &pieces {
        for other in &pieces {
            for length in [0, 1, 55, 56, 155, 156, 300] {
                let cut = |piece: &str| piece.bytes().take(length).collect::<Vec<u8>>();
                are_as_made(path.as_bytes(), &cut(other));
                are_as_made(&cut(path), other.as_bytes());
            }
        }
    }
}

/// Checks that the path grows seldom during many pushes, since growing may double its capacity.
#[test]
fn many_pushes_grow_seldom() {
    let (mut path, mut grown) = (PathBuf::new(), 0);
    for _ in 0..10_000 {
        let capacity = path.capacity();
        path.push("a");
        grown += usize::from(path.capacity() != capacity);
    }
    assert_eq!(bytes(&path), [&b"a"[..]; 10_000].join(&b'/'));
    assert!(grown < 20);
}

/// Checks that a slash in an extension is refused, and leaves the path unchanged.
#[test]
fn separators_in_extensions() {
    for s in ["a.b", "..", ""] {
        for extension in ["/", "c/d", "/d"] {
            let mut path = PathBuf::from(s);
            let edit = AssertUnwindSafe(|| path.set_extension(extension));
            assert!(catch_unwind(edit).is_err());
            assert_eq!(path.as_unix_str(), s);
            assert!(catch_unwind(|| Path::new(s).with_extension(extension)).is_err());
            assert!(catch_unwind(|| Path::new(s).with_added_extension(extension)).is_err());
        }
    }
}

#[test]
fn room() {
    let mut path = PathBuf::with_capacity(100);
    let start = path.as_bytes().as_ptr();
    path.push("/a/b.c");
    path.set_extension("d");
    path.add_extension("f");
    path.set_file_name("e");
    assert_eq!((path.as_bytes().as_ptr(), path.capacity()), (start, 100));
    path.shrink_to(50);
    assert_eq!(path.capacity(), 50);
    path.reserve_exact(60);
    assert!(path.capacity() >= 64);
    path.reserve(100);
    assert!(path.capacity() >= 104);
    path.shrink_to_fit();
    assert_eq!((path.capacity(), bytes(&path)), (4, &b"/a/e"[..]));
    path.clear();
    assert_eq!((path.capacity(), path), (4, PathBuf::new()));
}

#[test]
fn long_results_keep_the_room() {
    let mut path = PathBuf::with_capacity(1000);
    path.push("/tmp/a");
    path.set_file_name([b'e'; 300]);
    assert_eq!(bytes(&path).len(), 305);
    assert!(path.capacity() >= 1000);
}
