//! Questions about two paths, and paths made from two.
use crate::strings::*;
use std::borrow::Cow;
use std::cmp::Ordering::{Greater, Less};
use std::hash::{DefaultHasher, Hash, Hasher};
use unix_path_proved::{Component, Path, PathBuf, UnixStr, UnixString};

fn hash_of(key: impl Hash) -> u64 {
    let mut hasher = DefaultHasher::new();
    key.hash(&mut hasher);
    hasher.finish()
}

/// Runs the check on all pairs of short strings of which one has at most four bytes. Also runs it
/// on many random strings, each paired with a similar string and with a different one.
fn each(check: fn(&[u8], &[u8])) {
    let (short, shorter) = (short(6), short(4));
    for a in &short {
        for b in &shorter {
            check(a, b);
            check(b, a);
        }
    }
    let mut random = Random::new();
    for _ in 0..100_000 {
        let s = random.string();
        check(&s, &random.variant(&s));
        check(&s, &random.string());
    }
}

/// Runs the check on all pairs of strings of at most five bytes over `/`, `.`, `a` and `b`.
fn each_of_four_letters(check: fn(&[u8], &[u8])) {
    let strings = over(b"/.ab", 5);
    for a in &strings {
        strings.iter().for_each(|b| check(a, b));
    }
}

/// Checks that two paths are compared as in std.
pub fn are_compared(a: &[u8], b: &[u8]) {
    let ((p, q), (want, base)) = ((ours(a), ours(b)), (theirs(a), theirs(b)));
    assert_eq!(p == q, want == base);
    assert_eq!(p.cmp(q), want.cmp(base));
    assert_eq!(p.starts_with(q), want.starts_with(base));
    assert_eq!(p.ends_with(q), want.ends_with(base));
    same_place(p.strip_prefix(q).ok(), want.strip_prefix(base).ok(), a);
}

#[test]
fn comparisons() {
    each_of_four_letters(are_compared);
    each(|a, b| {
        are_compared(a, b);
        let ((p, q), (want, base)) = ((ours(a), ours(b)), (theirs(a), theirs(b)));
        assert_eq!(p.partial_cmp(q), want.partial_cmp(base));
        assert_eq!(p.components() == q.components(), want == base);
        assert_eq!(p.components().cmp(q.components()), want.cmp(base));
        assert_eq!(hash_of(p) == hash_of(q), want == base);
    });
}

/// Returns a copy with the extension appended to its file name, like `Path::with_added_extension`,
/// which older compilers lack.
fn with_added_extension(path: &std::path::Path, extension: &[u8]) -> Vec<u8> {
    if extension.is_empty() || path.file_name().is_none() {
        return std_bytes(path).to_vec();
    }
    [std_bytes(path.components().as_path()), b".", extension].concat()
}

fn are_made(a: &[u8], b: &[u8]) {
    let ((p, q), (path, other)) = ((ours(a), ours(b)), (theirs(a), theirs(b)));
    assert_eq!(bytes(&p.join(q)), std_bytes(&path.join(other)));
    let want = path.with_file_name(other.as_os_str());
    assert_eq!(bytes(&p.with_file_name(q)), std_bytes(&want));
    if b.contains(&b'/') {
        return;
    }
    // std's `with_extension` looks for a file name only after it has removed the extension. Its
    // `set_extension` looks before.
    let mut want = path.to_path_buf();
    want.set_extension(other.as_os_str());
    assert_eq!(bytes(&p.with_extension(q)), std_bytes(&want));
    let want = with_added_extension(path, b);
    assert_eq!(bytes(&p.with_added_extension(q)), want);
}

#[test]
fn made_of_two() {
    each_of_four_letters(are_made);
    each(are_made);
}

/// Returns the longest common prefix of `a` and `b` that is empty or ends with a slash.
fn common_dir<'a>(a: &'a [u8], b: &[u8]) -> &'a [u8] {
    let beginnings = (0..=a.len()).map(|length| &a[..length]);
    let is_dir = |beginning: &&[u8]| {
        b.starts_with(beginning) && beginning.last().is_none_or(|byte| *byte == b'/')
    };
    beginnings.rev().find(is_dir).unwrap_or_default()
}

#[test]
fn common_dirs() {
    each_of_four_letters(|a, b| {
        let found = bytes(ours(a).common_dir(ours(b)));
        assert_eq!(place(found, a), place(common_dir(a, b), a));
    });
}

/// Checks that the components of a path form the same path if they are removed and joined again, or
/// pushed one by one.
#[test]
fn parts_make_the_path() {
    each(|a, b| {
        let (p, q) = (ours(a), ours(b));
        if let Ok(rest) = p.strip_prefix(q) {
            assert_eq!(q.join(rest), *p);
        }
        let both: PathBuf = p.components().chain(q.components()).collect();
        assert_eq!(both, p.join(q));
    });
}

/// Checks that each of these pairs is equal, in either order.
macro_rules! are_equal {
    ($($one:expr, $($other:expr),+;)*) => {$($(
        assert!(PartialEq::eq(&$one, &$other));
        assert!(PartialEq::eq(&$other, &$one));
    )+)*};
}

/// Checks that the first of each pair is less than the other, and the other greater than it.
macro_rules! are_ordered {
    ($($one:expr, $($other:expr),+;)*) => {$($(
        assert_eq!(PartialOrd::partial_cmp(&$one, &$other), Some(Less));
        assert_eq!(PartialOrd::partial_cmp(&$other, &$one), Some(Greater));
    )+)*};
}

/// Checks that a path is compared by components with each type that can be a path.
#[test]
fn paths_equal_other_types() {
    let (path, text) = (Path::new("a//b/."), UnixStr::new("a/b"));
    let (buf, string) = (PathBuf::from("a/./b"), UnixString::from("a/b//"));
    let (cow, cow_text) = (Cow::Borrowed(path), Cow::Borrowed(text));
    let owned = String::from("a/b/");
    are_equal! {
        buf, *path, path, cow, *text, text, string, cow_text, *"a/b", owned;
        *path, cow, *text, text, string, cow_text, *"a/b", owned;
        path, cow, *text, string, cow_text;
        cow, *text, text, string;
    }
    assert!(buf != *Path::new("a") && buf != *UnixStr::new("a") && buf != *"a");
}

/// Checks that text is compared by bytes.
#[test]
fn texts_equal_other_types() {
    let (text, string) = (UnixStr::new("a//b"), UnixString::from("a//b"));
    let cow = Cow::Borrowed(text);
    are_equal! {
        string, *text, text, cow, *"a//b", "a//b";
        cow, *text, text;
        *text, *"a//b";
    }
    assert!(string != *UnixStr::new("a/b") && cow != *UnixStr::new("a/b") && *text != *"a/b");
}

/// Checks orders of different types. The order by components differs from the order by bytes here.
#[test]
fn orders_across_types() {
    let (path, text) = (Path::new("a/b"), UnixStr::new("a.b"));
    let (great, buf, cow) = (Path::new("a.b"), PathBuf::from("a/b"), Cow::Borrowed(path));
    let (string, cow_text) = (UnixString::from("a.b"), Cow::Borrowed(text));
    are_ordered! {
        buf, *great, great, Cow::Borrowed(great), *text, text, string, cow_text;
        *path, PathBuf::from("a.b"), Cow::Borrowed(great), *text, text, string, cow_text;
        path, PathBuf::from("a.b"), Cow::Borrowed(great), *text, string, cow_text;
        cow, PathBuf::from("a.b"), *text, text, string;
        string, *UnixStr::new("a/b"), UnixStr::new("a/b"), Cow::Borrowed(UnixStr::new("a/b"));
        cow_text, *UnixStr::new("a/b"), UnixStr::new("a/b"), UnixString::from("a/b");
    }
    assert!(*text < *"a/b" && string < *"a/b");
}

#[test]
fn parts_are_ordered_as_in_std() {
    let name = Component::Normal(UnixStr::new(""));
    let parts = [
        Component::RootDir,
        Component::CurDir,
        Component::ParentDir,
        name,
    ];
    assert!(parts.windows(2).all(|pair| pair[0] < pair[1]));
    assert!(Component::Normal("a".as_ref()) < Component::Normal("aa".as_ref()));
}
