//! Walks over a path, and questions about one path.
use crate::strings::*;
use std::ffi::OsStr;
use unix_path_proved::{calls, Component, Components, Iter, Path, PathBuf};

fn as_std(part: Component<'_>) -> std::path::Component<'_> {
    match part {
        Component::RootDir => std::path::Component::RootDir,
        Component::CurDir => std::path::Component::CurDir,
        Component::ParentDir => std::path::Component::ParentDir,
        Component::Normal(name) => {
            let name: &OsStr = std::os::unix::ffi::OsStrExt::from_bytes(name.as_bytes());
            std::path::Component::Normal(name)
        }
    }
}

/// Runs the check on all short strings and on many random ones.
fn each(check: fn(&[u8])) {
    short(6).iter().for_each(|s| check(s));
    over(b"/.ab", 5).iter().for_each(|s| check(s));
    random(100_000).iter().for_each(|s| check(s));
}

/// Takes a component for each bit of `bits`, lowest first: from the front for 0, and from the back
/// for 1. Checks the rest before each step.
fn walk_by(s: &[u8], bits: u32) {
    let (mut parts, mut want) = (ours(s).components(), theirs(s).components());
    let (mut texts, mut want_texts) = (ours(s).iter(), theirs(s).iter());
    for step in 0..32 {
        let left = Some(want.as_path().as_os_str());
        same_place(Some(parts.as_path().as_unix_str()), left, s);
        same_place(Some(texts.as_path().as_unix_str()), left, s);
        let is_front = bits >> step & 1 == 0;
        let (part, want) = match is_front {
            true => (parts.next(), want.next()),
            false => (parts.next_back(), want.next_back()),
        };
        let (text, want_text) = match is_front {
            true => (texts.next(), want_texts.next()),
            false => (texts.next_back(), want_texts.next_back()),
        };
        assert_eq!(part.map(as_std), want, "{}", s.escape_ascii());
        same_place(text, want_text, s);
        let want = want.map(|it| it.as_os_str());
        same_place(part.map(Component::as_unix_str), want, s);
        if part.is_none() {
            break;
        }
    }
}

#[test]
fn walks() {
    each(|s| {
        [0, u32::MAX, 0x5555_5555, 0x9C3A_61E5]
            .into_iter()
            .for_each(|bits| walk_by(s, bits))
    });
}

/// Continues both walks by every list of this many turns.
fn go_on(parts: &Components<'_>, want: &std::path::Components<'_>, turns: usize) {
    assert_eq!(bytes(parts.as_path()), std_bytes(want.as_path()));
    if turns == 0 {
        return;
    }
    for is_front in [true, false] {
        let (mut parts, mut want) = (parts.clone(), want.clone());
        let (part, wanted) = match is_front {
            true => (parts.next(), want.next()),
            false => (parts.next_back(), want.next_back()),
        };
        assert_eq!(part.map(as_std), wanted);
        go_on(&parts, &want, turns - 1);
    }
}

/// Makes two more turns than there are components, so that walks are also continued after their
/// end.
#[test]
fn all_turns() {
    for s in over(b"/.ab", 5) {
        let want = theirs(&s).components();
        go_on(&ours(&s).components(), &want, want.clone().count() + 2);
    }
}

#[test]
fn outlives_the_walk() {
    let path = b"/tmp/a.txt".to_vec();
    let (name, left) = {
        let mut parts = ours(&path).components();
        (parts.next_back(), parts.as_path())
    };
    assert_eq!(name, Some(Component::Normal("a.txt".as_ref())));
    assert_eq!(left.as_unix_str(), "/tmp");
}

/// Checks walks as paths, as text, and as debug text.
fn walk_views<'a>(parts: &Components<'a>, texts: &Iter<'a>, want: &std::path::Components<'_>) {
    let left = want.as_path().as_os_str();
    assert_eq!(bytes(parts), std_bytes(left));
    assert_eq!(bytes(texts), std_bytes(left));
    assert_eq!(AsRef::<Path>::as_ref(parts), parts.as_path());
    assert_eq!(AsRef::<Path>::as_ref(texts), parts.as_path());
    assert_eq!(format!("{parts:?}"), format!("{want:?}"));
    assert_eq!(format!("{parts:#?}"), format!("{want:#?}"));
    assert_eq!(format!("{texts:?}"), format!("{:?}", want.as_path().iter()));
}

#[test]
fn views_of_walks() {
    each(|s| {
        let (mut parts, mut want) = (ours(s).components(), theirs(s).components());
        let mut texts = ours(s).iter();
        let _ = (parts.next(), texts.next(), want.next());
        walk_views(&parts, &texts, &want);
        for part in parts {
            assert_eq!(bytes(&part), std_bytes(&as_std(part)));
            assert_eq!(bytes(AsRef::<Path>::as_ref(&part)), bytes(&part));
            assert_eq!(format!("{part:?}"), format!("{:?}", as_std(part)));
        }
    });
}

/// Returns the file name up to its first dot after the first byte.
fn file_prefix(path: &std::path::Path) -> Option<&OsStr> {
    let name = path.file_name()?;
    let dot = (1..name.len()).find(|at| std_bytes(name)[*at] == b'.');
    let prefix = &std_bytes(name)[..dot.unwrap_or(name.len())];
    Some(std::os::unix::ffi::OsStrExt::from_bytes(prefix))
}

fn has_names(s: &[u8]) {
    let (path, want) = (ours(s), theirs(s));
    same_place(path.file_name(), want.file_name(), s);
    same_place(path.file_stem(), want.file_stem(), s);
    same_place(path.extension(), want.extension(), s);
    same_place(path.file_prefix(), file_prefix(want), s);
    same_place(path.parent(), want.parent(), s);
    assert_eq!(path.is_absolute(), want.is_absolute());
    assert_eq!(path.is_relative(), want.is_relative());
    assert_eq!(path.has_root(), want.has_root());
}

#[test]
fn names() {
    each(|s| {
        has_names(s);
        let above = ours(s).ancestors().map(|it| place(bytes(it), s));
        assert!(above.eq(theirs(s).ancestors().map(|it| place(std_bytes(it), s))));
    });
}

#[test]
fn copies() {
    each(|s| {
        let (path, want) = (ours(s), theirs(s));
        assert_eq!(bytes(path), s);
        assert_eq!(bytes(path.as_unix_str()), s);
        assert_eq!(bytes(&path.to_path_buf()), s);
        let want_parts: std::path::PathBuf = want.components().collect();
        let want_texts: std::path::PathBuf = want.iter().collect();
        let parts: PathBuf = path.components().collect();
        let texts: PathBuf = path.iter().collect();
        assert_eq!(
            [&parts, &texts].map(bytes),
            [&want_parts, &want_texts].map(std_bytes)
        );
        assert_eq!(bytes(&path.canonical()), std_bytes(&want_parts));
        assert_eq!(path.is_canonical(), std_bytes(&want_parts) == s);
    });
}

/// Checks long runs of filler and of names.
#[test]
fn long_paths() {
    for piece in [
        "/", "/.", "./", "/./", "../", "a/", "//a", "a/.//", ".a.", ".",
    ] {
        let s = piece.repeat(100_000).into_bytes();
        let (path, want) = (ours(&s), theirs(&s));
        assert!(path.components().map(as_std).eq(want.components()));
        let back = path.components().rev();
        assert!(back.map(as_std).eq(want.components().rev()));
        assert_eq!(path.ancestors().count(), want.ancestors().count());
        has_names(&s);
        let collected: std::path::PathBuf = want.components().collect();
        assert_eq!(bytes(&path.canonical()), std_bytes(&collected));
        let other = [&s[..], b"/./"].concat();
        assert!(path == ours(&other) && path.cmp(ours(&other)).is_eq());
        assert_eq!(calls::hash(&s), calls::hash(&other));
        assert_eq!(bytes(&path.join(path)), std_bytes(&want.join(want)));
    }
}
