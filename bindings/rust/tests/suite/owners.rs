//! Paths and text in other types that own them.
use std::borrow::{Borrow, Cow};
use std::io;
use std::rc::Rc;
use std::sync::Arc;
use unix_path_proved::{Component, Path, PathBuf, StripPrefixError, UnixStr, UnixString};

const SPELLED: &str = "a//b/.";

fn is_spelled(path: &Path) -> bool {
    path.as_unix_str() == SPELLED
}

#[test]
fn of_paths() {
    let path = Path::new(SPELLED);
    let boxed: Box<Path> = path.into();
    assert!(is_spelled(&boxed) && is_spelled(&boxed.clone()) && boxed == path.into());
    assert!(is_spelled(&boxed.into_path_buf()) && is_spelled(&Rc::<Path>::from(path)));
    assert!(is_spelled(&Arc::<Path>::from(path)) && is_spelled(&Cow::from(path)));
    let buf = || PathBuf::from(SPELLED);
    assert!(is_spelled(&buf().into_boxed_path()) && is_spelled(&Box::<Path>::from(buf())));
    assert!(is_spelled(&Rc::<Path>::from(buf())) && is_spelled(&Arc::<Path>::from(buf())));
    assert!(is_spelled(&Cow::<Path>::from(buf())) && is_spelled(&Cow::from(&buf())));
    let mut own = buf();
    assert!(is_spelled(&Box::<Path>::from(&mut *own)) && is_spelled(&Rc::<Path>::from(&mut *own)));
    assert!(is_spelled(&Arc::<Path>::from(&mut *own)) && is_spelled(buf().leak()));
    assert!(is_spelled(&PathBuf::from(Box::<Path>::from(path))));
    assert!(is_spelled(&PathBuf::from(Cow::from(path))));
    assert!(is_spelled(&Box::<Path>::from(Cow::from(path))));
    assert!(is_spelled(&Box::<Path>::from(Cow::<Path>::from(buf()))));
    assert!(is_spelled(&PathBuf::from(SPELLED.to_string())));
    assert!(is_spelled(&PathBuf::from(UnixString::from(SPELLED))));
    assert!(is_spelled(&SPELLED.parse::<PathBuf>().unwrap()));
    assert!(UnixString::from(buf()) == SPELLED && buf().into_unix_string() == SPELLED);
    assert!(is_spelled(Borrow::<Path>::borrow(&buf())) && is_spelled(buf().as_path()));
    assert_eq!(PathBuf::default(), PathBuf::new());
    let (mut target, copy) = (PathBuf::from("x"), path.to_owned());
    path.clone_into(&mut target);
    assert!(is_spelled(&target) && is_spelled(&copy) && is_spelled(&target.clone()));
}

fn is_text(text: &UnixStr) -> bool {
    text.as_bytes() == SPELLED.as_bytes()
}

#[test]
fn of_texts() {
    let text = UnixStr::new(SPELLED);
    let boxed: Box<UnixStr> = text.into();
    assert!(is_text(&boxed) && is_text(&boxed.clone()) && is_text(&boxed.into_unix_string()));
    assert!(is_text(&Rc::<UnixStr>::from(text)) && is_text(&Arc::<UnixStr>::from(text)));
    let string = || UnixString::from(SPELLED);
    assert!(is_text(&Rc::<UnixStr>::from(string())) && is_text(&Arc::<UnixStr>::from(string())));
    assert!(is_text(&Cow::from(text)) && is_text(&Cow::<UnixStr>::from(string())));
    assert!(is_text(&Box::<UnixStr>::from(string())) && is_text(&string().into_boxed_unix_str()));
    assert!(is_text(&Box::<UnixStr>::from(Cow::from(text))) && is_text(&Cow::from(&string())));
    let mut own = string();
    assert!(is_text(&Box::<UnixStr>::from(&mut own[..])) && is_text(string().leak()));
    assert!(is_text(&Rc::<UnixStr>::from(&mut *own)) && is_text(&Arc::<UnixStr>::from(&mut *own)));
    assert!(is_text(&UnixString::from(Box::<UnixStr>::from(text))));
    assert!(is_text(&UnixString::from(Cow::from(text))) && is_text(&string()[..]));
    assert!(is_text(&SPELLED.parse::<UnixString>().unwrap()));
    assert!(is_text(Borrow::<UnixStr>::borrow(&string())));
    assert_eq!(string().into_string().unwrap(), SPELLED);
    assert_eq!(string().into_vec(), SPELLED.as_bytes());
    let (mut target, copy) = (UnixString::from("x"), text.to_owned());
    text.clone_into(&mut target);
    assert!(is_text(&target) && is_text(&copy));
    let joined: UnixString = ["a", "/", "b"].into_iter().collect();
    assert_eq!(joined, "a/b");
    let (boxed, string) = (Box::<UnixStr>::default(), UnixString::new());
    let empties = [<&UnixStr>::default(), &boxed, &string];
    assert!(empties.iter().all(|text| text.is_empty()));
    assert_eq!(empties.map(UnixStr::len), [0; 3]);
    assert!(!text.is_empty());
}

#[test]
fn room_of_texts() {
    let mut text = UnixString::with_capacity(10);
    text.push("abc");
    assert_eq!((text.capacity(), text.as_unix_str().len()), (10, 3));
    text.shrink_to(5);
    assert_eq!(text.capacity(), 5);
    text.reserve(20);
    text.reserve_exact(30);
    assert!(text.capacity() >= 33);
    text.try_reserve(40).unwrap();
    text.try_reserve_exact(50).unwrap();
    assert!(text.capacity() >= 53 && text.try_reserve_exact(usize::MAX).is_err());
    text.shrink_to_fit();
    assert_eq!(text.capacity(), 3);
    text.clear();
    assert!(text.is_empty() && text.capacity() == 3);
}

/// Passes each type that is accepted as a path.
#[test]
fn parameters() {
    let path = Path::new("/a/b");
    let string = String::from("/a");
    assert!(path.starts_with("/a") && path.starts_with(&string) && path.starts_with(string));
    assert!(path.starts_with(Path::new("/a")) && path.starts_with(PathBuf::from("/a")));
    assert!(path.starts_with(UnixStr::new("/a")) && path.starts_with(UnixString::from("/a")));
    assert!(path.starts_with(Cow::from(UnixStr::new("/a"))) && path.starts_with(path.components()));
    assert!(path.starts_with(path.iter()) && path.starts_with(Component::RootDir));
    assert!(path.starts_with(Cow::from(path)) && path.starts_with(Box::<Path>::from(path)));
    assert_eq!(
        Path::new(&PathBuf::from("/a/b")),
        Path::new(&path.components())
    );
    assert!(
        path.starts_with(b"/a") && path.starts_with(&b"/a"[..]) && path.starts_with(vec![b'/'])
    );
    assert_eq!(Path::new(&Component::ParentDir), Path::new(".."));
    assert_eq!(PathBuf::from(path), PathBuf::from(&path.iter()));
    assert!(path.into_iter().eq(&PathBuf::from("/a//b")));
}

/// Converts bytes and strings to paths and texts, and back.
#[test]
fn conversions() {
    let bytes = SPELLED.as_bytes();
    assert!(is_spelled(bytes.into()) && is_spelled(SPELLED.into()) && is_text(bytes.into()));
    assert!(is_spelled(<&Path>::from(UnixStr::new(SPELLED))) && is_text(SPELLED.into()));
    assert!(is_text(<&UnixStr>::from(Path::new(SPELLED))));
    assert!(is_spelled(&PathBuf::from(bytes)) && is_text(&UnixString::from(bytes.to_vec())));
    assert_eq!(Vec::from(PathBuf::from(bytes.to_vec())), bytes);
    assert_eq!(Vec::from(UnixString::from(bytes)), bytes);
    assert_eq!(<&str>::try_from(Path::new(SPELLED)), Ok(SPELLED));
    assert_eq!(<&str>::try_from(UnixStr::new(SPELLED)), Ok(SPELLED));
    let error = std::str::from_utf8(&[bytes, b"\xE9"].concat()).unwrap_err();
    let broken = PathBuf::from([bytes, b"\xE9"].concat());
    assert_eq!(<&str>::try_from(&*broken), Err(error));
    assert_eq!(<&str>::try_from(broken.as_unix_str()), Err(error));
}

/// Checks that memory is kept in conversions of owned values.
#[test]
fn conversions_keep_the_memory() {
    let bytes = SPELLED.as_bytes().to_vec();
    let start = bytes.as_ptr();
    let path = PathBuf::from(UnixString::from(bytes));
    let text = UnixString::from(Box::<UnixStr>::from(UnixString::from(path)));
    let bytes = Vec::from(PathBuf::from(text.into_string().unwrap()));
    assert_eq!(bytes.as_ptr(), start);
}

#[test]
#[cfg(unix)]
fn paths_of_std() {
    use std::ffi::{OsStr, OsString};
    use std::path;
    let (theirs, text) = (path::Path::new(SPELLED), OsStr::new(SPELLED));
    assert!(is_spelled(Path::new(theirs)) && is_spelled(Path::new(text)));
    assert!(is_spelled(theirs.into()) && is_spelled(text.into()));
    assert!(is_text(theirs.into()) && is_text(text.into()));
    assert!(is_spelled(&PathBuf::from(theirs)) && is_text(&UnixString::from(text)));
    assert!(is_spelled(&PathBuf::from(theirs.to_path_buf())));
    assert!(is_spelled(&PathBuf::from(OsString::from(SPELLED))));
    assert!(is_text(&UnixString::from(theirs.to_path_buf())));
    assert!(is_text(&UnixString::from(OsString::from(SPELLED))));
    assert_eq!(OsString::from(PathBuf::from(SPELLED)), text);
    assert_eq!(OsString::from(UnixString::from(SPELLED)), text);
    assert_eq!(
        path::PathBuf::from(PathBuf::from(SPELLED)).as_os_str(),
        text
    );
    assert_eq!(
        path::PathBuf::from(UnixString::from(SPELLED)).as_os_str(),
        text
    );
    let path = Path::new("/a/b");
    let as_std = |path: &dyn AsRef<path::Path>| path.as_ref().to_path_buf();
    assert_eq!(as_std(&path), path::Path::new("/a/b"));
    assert_eq!(as_std(&PathBuf::from("/a/b")), path::Path::new("/a/b"));
    assert_eq!(as_std(&UnixString::from("/a/b")), path::Path::new("/a/b"));
    assert_eq!(as_std(&path.components()), path::Path::new("/a/b"));
    assert_eq!(as_std(&path.iter()), path::Path::new("/a/b"));
    assert_eq!(as_std(&Component::RootDir), path::Path::new("/"));
    assert!(path.starts_with(OsStr::new("/a")) && path.starts_with(path::PathBuf::from("/a")));
    assert!(std::fs::metadata(Path::new("/")).unwrap().is_dir());
}

#[test]
fn changed_in_place() {
    let mut path = PathBuf::from("/Foo/BAR");
    path.as_mut_unix_str().make_ascii_lowercase();
    assert_eq!(path.as_unix_str(), "/foo/bar");
    path.as_mut_unix_string().push("/Baz");
    let view: &mut Path = &mut path;
    view.as_mut_unix_str().make_ascii_uppercase();
    assert_eq!(path.as_unix_str(), "/FOO/BAR/BAZ");
    let text = UnixStr::new("Grü\u{DF}e");
    assert_eq!(text.to_ascii_lowercase(), "grü\u{DF}e");
    assert_eq!(text.to_ascii_uppercase(), "GRü\u{DF}E");
    assert!(text.eq_ignore_ascii_case("gRü\u{DF}E") && !text.eq_ignore_ascii_case("gru\u{DF}e"));
    assert!(!text.is_ascii() && UnixStr::new("a~").is_ascii());
    let mut string = UnixString::from("A");
    string[..].make_ascii_lowercase();
    std::fmt::Write::write_str(&mut string, "b").unwrap();
    assert_eq!(string, "ab");
}

#[test]
fn errors() {
    let error: StripPrefixError = Path::new("a").strip_prefix("b").unwrap_err();
    assert_eq!(error, error.clone());
    assert_eq!(format!("{error:>20}"), "    prefix not found");
    let same: Box<dyn std::error::Error + Send + Sync> = error.clone().into();
    assert_eq!(same.downcast_ref(), Some(&error));
    let outer = io::Error::from(error.clone());
    assert_eq!(outer.kind(), io::ErrorKind::InvalidInput);
    assert_eq!(outer.get_ref().unwrap().downcast_ref(), Some(&error));
}

#[test]
fn separators() {
    assert_eq!(unix_path_proved::MAIN_SEPARATOR, '/');
    assert!((0..=0x10FFFF)
        .filter_map(char::from_u32)
        .filter(|c| unix_path_proved::is_separator(*c))
        .eq(['/']));
}
