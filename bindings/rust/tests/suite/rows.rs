//! Checks the rows of `tests/rows.txt`, by the methods of the types and by the calls over slices:
//! makes the call of each row, and writes the row again with the call's result. If the two rows
//! differ, the row in the file is wrong or malformed.
#[path = "../../src/ffi/calls.rs"]
#[macro_use]
mod shapes;

use crate::strings::{bytes, ours};
use std::borrow::Cow;
use std::cmp::Ordering;
use std::panic::catch_unwind;
use unix_path_proved::UnixStr;
use unix_path_proved::{calls, Component, Error, Path, PathBuf, RequestError, StripPrefixError};

static ROWS: &str = include_str!("../../../../tests/rows.txt");

/// The byte that a buffer contains before a call.
const OLD: u8 = 0xA5;

/// A call: its name, the number of its paths, and a function that makes the call and returns the
/// fields of its result.
type Call = (&'static str, usize, fn(&[u8], &[u8]) -> Vec<String>);

/// The result of a call on a path.
trait Answer {
    /// Returns the fields of a row.
    fn fields(self, path: &[u8]) -> Vec<String>;
}

/// Implements `Answer` for types whose field is one text.
macro_rules! one_field {
    ($($kind:ty, $answer:ident => $text:expr;)*) => {
        $(impl Answer for $kind {
            fn fields(self, _: &[u8]) -> Vec<String> {
                let $answer = self;
                vec![$text]
            }
        })*
    };
}

one_field! {
    bool, answer => answer.to_string();
    u64, hash => format!("{hash:#018x}");
    Ordering, order => (order as i8).to_string();
    PathBuf, path => spelled(bytes(&path));
    Vec<u8>, made => spelled(&made);
    Cow<'_, str>, text => spelled(text.as_bytes());
    Error, error => word(error).to_string();
}

/// The number that a row has for each result of `check_request`.
impl Answer for Result<(), RequestError> {
    fn fields(self, _: &[u8]) -> Vec<String> {
        let number = match self {
            Ok(()) => 0,
            Err(RequestError::Rooted) => 1,
            Err(RequestError::Escapes) => 2,
            Err(error) => 2 + i32::from(error == RequestError::Nul),
        };
        vec![number.to_string()]
    }
}

/// The length of a prefix of the path.
impl Answer for &[u8] {
    fn fields(self, path: &[u8]) -> Vec<String> {
        assert!(path.starts_with(self));
        vec![self.len().to_string()]
    }
}

impl Answer for &Path {
    fn fields(self, path: &[u8]) -> Vec<String> {
        bytes(self).fields(path)
    }
}

/// What was found in the path, and its index.
impl<S: AsRef<UnixStr> + ?Sized> Answer for Option<&S> {
    fn fields(self, path: &[u8]) -> Vec<String> {
        let place = |bytes: &[u8]| bytes.as_ptr() as usize - path.as_ptr() as usize;
        match self.map(bytes) {
            Some(bytes) => vec![spelled(bytes), place(bytes).to_string()],
            None => vec!["!none".to_string()],
        }
    }
}

impl Answer for Result<&Path, StripPrefixError> {
    fn fields(self, path: &[u8]) -> Vec<String> {
        self.ok().fields(path)
    }
}

impl<T: Answer> Answer for Result<T, Error> {
    fn fields(self, path: &[u8]) -> Vec<String> {
        match self {
            Ok(made) => made.fields(path),
            Err(error) => error.fields(path),
        }
    }
}

fn word(error: Error) -> &'static str {
    match error {
        Error::Separator => "!separator",
        Error::Escapes => "!escapes",
        Error::Nul => "!nul_in_request",
        Error::NotAKey => "!not_a_key",
        Error::NoRelativePath => "!no_relative_path",
        _ => panic!("{error}"),
    }
}

/// Returns the field that represents these bytes.
fn spelled(bytes: &[u8]) -> String {
    let spell = |(at, byte): (usize, &u8)| {
        let is_coded = !(b' '..=b'~').contains(byte)
            || *byte == b'|'
            || (*byte == b' ' && (at == 0 || at + 1 == bytes.len()))
            || (*byte == b'!' && at == 0);
        match *byte {
            b'\\' => r"\\".to_string(),
            byte if is_coded => format!("\\x{byte:02X}"),
            byte => char::from(byte).to_string(),
        }
    };
    bytes.iter().enumerate().map(spell).collect()
}

/// Returns the bytes that a field represents.
pub fn unescaped(field: &str) -> Vec<u8> {
    let (mut bytes, mut left) = (vec![], field.as_bytes());
    while let [first, rest @ ..] = left {
        let digits = rest.get(1..3).and_then(|it| std::str::from_utf8(it).ok());
        let code = digits.and_then(|it| u8::from_str_radix(it, 16).ok());
        let (byte, taken) = match (first, rest.first(), code) {
            (b'\\', Some(b'x'), Some(code)) => (code, 4),
            (b'\\', Some(next), _) => (*next, 2),
            _ => (*first, 1),
        };
        bytes.push(byte);
        left = &left[taken..];
    }
    bytes
}

/// Returns a row with these fields.
fn spelled_row(fields: &[String]) -> String {
    let spell = |field: &String| match field.is_empty() {
        true => " |".to_string(),
        false => format!(" | {field}"),
    };
    fields[0].clone() + &fields[1..].iter().map(spell).collect::<String>()
}

/// Checks each row of these calls, and prints how many rows were checked and how many were skipped.
fn ask_all(calls: &[Call], left_out: &[&str]) {
    let (mut asked, mut left) = (0, 0);
    let is_row = |row: &&str| !row.is_empty() && !row.starts_with('#');
    for row in ROWS.lines().filter(is_row) {
        let fields: Vec<_> = row.split('|').map(|it| it.trim_matches(' ')).collect();
        if left_out.contains(&fields[0]) {
            left += 1;
            continue;
        }
        let found = calls.iter().find(|call| call.0 == fields[0]);
        let (name, count, ask) = found.unwrap_or_else(|| panic!("no call asks {row}"));
        let given = fields[1..].iter().take(*count);
        let mut paths: Vec<_> = given.map(|field| unescaped(field)).collect();
        let mut again = vec![name.to_string()];
        again.extend(paths.iter().map(|path| spelled(path)));
        paths.resize(2, vec![]);
        again.extend(ask(&paths[0], &paths[1]));
        assert_eq!(spelled_row(&again), row);
        asked += 1;
    }
    println!("{asked} rows, {left} left out");
}

/// A call that writes to a buffer. Its result is copied, and `None` if a range has no end.
type Written = Result<Option<Vec<u8>>, Error>;

/// Returns the field of a row for what a call wrote to a vector. Checks `write`, the same call with
/// a buffer, for all lengths of the buffer up to 3 bytes more than needed: it writes the same bytes
/// if they fit, and otherwise nothing. A vector is unchanged if the call fails.
fn written(
    to_vector: impl Fn(&mut Vec<u8>) -> Written,
    write: impl Fn(&mut [u8]) -> Written,
) -> Vec<String> {
    let mut vector = vec![OLD];
    let made = to_vector(&mut vector);
    let want = made.clone().ok().flatten().unwrap_or_default();
    let is_there = matches!(made, Ok(Some(_)));
    assert_eq!(vector, if is_there { &want[..] } else { &[OLD] });
    let needed = want.len();
    for room in 0..needed + 4 {
        let mut bytes = vec![OLD; needed + 8];
        let answer = write(&mut bytes[..room]);
        let count = if room < needed { 0 } else { needed };
        match room < needed {
            true => assert_eq!(answer, Err(Error::Short { needed })),
            false => assert_eq!(answer, made),
        }
        assert_eq!(bytes[..count], want[..count]);
        assert!(bytes[count..].iter().all(|byte| *byte == OLD));
    }
    made.map_or_else(
        |error| error.fields(&[]),
        |made| vec![made.map_or("!no_end".to_string(), |made| spelled(&made))],
    )
}

/// What a call that makes something returns.
trait Made {
    fn copied(self) -> Option<Vec<u8>>;
}

impl Made for &[u8] {
    fn copied(self) -> Option<Vec<u8>> {
        Some(self.to_vec())
    }
}

impl Made for Option<&[u8]> {
    fn copied(self) -> Option<Vec<u8>> {
        self.map(<[u8]>::to_vec)
    }
}

/// Returns all calls over slices.
fn all_calls() -> Vec<Call> {
    let mut all: Vec<Call> = vec![];
    macro_rules! of_one {
        ($($name:ident $(-> $answer:ident)?;)*) => {
            $(all.push((stringify!($name), 1, |a, _| calls::$name(a).fields(a)));)*
        };
    }
    macro_rules! of_two {
        ($($name:ident $(-> $answer:ident)?;)*) => {
            $(all.push((stringify!($name), 2, |a, b| calls::$name(a, b).fields(a)));)*
        };
    }
    macro_rules! made_of_one {
        ($($name:ident;)*) => {
            $(all.push((stringify!($name), 1, |a, _| written(
                |out| calls::$name(a, out).map(Made::copied),
                |out| calls::$name(a, out).map(Made::copied),
            )));)*
        };
    }
    macro_rules! made_of_two {
        ($($name:ident;)*) => {
            $(all.push((stringify!($name), 2, |a, b| written(
                |out| calls::$name(a, b, out).map(Made::copied),
                |out| calls::$name(a, b, out).map(Made::copied),
            )));)*
        };
    }
    find!(of_one);
    ask!(of_one);
    find_of_two!(of_two);
    ask_two!(of_two);
    make!(made_of_one);
    make_of_two!(made_of_two);
    all
}

#[test]
fn of_slices() {
    ask_all(&all_calls(), &["components", "next_ancestor", "next_chunk"]);
}

/// Calls that are operators of the types, or methods with other names or other parameters.
trait Renamed {
    fn is_utf8(&self) -> bool;
    fn equal(&self, other: &[u8]) -> bool;
    fn compare(&self, other: &[u8]) -> Ordering;
    fn from_key(&self) -> Result<PathBuf, Error>;
}

impl Renamed for Path {
    fn is_utf8(&self) -> bool {
        self.to_str().is_some()
    }

    fn equal(&self, other: &[u8]) -> bool {
        self == Path::new(other)
    }

    /// Returns the order. Checks that the opposite order and `==` agree with it.
    fn compare(&self, other: &[u8]) -> Ordering {
        let order = self.cmp(Path::new(other));
        assert_eq!(Path::new(other).cmp(self), order.reverse());
        assert_eq!(self.equal(other), order.is_eq());
        order
    }

    fn from_key(&self) -> Result<PathBuf, Error> {
        PathBuf::from_key(self.as_bytes())
    }
}

/// Lists the calls that the types lack, whose rows are skipped. The type checker finds a method for
/// each other call, or reports an error.
macro_rules! lacking {
    ($($name:ident)*) => {
        trait Lacking {
            $(fn $name(&self) -> bool {
                unreachable!()
            })*
        }
        impl Lacking for Path {}
        static LEFT_OUT: &[&str] = &[$(stringify!($name)),*];
    };
}
lacking!(hash key_range_end);

/// Returns the fields of a call that makes `a` with the extension `b`. It panics if `b` contains a
/// slash.
fn extended(a: &[u8], call: impl Fn(&Path) -> PathBuf + std::panic::RefUnwindSafe) -> Vec<String> {
    let made = catch_unwind(|| call(ours(a)).fields(a));
    made.unwrap_or_else(|_| Error::Separator.fields(a))
}

fn component(bytes: &[u8]) -> Component<'_> {
    match bytes {
        b"/" => Component::RootDir,
        b"." => Component::CurDir,
        b".." => Component::ParentDir,
        name => Component::Normal(UnixStr::from_bytes(name)),
    }
}

/// Returns the components, each with its index: the rest of the walk began there before the
/// component was taken. Checks that a walk from the back yields the same components.
fn parts(path: &[u8]) -> Vec<String> {
    let (mut rest, mut taken, mut fields) = (ours(path).components(), vec![], vec![]);
    let whole = bytes(rest.as_path());
    let mut left = whole;
    while let Some(part) = rest.next() {
        assert_eq!(part, component(bytes(&part)));
        assert!(left.starts_with(bytes(&part)));
        fields.extend(Some(&left[..bytes(&part).len()]).fields(path));
        taken.push(part);
        left = bytes(rest.as_path());
    }
    assert!(whole.ends_with(taken.last().map_or(b"", bytes)));
    assert!(ours(path).components().rev().eq(taken.into_iter().rev()));
    fields
}

fn ancestors(path: &[u8]) -> Vec<String> {
    let above = ours(path).ancestors();
    let fields: Vec<_> = above.map(|it| Some(it).fields(path)).collect();
    assert!(fields.iter().all(|it| it[1] == "0"));
    fields.into_iter().map(|mut it| it.remove(0)).collect()
}

fn chunks(path: &[u8]) -> Vec<String> {
    let chunks = ours(path).as_unix_str().chunks();
    chunks
        .flat_map(|it| [spelled(it.valid), spelled(it.broken)])
        .collect()
}

/// Returns all calls: first those that are checked in their own way, then the others by signature.
fn all_methods() -> Vec<Call> {
    let mut all: Vec<Call> = vec![
        ("components", 1, |a, _| parts(a)),
        ("next_ancestor", 1, |a, _| ancestors(a)),
        ("next_chunk", 1, |a, _| chunks(a)),
        ("with_extension", 2, |a, b| {
            extended(a, |path| path.with_extension(b))
        }),
        ("with_added_extension", 2, |a, b| {
            extended(a, |path| path.with_added_extension(b))
        }),
    ];
    macro_rules! of_one {
        ($($name:ident $(-> $answer:ident)?;)*) => {
            $(all.push((stringify!($name), 1, |a, _| ours(a).$name().fields(a)));)*
        };
    }
    macro_rules! of_two {
        ($($name:ident $(-> $answer:ident)?;)*) => {
            $(all.push((stringify!($name), 2, |a, b| ours(a).$name(b).fields(a)));)*
        };
    }
    find!(of_one);
    ask!(of_one);
    make!(of_one);
    find_of_two!(of_two);
    ask_two!(of_two);
    make_of_two!(of_two);
    all
}

#[test]
fn of_types() {
    ask_all(&all_methods(), LEFT_OUT);
}

#[test]
fn version() {
    assert_eq!(unix_path_proved::version(), 0x01_0100);
}

#[test]
fn errors_have_texts() {
    let short = Error::Short { needed: 4 };
    for (error, want) in [
        (short, "the buffer is too short for 4 bytes"),
        (Error::Separator, "extension contains a separator"),
        (Error::Escapes, "path leaves its root"),
        (Error::Nul, "path has a NUL byte"),
        (Error::NoMemory, "out of memory"),
        (Error::NotAKey, "not the key of a path"),
        (
            Error::NoRelativePath,
            "no relative path from one path to the other",
        ),
    ] {
        let boxed: Box<dyn std::error::Error> = error.into();
        assert_eq!(boxed.to_string(), want);
    }
    for (why, want) in [
        (RequestError::Rooted, "path has a root"),
        (RequestError::Escapes, "path leaves its root"),
        (RequestError::Nul, "path has a NUL byte"),
    ] {
        assert_eq!(why.to_string(), want);
    }
}
