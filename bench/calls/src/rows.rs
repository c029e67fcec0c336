//! The rows of the table: what each side does with a path and a second argument.
use crate::corpora::Other;
use std::ffi::OsStr;
use std::hash::{DefaultHasher, Hash, Hasher};
use std::os::unix::ffi::OsStrExt;
use std::path::{Component, Path, PathBuf};
use unix_path_proved::{self as ours, calls, UnixStr};

/// A call as one side makes it. The number that it returns is a digest of its result.
pub type Side = fn(&[u8], &[u8]) -> u64;

/// A call on both sides.
pub struct Row {
    pub name: &'static str,
    pub other: Other,
    pub ours: Side,
    pub std: Side,
}

const fn row(name: &'static str, other: Other, ours: Side, std: Side) -> Row {
    Row {
        name,
        other,
        ours,
        std,
    }
}

/// Returns the digest of some bytes, computed from their length, first byte and last byte.
pub fn digest(bytes: &[u8]) -> u64 {
    let (Some(first), Some(last)) = (bytes.first(), bytes.last()) else {
        return 0;
    };
    let ends = u64::from(*first) * 256 + u64::from(*last);
    (bytes.len() as u64).wrapping_mul(65_599).wrapping_add(ends)
}

/// Returns the bytes as our path.
pub fn path(bytes: &[u8]) -> &ours::Path {
    ours::Path::new(bytes)
}

/// Returns the bytes as a path of std.
pub fn std_path(bytes: &[u8]) -> &Path {
    Path::new(OsStr::from_bytes(bytes))
}

/// Returns the digest of a `Path`, a `PathBuf` or an `OsStr`.
fn of(path: impl AsRef<OsStr>) -> u64 {
    digest(path.as_ref().as_bytes())
}

/// Returns the digest of our `Path`, `PathBuf` or `UnixStr`.
fn our(path: impl AsRef<UnixStr>) -> u64 {
    digest(path.as_ref().as_bytes())
}

/// Returns the digest of a result, or `u64::MAX` if there is none.
fn some<T: AsRef<UnixStr>>(found: Option<T>) -> u64 {
    found.map_or(u64::MAX, our)
}

/// Returns the same for a result of std.
fn some_of<T: AsRef<OsStr>>(found: Option<T>) -> u64 {
    found.map_or(u64::MAX, of)
}

/// Returns a digest of several results.
fn all<'a>(items: impl Iterator<Item = &'a [u8]>) -> u64 {
    items.fold(0, |sum: u64, item| {
        sum.wrapping_mul(31).wrapping_add(digest(item))
    })
}

fn bytes_of<'a>(part: Component<'a>) -> &'a [u8] {
    part.as_os_str().as_bytes()
}

fn our_bytes<'a>(part: ours::Component<'a>) -> &'a [u8] {
    part.as_unix_str().as_bytes()
}

/// Takes items from both ends, alternating. Returns a digest of them.
fn both_ends<'a, I: Iterator<Item = &'a [u8]> + DoubleEndedIterator>(mut left: I) -> u64 {
    let mut sum = 0_u64;
    while let Some(first) = left.next() {
        let last = left.next_back().map_or(0, digest);
        sum = sum.wrapping_mul(31).wrapping_add(digest(first) ^ last);
    }
    sum
}

fn canonical(path: &[u8]) -> PathBuf {
    std_path(path).components().collect()
}

/// Resolves a path, for which std has no call: a name is pushed, and `..` pops a name, is dropped
/// after the root, or stays if there is nothing to pop.
fn resolved(path: &[u8]) -> PathBuf {
    let mut kept = PathBuf::with_capacity(path.len());
    for part in std_path(path).components() {
        match (part, kept.components().next_back()) {
            (Component::CurDir, _) | (Component::ParentDir, Some(Component::RootDir)) => {}
            (Component::ParentDir, Some(Component::Normal(_))) => {
                kept.pop();
            }
            (part, _) => kept.push(part),
        }
    }
    kept
}

/// Pushes the other path onto a copy of the path and pops, four times.
fn push_pop(of: &[u8], other: &[u8]) -> u64 {
    let mut edited = path(of).to_path_buf();
    (0..4).fold(0_u64, |sum, _| {
        edited.push(other);
        let pushed = our(&edited);
        let popped = u64::from(edited.pop());
        sum.wrapping_mul(31)
            .wrapping_add(pushed ^ popped ^ our(&edited))
    })
}

/// The same over std.
fn std_push_pop(path: &[u8], other: &[u8]) -> u64 {
    let mut edited = std_path(path).to_path_buf();
    (0..4).fold(0_u64, |sum, _| {
        edited.push(std_path(other));
        let pushed = of(&edited);
        let popped = u64::from(edited.pop());
        sum.wrapping_mul(31)
            .wrapping_add(pushed ^ popped ^ of(&edited))
    })
}

/// Sets the extension of a copy of the path.
fn set_extension(of: &[u8], extension: &[u8]) -> u64 {
    let mut edited = path(of).to_path_buf();
    let is_set = edited.set_extension(extension);
    our(&edited) ^ u64::from(is_set)
}

/// The same over std.
fn std_set_extension(path: &[u8], extension: &[u8]) -> u64 {
    let mut edited = std_path(path).to_path_buf();
    let is_set = edited.set_extension(OsStr::from_bytes(extension));
    of(&edited) ^ u64::from(is_set)
}

fn key_and_back(of: &[u8]) -> u64 {
    some(ours::PathBuf::from_key(&path(of).key()).ok())
}

fn sip_hash(path: &[u8]) -> u64 {
    let mut hasher = DefaultHasher::new();
    std_path(path).hash(&mut hasher);
    hasher.finish()
}

fn equal(a: &[u8], b: &[u8]) -> u64 {
    (path(a) == path(b)).into()
}

fn std_equal(path: &[u8], other: &[u8]) -> u64 {
    (std_path(path) == std_path(other)).into()
}

fn compare(a: &[u8], b: &[u8]) -> u64 {
    path(a).cmp(path(b)) as u64
}

fn std_compare(path: &[u8], other: &[u8]) -> u64 {
    std_path(path).cmp(std_path(other)) as u64
}

/// Returns a digest of the lengths of chunks, each with its invalid bytes.
fn lengths(chunks: impl Iterator<Item = (usize, usize)>) -> u64 {
    chunks.fold(0, |sum: u64, (valid, invalid)| {
        sum.wrapping_mul(31)
            .wrapping_add((valid + invalid * 7) as u64)
    })
}

/// Every row, in the order of the table.
#[rustfmt::skip]
pub const ROWS: &[Row] = &[
    row("components", Other::Nothing,
        |p, _| all(path(p).components().map(our_bytes)),
        |path, _| all(std_path(path).components().map(bytes_of))),
    row("components, last to first", Other::Nothing,
        |p, _| all(path(p).components().rev().map(our_bytes)),
        |path, _| all(std_path(path).components().rev().map(bytes_of))),
    row("components, from both ends", Other::Nothing,
        |p, _| both_ends(path(p).components().map(our_bytes)),
        |path, _| both_ends(std_path(path).components().map(bytes_of))),
    row("as_path after a step", Other::Nothing,
        |p, _| { let mut left = path(p).components(); left.next(); our(left.as_path()) },
        |path, _| { let mut left = std_path(path).components(); left.next(); of(left.as_path()) }),
    row("ancestors", Other::Nothing,
        |p, _| all(path(p).ancestors().map(|it| it.as_bytes())),
        |path, _| all(std_path(path).ancestors().map(|it| it.as_os_str().as_bytes()))),
    row("parent", Other::Nothing,
        |p, _| some(path(p).parent()), |path, _| some_of(std_path(path).parent())),
    row("file_name", Other::Nothing,
        |p, _| some(path(p).file_name()), |path, _| some_of(std_path(path).file_name())),
    row("file_stem", Other::Nothing,
        |p, _| some(path(p).file_stem()), |path, _| some_of(std_path(path).file_stem())),
    row("extension", Other::Nothing,
        |p, _| some(path(p).extension()), |path, _| some_of(std_path(path).extension())),
    row("file_prefix", Other::Nothing,
        |p, _| some(path(p).file_prefix()), |path, _| some_of(std_path(path).file_prefix())),
    row("starts_with", Other::Front,
        |p, base| path(p).starts_with(base).into(),
        |path, base| std_path(path).starts_with(std_path(base)).into()),
    row("strip_prefix", Other::Front,
        |p, base| some(path(p).strip_prefix(base).ok()),
        |path, base| some_of(std_path(path).strip_prefix(std_path(base)).ok())),
    row("ends_with", Other::Back,
        |p, child| path(p).ends_with(child).into(),
        |path, child| std_path(path).ends_with(std_path(child)).into()),
    row("equal: a copy", Other::Same, equal, std_equal),
    row("equal: the next path", Other::Next, equal, std_equal),
    row("equal: another spelling", Other::Respelled, equal, std_equal),
    row("compare: a copy", Other::Same, compare, std_compare),
    row("compare: the next path", Other::Next, compare, std_compare),
    row("compare: another spelling", Other::Respelled, compare, std_compare),
    row("hash; SipHash", Other::Nothing, |path, _| calls::hash(path), |path, _| sip_hash(path)),
    row("join", Other::Name,
        |p, other| our(path(p).join(other)),
        |path, other| of(std_path(path).join(std_path(other)))),
    row("with_file_name", Other::Name,
        |p, name| our(path(p).with_file_name(name)),
        |path, name| of(std_path(path).with_file_name(OsStr::from_bytes(name)))),
    row("with_extension", Other::Extension,
        |p, end| our(path(p).with_extension(end)),
        |path, end| of(std_path(path).with_extension(OsStr::from_bytes(end)))),
    row("with_added_extension", Other::Extension,
        |p, end| our(path(p).with_added_extension(end)),
        |path, end| of(std_path(path).with_added_extension(OsStr::from_bytes(end)))),
    row("push and pop", Other::Name, push_pop, std_push_pop),
    row("set_extension", Other::Extension, set_extension, std_set_extension),
    row("canonical", Other::Nothing,
        |p, _| our(path(p).canonical()), |path, _| of(canonical(path))),
    row("resolved", Other::Nothing,
        |p, _| our(path(p).resolved()), |path, _| of(resolved(path))),
    row("key and back; canonical", Other::Nothing,
        |path, _| key_and_back(path), |path, _| of(canonical(path))),
];

/// The rows of calls that read text.
#[rustfmt::skip]
pub const TEXT_ROWS: &[Row] = &[
    row("to_str", Other::Nothing,
        |path, _| calls::is_utf8(path).into(), |path, _| std_path(path).to_str().is_some().into()),
    row("to_string_lossy", Other::Nothing,
        |p, _| path(p).to_string_lossy().len() as u64,
        |path, _| std_path(path).to_string_lossy().len() as u64),
    row("chunks", Other::Nothing,
        |p, _| lengths(UnixStr::new(p).chunks().map(|it| (it.valid.len(), it.broken.len()))),
        |path, _| lengths(path.utf8_chunks().map(|it| (it.valid().len(), it.invalid().len())))),
];
