//! Long and awkward paths: many components, runs of filler, lists of edits, and invalid bytes.
use crate::digest::Digest;
use crate::lines::path_of;
use crate::manifest::canonical;
use crate::random::Random;
use std::path::{Component, Path, PathBuf};

/// The number of names in a deep path, which has about 3,800 bytes.
const NAMES: usize = 850;

/// What long runs repeat: filler, a name and a `..`.
static IDLE: [&str; 8] = ["/.", "./", "//", "/./", "/", "/./././", "/a", "/.."];

/// Text of several scripts, and invalid bytes: Latin-1, a truncated character, a surrogate.
static TEXTS: [&[u8]; 16] = [
    b"plain-name",
    b"na\xC3\xAFve",
    b"\xC3\x9Cbersicht",
    b"\xD1\x84\xD0\xB0\xD0\xB9\xD0\xBB",
    b"\xE6\x96\x87\xE4\xBB\xB6\xE5\xA4\xB9",
    b"\xCE\xBB",
    b"\xF0\x9F\x93\x81",
    b"archive.tar",
    b"\xEF\xBC\x9A",
    b"data",
    b"\xE3\x83\x87\xE3\x83\xBC\xE3\x82\xBF",
    b"old",
    b"caf\xE9",
    b"\xE2\x82",
    b"\xED\xA0\x80",
    b"\xFF",
];

/// An edit of a path.
enum Edit {
    Push(&'static str),
    Pop,
    SetFileName(&'static str),
    SetExtension(&'static str),
    AddExtension(&'static str),
}

/// Sets the bytes to a path of many names of one to six letters, one in eight after a `.`.
pub fn make_deep(bytes: &mut Vec<u8>, random: &mut Random) {
    bytes.clear();
    for _ in 0..NAMES {
        let word = random.next();
        bytes.extend_from_slice(if word & 7 == 0 { b"/./" } else { b"/" });
        let letters = (((word >> 8) & 0x0F0F_0F0F_0F0F) | 0x6161_6161_6161).to_le_bytes();
        let len = 1 + (word >> 60) as usize % 6;
        bytes.extend_from_slice(&letters[..len]);
    }
}

/// Sets the bytes to 16 runs of about 22,500 bytes in all, three in four of them of filler.
fn make_filler(bytes: &mut Vec<u8>, random: &mut Random) {
    bytes.clear();
    bytes.push(b'x');
    for _ in 0..16 {
        let word = random.next();
        let piece = IDLE[(word & 7) as usize].as_bytes();
        for _ in 0..(word >> 8) & 1023 {
            bytes.extend_from_slice(piece);
        }
    }
}

/// Sets the bytes to a path of a dozen names made of texts. About one path in 16 has invalid bytes.
fn make_text(bytes: &mut Vec<u8>, random: &mut Random) {
    bytes.clear();
    for _ in 0..12 {
        let word = random.next();
        let least = if word & 63 == 0 { 12 } else { 0 };
        bytes.push(b'/');
        bytes.extend_from_slice(TEXTS[(((word >> 8) % 12 + least) & 15) as usize]);
        if (word >> 32) & 1 == 0 {
            bytes.extend_from_slice(b"_and_plain.text");
        }
    }
}

/// Adds the length and the kind of a component.
fn add_part(part: Option<Component>, digest: &mut Digest) {
    digest.add(match part {
        Some(Component::Normal(name)) => 8 | ((name.len() as u64) << 4),
        Some(Component::RootDir) => 1,
        Some(Component::CurDir) => 2,
        Some(Component::ParentDir) => 3,
        // No path on Unix has a prefix.
        Some(Component::Prefix(_)) | None => 4,
    });
}

/// Walks the path from the front, from the back, and from both ends, alternating.
fn walk(path: &Path, digest: &mut Digest) {
    for part in path.components() {
        add_part(Some(part), digest);
    }
    for part in path.components().rev() {
        add_part(Some(part), digest);
    }
    let mut walk = path.components();
    for _ in 0..NAMES {
        let first = walk.next();
        let last = walk.next_back();
        if first.is_none() {
            return;
        }
        add_part(first, digest);
        add_part(last, digest);
    }
}

/// Compares the path with its canonical form, and with a path that has one more component.
fn compare(path: &Path, digest: &mut Digest) {
    let mut other = canonical(path);
    digest.add_path(&other);
    digest.add_flag(other == path);
    digest.add_flag(path.starts_with(&other));
    other.push("zz");
    digest.add_flag(path < other.as_path());
    digest.add_flag(other == path);
    if let Ok(rest) = other.strip_prefix(path) {
        digest.add_path(rest);
    }
}

/// Returns the edit that a random word represents. Nearly one in three is a pop.
fn edit_of(word: u64) -> Edit {
    match word & 15 {
        0..=4 => Edit::Pop,
        5 | 6 => Edit::SetExtension("tmp"),
        7 => Edit::AddExtension("gz"),
        8 | 9 => Edit::SetFileName("renamed.txt"),
        10 => Edit::Push("./inner//folder"),
        11 => Edit::Push(".."),
        12 => Edit::SetExtension(""),
        _ => Edit::Push("name.orig"),
    }
}

/// Makes one edit. Returns its result, or `None` for an edit that always succeeds.
fn apply_one(path: &mut PathBuf, edit: &Edit) -> Option<bool> {
    match edit {
        Edit::Push(other) => {
            path.push(other);
            None
        }
        Edit::Pop => Some(path.pop()),
        Edit::SetFileName(name) => {
            path.set_file_name(name);
            None
        }
        Edit::SetExtension(extension) => Some(path.set_extension(extension)),
        Edit::AddExtension(extension) => Some(path.add_extension(extension)),
    }
}

/// Applies ten thousand edits to a copy of the path.
fn edit(path: &Path, random: &mut Random, digest: &mut Digest) {
    let edits: Vec<Edit> = (0..10_000).map(|_| edit_of(random.next())).collect();
    let mut edited = path.to_path_buf();
    let answers: Vec<Option<bool>> = edits
        .iter()
        .map(|edit| apply_one(&mut edited, edit))
        .collect();
    for answer in answers {
        digest.add_flag(answer == Some(true));
    }
    digest.add_path(&edited);
}

/// Writes the path as text. If it is valid UTF-8, also makes a string of it, like a JSON value, and
/// a path from that string.
fn show(path: &Path, digest: &mut Digest) {
    digest.add_bytes(path.to_string_lossy().as_bytes());
    digest.add_bytes(format!("{}", path.display()).as_bytes());
    match path.to_str().map(str::to_owned) {
        Some(value) => digest.add_path(&PathBuf::from(value.as_str())),
        None => digest.add(6),
    }
}

/// Walks and compares `count` deep paths, and writes for each, as text, twenty paths with names in
/// several scripts. For one in 32, it also applies a list of edits, and walks and compares a path
/// with long runs of filler.
pub fn run(seed: u64, count: u64) -> u64 {
    let mut digest = Digest::default();
    let mut random = Random::new(seed);
    let mut bytes = Vec::new();
    for place in 0..count {
        make_deep(&mut bytes, &mut random);
        walk(path_of(&bytes), &mut digest);
        compare(path_of(&bytes), &mut digest);
        if place % 32 == 0 {
            edit(path_of(&bytes), &mut random, &mut digest);
            make_filler(&mut bytes, &mut random);
            walk(path_of(&bytes), &mut digest);
            compare(path_of(&bytes), &mut digest);
        }
        for _ in 0..20 {
            make_text(&mut bytes, &mut random);
            show(path_of(&bytes), &mut digest);
        }
    }
    digest.get()
}
