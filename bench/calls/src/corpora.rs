//! The four corpora, from fixed seeds: every run sees the same bytes.
use crate::random::Random;
use std::ops::Range;

/// The number of bytes in a slice that is timed at once.
const SLICE: usize = 1 << 18;

/// The kind of the second argument that a call gets for each path of a corpus.
#[derive(Clone, Copy, PartialEq)]
pub enum Other {
    Nothing,
    Same,
    Next,
    Respelled,
    /// The path's components up to the middle.
    Front,
    /// The path's components from the middle on.
    Back,
    Name,
    Extension,
}

/// The paths of a corpus, and whether all of its texts are invalid UTF-8.
pub struct Corpus {
    pub name: &'static str,
    pub paths: Vec<Vec<u8>>,
    pub is_broken: bool,
}

impl Corpus {
    pub fn new(name: &'static str, paths: Vec<Vec<u8>>) -> Corpus {
        let is_broken = false;
        Corpus {
            name,
            paths,
            is_broken,
        }
    }

    /// Returns the second argument for each path.
    pub fn others(&self, other: Other) -> Vec<Vec<u8>> {
        let mut random = Random(77);
        let paths = self.paths.iter();
        match other {
            Other::Nothing => vec![],
            Other::Same => self.paths.clone(),
            Other::Next => {
                let mut others = self.paths.clone();
                others.rotate_left(1);
                others
            }
            Other::Respelled => paths
                .map(|path| other_spelling(path, &mut random))
                .collect(),
            Other::Front => paths.map(|path| at_middle(path).0.to_vec()).collect(),
            Other::Back => paths.map(|path| at_middle(path).1.to_vec()).collect(),
            Other::Name => paths.map(|_| b"docs/notes.txt".to_vec()).collect(),
            Other::Extension => paths.map(|_| b"orig".to_vec()).collect(),
        }
    }

    /// Cuts the list of paths into slices of about the same number of bytes. Returns the indices of
    /// each slice.
    pub fn slices(&self) -> Vec<Range<usize>> {
        let mut slices = vec![];
        let (mut start, mut bytes) = (0, 0);
        for (at, path) in self.paths.iter().enumerate() {
            bytes += path.len();
            if bytes >= SLICE || at + 1 == self.paths.len() {
                slices.push(start..at + 1);
                (start, bytes) = (at + 1, 0);
            }
        }
        slices
    }
}

/// Returns all four corpora.
pub fn corpora() -> Vec<Corpus> {
    let realistic = realistic(40_000);
    let non_utf8 = non_utf8(&realistic);
    [
        ("realistic", realistic),
        ("adversarial", adversarial()),
        ("deep", deep(500)),
        ("non_utf8", non_utf8),
    ]
    .into_iter()
    .map(|(name, paths)| Corpus::new(name, paths))
    .collect()
}

/// Returns the bytes before and after the middle one of the path's slashes. If the path has no
/// slash, both are the whole path.
fn at_middle(path: &[u8]) -> (&[u8], &[u8]) {
    let slashes: Vec<usize> = (0..path.len()).filter(|at| path[*at] == b'/').collect();
    match slashes.get(slashes.len() / 2) {
        Some(at) => (&path[..*at], &path[at + 1..]),
        None => (path, path),
    }
}

/// Returns a path with the same components and more slashes and dots between them.
fn other_spelling(path: &[u8], random: &mut Random) -> Vec<u8> {
    let mut bytes = Vec::with_capacity(path.len() * 2);
    for byte in path {
        bytes.push(*byte);
        if *byte == b'/' {
            bytes.extend_from_slice(random.one_of(&["", "", "/", "./", "//./"]).as_bytes());
        }
    }
    if !path.is_empty() {
        bytes.extend_from_slice(random.one_of(&["", "/", "/."]).as_bytes());
    }
    bytes
}

#[rustfmt::skip]
const WORDS: [&str; 48] = [
    "accept", "async", "backend", "buffer", "build", "cache", "channel", "client", "codec",
    "common", "config", "core", "decoder", "device", "driver", "engine", "event", "filter",
    "format", "graph", "handler", "index", "input", "journal", "kernel", "layout", "memory",
    "network", "object", "output", "packet", "parser", "plugin", "query", "queue", "record",
    "render", "router", "schema", "server", "session", "signal", "socket", "storage", "stream",
    "thread", "update", "vector",
];

#[rustfmt::skip]
const ENDINGS: [&str; 12] = [
    ".rs", ".c", ".h", ".cpp", ".py", ".md", ".json", ".tar.gz", ".test.ts", "", ".html", ".yaml",
];

/// Returns a name of one to three words.
fn name(random: &mut Random) -> String {
    let mut name = random.one_of(&WORDS).to_string();
    for _ in 0..random.below(3) {
        name.push_str(random.one_of(&["_", "-"]));
        name.push_str(random.one_of(&WORDS));
    }
    name
}

/// Returns the sorted listing of a source tree, which grows at random directories until it has this
/// many files.
pub fn realistic(count: usize) -> Vec<Vec<u8>> {
    let mut random = Random(1);
    let mut folders = vec!["/home/build/checkout".to_string()];
    let mut paths = vec![];
    while paths.len() < count {
        let (one, other) = (random.one_of(&folders), random.one_of(&folders));
        let above = if one.len() < other.len() { one } else { other };
        let folder = format!("{above}/{}", name(&mut random));
        for _ in 0..1 + random.below(9) {
            let file = name(&mut random);
            paths.push(format!("{folder}/{file}{}", random.one_of(&ENDINGS)).into_bytes());
        }
        paths.push(folder.clone().into_bytes());
        folders.push(folder);
    }
    paths.sort();
    paths.dedup();
    paths
}

#[rustfmt::skip]
const PIECES: [&str; 16] = [
    "/", ".", "./", "../", "/.", "/..", "a/", "//a", "a/./", "a//", "./.", "./../", ".../", "a",
    "a.", "/././/",
];

/// The bytes before and after a run.
#[rustfmt::skip]
const ENDS: [(&str, &str); 5] = [("", ""), ("/", "/."), ("a", "/b"), ("../", "//"), ("./", "n.x")];

/// Returns paths with runs of 1 to 100,000 bytes of each of the pieces, between each of the `ENDS`.
/// The longest runs have nothing before or after them.
fn adversarial() -> Vec<Vec<u8>> {
    let mut paths = vec![];
    for piece in PIECES {
        for len in [1, 4, 17, 65, 257, 1_000, 4_000, 10_000, 100_000] {
            for (front, back) in &ENDS[..if len > 10_000 { 1 } else { ENDS.len() }] {
                let mut path = front.as_bytes().to_vec();
                path.extend(piece.bytes().cycle().take(len));
                path.extend_from_slice(back.as_bytes());
                paths.push(path);
            }
        }
    }
    Random(2).shuffle(&mut paths);
    paths
}

/// Returns sorted paths of about a thousand components and 4,096 bytes, each of which shares a
/// prefix with one before it.
fn deep(count: usize) -> Vec<Vec<u8>> {
    let mut random = Random(3);
    let mut paths: Vec<Vec<u8>> = vec![];
    while paths.len() < count {
        let mut path = match paths.last() {
            Some(last) => last[..random.below(4096)].to_vec(),
            None => vec![],
        };
        while path.len() < 4096 {
            path.push(b'/');
            for _ in 0..1 + random.below(5) {
                path.push(b'a' + random.below(26) as u8);
            }
        }
        path.truncate(4096);
        paths.push(path);
    }
    paths.sort();
    paths
}

/// Invalid bytes: FF, Latin-1, a truncated sequence, an overlong one, a surrogate, another
/// truncated one, and two continuation bytes.
#[rustfmt::skip]
const BROKEN: [&[u8]; 7] = [
    b"\xff", b"caf\xe9", b"\xe2\x82", b"\xc0\xaf", b"\xed\xa0\x80", b"\xf0\x9f\x93", b"\x80\x80",
];

/// Returns every second path of the listing, with texts of other scripts inserted. In three of four
/// of these paths, invalid bytes are inserted too.
fn non_utf8(listing: &[Vec<u8>]) -> Vec<Vec<u8>> {
    let texts = ["naïve", "Übersicht", "файл", "文件夹", "λ", "📁"];
    let mut random = Random(4);
    let mut paths = vec![];
    for path in listing.iter().step_by(2) {
        let mut path = path.clone();
        for _ in 0..1 + random.below(3) {
            insert(&mut path, random.one_of(&texts).as_bytes(), &mut random);
        }
        if random.below(4) > 0 {
            for _ in 0..1 + random.below(3) {
                insert(&mut path, random.one_of(&BROKEN), &mut random);
            }
        }
        paths.push(path);
    }
    paths.sort();
    paths
}

/// Inserts bytes after a random ASCII byte of the path.
fn insert(path: &mut Vec<u8>, bytes: &[u8], random: &mut Random) {
    let mut at = random.below(path.len());
    while !path[at].is_ascii() {
        at -= 1;
    }
    path.splice(at + 1..at + 1, bytes.iter().copied());
}
