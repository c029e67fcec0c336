//! The paths of a synthetic file tree, as `crates/path_jobs` makes them. A file is identified by
//! its number.
use crate::random::mix;

#[rustfmt::skip]
static WORDS: [&str; 64] = [
    "accept", "adapter", "async", "backend", "base", "buffer", "build", "cache", "channel",
    "client", "codec", "common", "config", "core", "decoder", "device", "driver", "encoder",
    "engine", "event", "filter", "format", "graph", "handler", "header", "hook", "image", "index",
    "input", "journal", "kernel", "layout", "library", "locale", "memory", "message", "network",
    "object", "output", "packet", "parser", "plugin", "pool", "query", "queue", "record", "render",
    "router", "schema", "script", "server", "session", "signal", "socket", "storage", "stream",
    "task", "thread", "token", "trace", "update", "vector", "version", "worker",
];

#[rustfmt::skip]
static ENDINGS: [&str; 16] = [
    ".rs", ".c", ".h", ".cpp", ".py", ".md", ".json", ".tar.gz", ".test.ts", "", ".html", ".yaml",
    ".o", ".txt", ".so.1", ".js",
];

/// A tree of 2^20 files below one directory, whose names are derived from the seed.
#[derive(Clone, Copy)]
pub struct Tree<'a> {
    prefix: &'a str,
    seed: u64,
}

/// Returns the separator between two names or after the last one: `/`, or more if the lowest three
/// bits of `noise` are 5 or greater.
pub fn separator(noise: u64) -> &'static str {
    match noise & 7 {
        5 => "//",
        6 => "/./",
        7 => "/.//",
        _ => "/",
    }
}

/// Returns noise that gives a path another spelling, in one or two places.
pub fn noise_of(random: u64) -> u64 {
    let first = match (random >> 8) & 3 {
        0 => 5 + random % 3,
        1 => (5 + random % 3) << 3,
        _ => (5 + random % 3) << 21,
    };
    let second = (5 + (random >> 16) % 3) << (3 * ((random >> 24) & 7));
    first | second
}

fn push_text(out: &mut Vec<u8>, text: &str) {
    out.extend_from_slice(text.as_bytes());
}

/// Appends a dot and the lowest 24 bits of the tag as six letters.
pub fn push_tag(out: &mut Vec<u8>, tag: u64) {
    out.push(b'.');
    out.extend((0..6).map(|place| b'a' + ((tag >> (4 * place)) & 15) as u8));
}

impl<'a> Tree<'a> {
    pub fn new(prefix: &'a str, seed: u64) -> Tree<'a> {
        let seed = mix(seed);
        Tree { prefix, seed }
    }

    /// Appends a name of one or two words. `place` identifies the file or directory. The first word
    /// is among the `span` of the 64 words that begin at `first`.
    fn push_name(self, out: &mut Vec<u8>, place: u64, first: u64, span: u64) {
        let random = mix(self.seed ^ place);
        push_text(out, WORDS[((first + random % span) & 63) as usize]);
        if (random >> 32) & 1 == 0 {
            out.push(if (random >> 33) & 1 == 0 { b'-' } else { b'_' });
            push_text(out, WORDS[((random >> 34) & 63) as usize]);
        }
    }

    /// Appends the names of the directories of a file, each with a separator before it.
    fn push_folders(self, out: &mut Vec<u8>, number: u64, noise: u64) {
        push_text(out, separator(noise));
        self.push_name(
            out,
            (1 << 32) | (number >> 17),
            ((number >> 17) & 7) << 3,
            8,
        );
        push_text(out, separator(noise >> 3));
        self.push_name(
            out,
            (2 << 32) | (number >> 15),
            ((number >> 15) & 3) << 4,
            16,
        );
        push_text(out, separator(noise >> 6));
        self.push_name(
            out,
            (3 << 32) | (number >> 13),
            ((number >> 13) & 3) << 4,
            16,
        );
    }

    /// Appends the names of a file's inner directories, each with a separator before it.
    fn push_inner(self, out: &mut Vec<u8>, number: u64, noise: u64) {
        push_text(out, separator(noise >> 9));
        self.push_name(
            out,
            (4 << 32) | (number >> 10),
            ((number >> 10) & 7) << 3,
            8,
        );
        push_text(out, separator(noise >> 12));
        self.push_name(out, (5 << 32) | (number >> 7), ((number >> 7) & 7) << 3, 8);
        push_text(out, separator(noise >> 15));
        self.push_name(out, (6 << 32) | (number >> 4), ((number >> 4) & 7) << 3, 8);
    }

    /// Returns true if the file is in a directory of 8,192 files, as one in eight is. The other
    /// files are in directories of 16.
    pub fn is_in_large(self, number: u64) -> bool {
        mix(self.seed ^ (number >> 13)) & 7 == 0
    }

    /// Appends a file's name and its ending. One name in a hundred has an invalid byte.
    fn push_file(self, out: &mut Vec<u8>, number: u64, is_in_large: bool) {
        let random = mix(self.seed ^ ((7 << 32) | number));
        let place = (8 << 32) | number;
        if is_in_large {
            self.push_name(out, place, (number >> 7) & 63, 1);
            let digits = number & 8191;
            out.extend([1000, 100, 10, 1].map(|unit| b'0' + (digits / unit % 10) as u8));
        } else {
            self.push_name(out, place, (number & 15) << 2, 4);
        }
        if random.is_multiple_of(100) {
            out.push(0xE9);
        }
        push_text(out, ENDINGS[((random >> 32) & 15) as usize]);
    }

    /// Appends the path of a file, with the directory of the tree. Without noise, the path is in
    /// canonical form. Each separator uses three bits of the noise, from the lowest up; the
    /// separator after the file's name uses three bits from the 22nd on.
    pub fn push(self, out: &mut Vec<u8>, number: u64, noise: u64) {
        let is_in_large = self.is_in_large(number);
        push_text(out, self.prefix);
        self.push_folders(out, number, noise);
        if !is_in_large {
            self.push_inner(out, number, noise);
        }
        push_text(out, separator(noise >> 18));
        self.push_file(out, number, is_in_large);
        if (noise >> 21) & 7 != 0 {
            push_text(out, separator(noise >> 21));
        }
    }

    /// Appends a name determined by the highest bits of the number.
    pub fn push_first(self, out: &mut Vec<u8>, number: u64) {
        self.push_name(out, (9 << 32) | (number >> 12), 0, 64);
    }

    /// Appends one to five names determined by the number, each with a separator before it, a tag
    /// and an ending.
    pub fn push_short(self, out: &mut Vec<u8>, number: u64, noise: u64, tag: u64) {
        for level in 0..1 + number % 5 {
            push_text(out, separator(noise >> (3 * level)));
            self.push_name(out, ((10 + level) << 32) | (number >> 5), 0, 64);
        }
        push_tag(out, tag);
        push_text(out, ENDINGS[((number >> 8) & 15) as usize]);
    }
}

/// Returns the number of the file at index `place` of an order that looks random. The indices below
/// 2^19 have all even numbers below 2^20, each once.
pub fn shuffled(place: u64, seed: u64) -> u64 {
    (place.wrapping_mul(0x9E37_79B9).wrapping_add(seed) & 0x7_FFFF) << 1
}
