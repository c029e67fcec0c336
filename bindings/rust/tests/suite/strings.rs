//! The byte strings of the tests, as our types and as types of std.
use std::ffi::OsStr;
use std::os::unix::ffi::OsStrExt;
use unix_path_proved::{Path, UnixStr};

/// Returns the strings of at most `longest` of these bytes, shorter ones first.
pub fn over(letters: &[u8], longest: usize) -> Vec<Vec<u8>> {
    let mut strings = vec![vec![]];
    let mut at = 0;
    while strings[at].len() < longest {
        for letter in letters {
            let longer = [&strings[at][..], &[*letter]].concat();
            strings.push(longer);
        }
        at += 1;
    }
    strings
}

/// Returns the strings of at most `longest` bytes over `/`, `.` and `a`, shorter ones first.
pub fn short(longest: usize) -> Vec<Vec<u8>> {
    over(b"/.a", longest)
}

/// Numbers that look random, the same in every run (xorshift64).
pub struct Random(u64);

impl Random {
    pub fn new() -> Random {
        Random(0x2545_F491_4F6C_DD1D)
    }

    /// Returns a number less than `end`.
    pub fn below(&mut self, end: usize) -> usize {
        self.0 ^= self.0 << 13;
        self.0 ^= self.0 >> 7;
        self.0 ^= self.0 << 17;
        (self.0 >> 16) as usize % end
    }

    /// Returns up to 24 bytes: half of them `/` or `.`, and the rest letters, NUL, a newline, a
    /// quote, and bytes that may form UTF-8.
    pub fn string(&mut self) -> Vec<u8> {
        let letters = b"////...//.ab\0\n\"\xC3\xA9\xE2\x82\xAC\xFF";
        (0..self.below(25))
            .map(|_| letters[self.below(letters.len())])
            .collect()
    }

    /// Returns a string that shares its beginning, its end, or all of its bytes with `s`. Sometimes
    /// bytes are inserted that may leave the components unchanged.
    pub fn variant(&mut self, s: &[u8]) -> Vec<u8> {
        let cut = self.below(s.len() + 1);
        let kept = [&s[..cut], &s[cut..], s][self.below(3)];
        let at = self.below(kept.len() + 1);
        let more = [&b""[..], b"/", b"/./", b"."][self.below(4)];
        [&kept[..at], more, &kept[at..]].concat()
    }
}

/// Returns random strings, the same in every run.
pub fn random(count: usize) -> Vec<Vec<u8>> {
    let mut random = Random::new();
    (0..count).map(|_| random.string()).collect()
}

pub fn ours(bytes: &[u8]) -> &Path {
    Path::new(bytes)
}

pub fn theirs(bytes: &[u8]) -> &std::path::Path {
    std::path::Path::new(OsStr::from_bytes(bytes))
}

/// Returns the bytes of our path or text.
pub fn bytes<S: AsRef<UnixStr> + ?Sized>(text: &S) -> &[u8] {
    text.as_ref().as_bytes()
}

/// Returns the bytes of a path or text of std.
pub fn std_bytes<S: AsRef<OsStr> + ?Sized>(text: &S) -> &[u8] {
    text.as_ref().as_bytes()
}

/// Returns the bytes, and where they are in the path's memory. Empty bytes have no place, and
/// neither has what isn't part of the path, such as the text of a root.
pub fn place<'a>(found: &'a [u8], path: &[u8]) -> (&'a [u8], Option<usize>) {
    let at = (found.as_ptr() as usize).wrapping_sub(path.as_ptr() as usize);
    let is_inside = !found.is_empty() && at < path.len();
    (found, is_inside.then_some(at))
}

/// Checks that both results are the same bytes at the same index of the path.
#[track_caller]
pub fn same_place<S, T>(ours: Option<&S>, theirs: Option<&T>, path: &[u8])
where
    S: AsRef<UnixStr> + ?Sized,
    T: AsRef<OsStr> + ?Sized,
{
    let ours = ours.map(|ours| place(bytes(ours), path));
    let theirs = theirs.map(|theirs| place(std_bytes(theirs), path));
    assert_eq!(
        ours,
        theirs,
        "{}",
        path[..path.len().min(99)].escape_ascii()
    );
}

#[test]
fn are_what_they_say() {
    let want: [&[u8]; 7] = [b"", b"/", b"a", b"//", b"/a", b"a/", b"aa"];
    assert_eq!(over(b"/a", 2), want);
    assert_eq!(
        short(6).len(),
        (0..=6).map(|length| 3_usize.pow(length)).sum::<usize>()
    );
    let strings = random(1000);
    assert!(strings.iter().any(|s| s.len() == 24) && strings.iter().any(Vec::is_empty));
    assert!(strings.iter().any(|s| std::str::from_utf8(s).is_err()));
}
