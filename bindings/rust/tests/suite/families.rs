//! A million pairs of random paths that share most of their bytes, compared with `std::path`. The
//! paths are in families: one path and paths made from it by one change each, with names of about
//! one, two and four blocks of 16 bytes.
use crate::pairs::are_compared;

/// The number of families for each length of names, and the number of paths in a family.
const FAMILIES: usize = 1_303;
const PATHS: usize = 16;

/// The strings that a path may begin with, that may be between two names, and that a change may
/// insert into a path.
const FRONTS: [&str; 4] = ["", "/", "./", "../"];
const SEPARATORS: [&str; 4] = ["/", "/", "//", "/./"];
const INSERTED: [&str; 16] = [
    "", "", "", "/", "//", "/.", "./", "/./", "..", "../", "/..", ".", "...", "a", "z", "n",
];

/// Returns the index of the first slash at or after `at`, or the end if there is none.
fn slash_from(bytes: &[u8], at: usize) -> usize {
    let found = bytes[at..].iter().position(|byte| *byte == b'/');
    found.map_or(bytes.len(), |behind| at + behind)
}

/// The numbers of splitmix64, the same in every run.
struct Random(u64);

impl Random {
    /// Returns a number less than `end`.
    fn below(&mut self, end: usize) -> usize {
        self.0 = self.0.wrapping_add(0x9E37_79B9_7F4A_7C15);
        let mixed = (self.0 ^ self.0 >> 30).wrapping_mul(0xBF58_476D_1CE4_E5B9);
        let mixed = (mixed ^ mixed >> 27).wrapping_mul(0x94D0_49BB_1331_11EB);
        ((mixed ^ mixed >> 31) >> 32) as usize % end
    }

    fn one_of<'a>(&mut self, texts: &[&'a str]) -> &'a str {
        texts[self.below(texts.len())]
    }

    /// Returns a name of letters with up to three dots on each side. Its length differs from
    /// `length` by at most two.
    fn name(&mut self, length: usize) -> String {
        let [front, behind] = [self.below(6), self.below(6)].map(|dots| dots.saturating_sub(2));
        let letters = length - 2 + self.below(5) - front - behind;
        [".".repeat(front), "n".repeat(letters), ".".repeat(behind)].concat()
    }

    /// Returns a path with one of the `FRONTS` and then two or three names. At most two of the
    /// names differ.
    fn path(&mut self, length: usize) -> Vec<u8> {
        let names = [self.name(length), self.name(length)];
        let mut path = self.one_of(&FRONTS).to_owned() + &names[0];
        for _ in 0..=self.below(2) {
            path += self.one_of(&SEPARATORS);
            path += &names[self.below(2)];
        }
        path.into_bytes()
    }

    /// Returns the path with one of the strings `INSERTED` (some are empty): anywhere, at a slash,
    /// right after a slash, or at an end of the path. It may replace bytes that were there.
    fn changed(&mut self, path: &[u8]) -> Vec<u8> {
        let any = self.below(path.len());
        let (front, behind) = path.split_at(match self.below(8) {
            0..=2 => any,
            3 => slash_from(path, any),
            4 | 5 => path.len().min(slash_from(path, any) + 1),
            6 => path.len(),
            _ => 0,
        });
        let cut = match self.below(8) {
            0..=2 => 0,
            3 | 4 => 1,
            5 => slash_from(behind, 0),
            6 => slash_from(behind, 0) + 1,
            _ => behind.len(),
        };
        let kept = &behind[cut.min(behind.len())..];
        [front, self.one_of(&INSERTED).as_bytes(), kept].concat()
    }
}

#[test]
fn members_are_compared() {
    for length in [16, 32, 64] {
        let mut random = Random(23);
        for _ in 0..FAMILIES {
            let first = random.path(length);
            let mut family: Vec<_> = (1..PATHS).map(|_| random.changed(&first)).collect();
            family.push(first);
            for a in &family {
                family.iter().for_each(|b| are_compared(a, b));
            }
        }
    }
}
