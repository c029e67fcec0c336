//! A digest of results: lengths and bytes folded into one number, as `crates/path_jobs` does.
use std::ffi::OsStr;
use std::os::unix::ffi::OsStrExt;
use std::path::Path;

#[derive(Default)]
pub struct Digest {
    state: u64,
}

impl Digest {
    pub fn add(&mut self, number: u64) {
        self.state = (self.state.rotate_left(5) ^ number).wrapping_mul(0x517C_C1B7_2722_0A95);
    }

    pub fn add_flag(&mut self, flag: bool) {
        self.add(u64::from(flag));
    }

    /// Adds the bytes, eight at a time, and their number.
    pub fn add_bytes(&mut self, bytes: &[u8]) {
        let (words, rest) = bytes.as_chunks::<8>();
        for word in words {
            self.add(u64::from_le_bytes(*word));
        }
        let last = rest.iter().fold(bytes.len() as u64, |last, byte| {
            (last << 8) | u64::from(*byte)
        });
        self.add(last);
    }

    pub fn add_path(&mut self, path: &Path) {
        self.add_bytes(path.as_os_str().as_bytes());
    }

    /// Adds the text, or the greatest number of 64 bits if there is none.
    pub fn add_text(&mut self, text: Option<&OsStr>) {
        match text {
            Some(text) => self.add_bytes(text.as_bytes()),
            None => self.add(u64::MAX),
        }
    }

    pub fn get(&self) -> u64 {
        self.state
    }
}
