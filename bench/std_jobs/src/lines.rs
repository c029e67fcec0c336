//! Consecutive byte strings in one buffer.
use std::ffi::OsStr;
use std::os::unix::ffi::OsStrExt;
use std::path::Path;

/// Returns the bytes as a path.
pub fn path_of(bytes: &[u8]) -> &Path {
    Path::new(OsStr::from_bytes(bytes))
}

#[derive(Default)]
pub struct Lines {
    bytes: Vec<u8>,
    ends: Vec<usize>,
}

impl Lines {
    /// Returns the buffer, to which the caller appends the bytes of the next line. `end_line` ends
    /// that line.
    pub fn buffer(&mut self) -> &mut Vec<u8> {
        &mut self.bytes
    }

    pub fn end_line(&mut self) {
        self.ends.push(self.bytes.len());
    }

    /// Returns the lines as paths.
    pub fn paths(&self) -> Vec<&Path> {
        let starts = std::iter::once(0).chain(self.ends.iter().copied());
        starts
            .zip(&self.ends)
            .map(|(start, end)| path_of(&self.bytes[start..*end]))
            .collect()
    }
}
