//! Edits of a path in a `Vec`. If an edit fails, the path is unchanged.
//!
//! Each edit fails with [`Error::NoMemory`] if an allocation fails. `set_file_name`,
//! `set_extension` and `add_extension` allocate if the vector has no capacity for the result, and
//! also if the path and the argument have more than 255 bytes together.
use crate::calls::{file_name, parent};
use crate::error::Error;
use crate::ffi::MakeOfTwo;
use alloc::vec::Vec;

/// Results of at most this many bytes are made on the stack and then copied.
const SHORT: usize = 256;

/// Joins another path to the path, or replaces the path if the other has a root.
///
/// Allocates only if the vector has no capacity for `path.len() + 1 + other.len()` bytes; if it has
/// to grow, it grows as in [`Vec::reserve`]. The running time depends on the length of the other
/// path, not of the path.
///
/// ```
/// use unix_path_proved::calls::push;
/// let mut path = b"/tmp".to_vec();
/// push(&mut path, b"a").unwrap();
/// assert_eq!(path, b"/tmp/a");
/// push(&mut path, b"/etc").unwrap();
/// assert_eq!(path, b"/etc");
/// ```
#[inline]
pub fn push(path: &mut Vec<u8>, other: &[u8]) -> Result<(), Error> {
    if other.starts_with(b"/") {
        let more = other.len().saturating_sub(path.len());
        path.try_reserve(more).map_err(|_| Error::NoMemory)?;
        return MakeOfTwo::JOIN.write_after(path, 0, &[], other);
    }
    let more = other.len() + 1;
    path.try_reserve(more).map_err(|_| Error::NoMemory)?;
    // A join depends only on the last byte of the base: whether there is one, and whether it is a
    // slash. So only this byte is passed as the base, and the library writes it again.
    let last = path.last().copied();
    let base = last.as_slice();
    MakeOfTwo::JOIN.write_after(path, path.len() - base.len(), base, other)
}

/// Shortens the path to its parent, which removes the last component. Returns false and changes
/// nothing if the path has no component, or only the root. Does not allocate.
///
/// ```
/// use unix_path_proved::calls::pop;
/// let mut path = b"/a//b/".to_vec();
/// assert!(pop(&mut path));
/// assert_eq!(path, b"/a");
/// assert!(pop(&mut path) && !pop(&mut path));
/// assert_eq!(path, b"/");
/// ```
#[inline]
pub fn pop(path: &mut Vec<u8>) -> bool {
    match parent(path).map(<[u8]>::len) {
        Some(length) => {
            path.truncate(length);
            true
        }
        None => false,
    }
}

/// Replaces the file name, or joins the name to the path if it has no file name.
///
/// Allocates if the vector has no capacity for the result, and also if the path and the name have
/// more than 255 bytes together.
///
/// ```
/// use unix_path_proved::calls::set_file_name;
/// let mut path = b"/a/b/".to_vec();
/// set_file_name(&mut path, b"c").unwrap();
/// assert_eq!(path, b"/a/c");
/// ```
#[inline]
pub fn set_file_name(path: &mut Vec<u8>, name: &[u8]) -> Result<(), Error> {
    replace(path, MakeOfTwo::WITH_FILE_NAME, name)?;
    Ok(())
}

/// Replaces the extension of the file name, or adds one if there is none. An empty extension
/// removes the old one. Returns false and changes nothing if there is no file name.
///
/// Fails with `Separator` if and only if the extension contains a slash. Allocates as
/// [`set_file_name`] does.
///
/// ```
/// use unix_path_proved::{calls::set_extension, Error};
/// let mut path = b"a/b.c/".to_vec();
/// assert_eq!(set_extension(&mut path, b"d"), Ok(true));
/// assert_eq!(path, b"a/b.d");
/// assert_eq!(set_extension(&mut path, b"d/e"), Err(Error::Separator));
/// assert_eq!(path, b"a/b.d");
/// assert_eq!(set_extension(&mut b"..".to_vec(), b"d"), Ok(false));
/// ```
#[inline]
pub fn set_extension(path: &mut Vec<u8>, extension: &[u8]) -> Result<bool, Error> {
    // Without a file name the path is unchanged.
    let is_changed = replace(path, MakeOfTwo::WITH_EXTENSION, extension)?;
    Ok(is_changed || file_name(path).is_some())
}

/// Appends a dot and the extension to the file name. An empty extension changes nothing. Returns
/// false and changes nothing if there is no file name.
///
/// Fails with `Separator` if and only if the extension contains a slash. Allocates as
/// [`set_file_name`] does.
///
/// ```
/// use unix_path_proved::calls::add_extension;
/// let mut path = b"a/b.tar/".to_vec();
/// assert_eq!(add_extension(&mut path, b"gz"), Ok(true));
/// assert_eq!(path, b"a/b.tar.gz");
/// assert_eq!(add_extension(&mut b"..".to_vec(), b"gz"), Ok(false));
/// ```
#[inline]
pub fn add_extension(path: &mut Vec<u8>, extension: &[u8]) -> Result<bool, Error> {
    let is_changed = replace(path, MakeOfTwo::WITH_ADDED_EXTENSION, extension)?;
    Ok(is_changed || file_name(path).is_some())
}

/// Replaces the path with the result of the call on it and `other`. Returns true if the path
/// changed. The call may not overwrite what it reads, so it writes to other memory.
fn replace(path: &mut Vec<u8>, call: MakeOfTwo, other: &[u8]) -> Result<bool, Error> {
    let room = path.len() + 1 + other.len();
    if room > SHORT {
        let mut made = Vec::new();
        let room = room.max(path.capacity());
        made.try_reserve_exact(room).map_err(|_| Error::NoMemory)?;
        call.write(path, other, &mut made)?;
        let is_changed = made != *path;
        *path = made;
        return Ok(is_changed);
    }
    let mut out = [0; SHORT];
    let made = call.write(path, other, &mut out)?;
    let is_changed = made != path.as_slice();
    let more = made.len().saturating_sub(path.len());
    path.try_reserve(more).map_err(|_| Error::NoMemory)?;
    path.clear();
    path.extend_from_slice(made);
    Ok(is_changed)
}
