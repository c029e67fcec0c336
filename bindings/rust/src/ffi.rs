//! The calls of `libunix_path`, by their signatures, and conversions between bytes and views of
//! them. All `unsafe` code of this crate is in this module; the crate's page lists its lines.
//!
//! Calls with the same signature have the same *shape*. A type such as `Find` or `Make` represents
//! a shape, and its constants are the calls of that shape. `tools/calls` writes the constants to
//! `raw.rs`; only that module creates values of these types.
//!
//! Each `unsafe` block with a call depends on the same promises of the library: a call reads the
//! slices that it is given, writes the record or the buffer that it is given, and accesses nothing
//! else; it keeps no pointer; it returns. Rust's slices meet the library's requirements: they are
//! never null, even if empty; they have at most `isize::MAX` bytes; and a slice that is written
//! shares no byte with another slice. The library also promises that a call wrote as many bytes as
//! it returns. Each `Vec` that a call fills depends on this promise.
#[macro_use]
mod calls;
mod cast;
mod code;
mod raw;

use crate::error::Error;
#[cfg(feature = "alloc")]
use alloc::vec;
#[cfg(feature = "alloc")]
use alloc::vec::Vec;
#[cfg(feature = "alloc")]
pub(crate) use raw::entries;
#[cfg(feature = "alloc")]
use raw::entries::{ENTRIES_ACCEPTED, REFUSED_NAME};
use raw::errors::*;
use raw::*;
pub(crate) use raw::{Part, Walk};

/// Returns the error for the number that a call returned. That number is greater than the buffer's
/// length, so the call wrote nothing.
#[cold]
fn error_of(answer: usize) -> Error {
    match answer {
        SEPARATOR => Error::Separator,
        ESCAPES => Error::Escapes,
        NUL_IN_REQUEST => Error::Nul,
        NOT_A_KEY => Error::NotAKey,
        NO_RELATIVE_PATH => Error::NoRelativePath,
        needed => Error::Short { needed },
    }
}

/// Memory to which a call writes its result.
///
/// It is a slice, an array or, with the feature `alloc`, a vector. A vector consists of the result
/// afterwards. It grows if its capacity is too small, and then the call fails with
/// [`Error::NoMemory`] if the allocation fails, and never with [`Error::Short`]. If a call fails,
/// the buffer is unchanged. No other type can be a buffer.
///
/// ```
/// use unix_path_proved::calls::{join, Buffer};
/// use unix_path_proved::Error;
///
/// fn length<B: Buffer + ?Sized>(out: &mut B) -> Result<usize, Error> {
///     join(b"/srv", b"a", out).map(<[u8]>::len)
/// }
/// assert_eq!(length(&mut [0; 6]), Ok(6));
/// assert_eq!(length(&mut [0; 5][..]), Err(Error::Short { needed: 6 }));
/// assert_eq!(length(&mut Vec::new()), Ok(6));
/// ```
pub trait Buffer {
    /// Lets a call write its result, and returns it. Most results have at most `room` bytes, and
    /// none has more than three times as many and two.
    #[doc(hidden)]
    fn receive<F: Fn(*mut u8, usize) -> usize>(
        &mut self,
        room: usize,
        call: Filling<F>,
    ) -> Result<&[u8], Error>;
}

/// A call with its arguments. It writes to memory of a length, and returns the length of its result
/// or the number of an error. Only this module creates one.
#[derive(Debug)]
pub struct Filling<F>(F);

impl Buffer for [u8] {
    #[inline]
    fn receive<F: Fn(*mut u8, usize) -> usize>(
        &mut self,
        _: usize,
        call: Filling<F>,
    ) -> Result<&[u8], Error> {
        let answer = (call.0)(self.as_mut_ptr(), self.len());
        self.get(..answer).ok_or_else(|| error_of(answer))
    }
}

impl<const N: usize> Buffer for [u8; N] {
    #[inline]
    fn receive<F: Fn(*mut u8, usize) -> usize>(
        &mut self,
        room: usize,
        call: Filling<F>,
    ) -> Result<&[u8], Error> {
        self.as_mut_slice().receive(room, call)
    }
}

#[cfg(feature = "alloc")]
impl Buffer for Vec<u8> {
    #[inline]
    fn receive<F: Fn(*mut u8, usize) -> usize>(
        &mut self,
        room: usize,
        call: Filling<F>,
    ) -> Result<&[u8], Error> {
        grow_to(self, room)?;
        match fill_after(self, 0, &call.0) {
            // No result is longer, unless the library is wrong.
            Err(Error::Short { needed }) if needed / 3 <= room => {
                grow_to(self, needed)?;
                fill_after(self, 0, &call.0)?;
            }
            result => result?,
        }
        Ok(self)
    }
}

/// Makes sure that the vector has capacity for this many bytes in all.
#[cfg(feature = "alloc")]
#[inline]
fn grow_to(bytes: &mut Vec<u8>, room: usize) -> Result<(), Error> {
    let more = room.saturating_sub(bytes.len());
    bytes.try_reserve_exact(more).map_err(|_| Error::NoMemory)
}

/// Lets a call write after the vector's first `kept` bytes, as far as the capacity reaches. The
/// vector then consists of those bytes and what the call wrote. If the call fails, the vector is
/// unchanged.
#[cfg(feature = "alloc")]
#[inline]
fn fill_after(
    bytes: &mut Vec<u8>,
    kept: usize,
    call: impl FnOnce(*mut u8, usize) -> usize,
) -> Result<(), Error> {
    let kept = kept.min(bytes.len());
    let room = bytes.capacity() - kept;
    // SAFETY: the pointer is in the vector's memory or at its end.
    let answer = call(unsafe { bytes.as_mut_ptr().add(kept) }, room);
    if answer > room {
        return Err(error_of(answer));
    }
    // SAFETY: the capacity has that many bytes. The first `kept` were there before, and the library
    // promises that it wrote the rest.
    unsafe { bytes.set_len(kept + answer) };
    Ok(())
}

/// Returns the `length` bytes at index `start`, or `None` if they are not all in the path. So the
/// library's indices and lengths are never trusted.
#[inline]
fn cut(path: &[u8], start: usize, length: usize) -> Option<&[u8]> {
    path.get(start..start.checked_add(length)?)
}

impl Span {
    const NOWHERE: Span = Span {
        start: 0,
        length: 0,
    };

    #[inline]
    fn of(self, path: &[u8]) -> Option<&[u8]> {
        cut(path, self.start, self.length)
    }
}

impl Part {
    #[inline]
    pub fn of(self, path: &[u8]) -> Option<&[u8]> {
        cut(path, self.start, self.length)
    }
}

impl Walk {
    /// Returns the walk over all components of the path, without calling `unix_path_components`.
    /// The rest of a walk lies between its two indices: at first it is the whole path.
    #[inline]
    pub const fn new(path: &[u8]) -> Walk {
        Walk {
            front: 0,
            back: path.len(),
        }
    }

    /// Returns the rest of the walk over this path, or `None` if the library returns a span that is
    /// not in the path.
    #[inline]
    pub fn left(self, path: &[u8]) -> Option<&[u8]> {
        let mut span = Span::NOWHERE;
        // SAFETY: the slice and the walk are read, and the span is written.
        unsafe { unix_path_as_path(path.as_ptr(), path.len(), &self, &mut span) };
        span.of(path)
    }
}

/// Calls that take a component from the rest of a walk.
pub(crate) struct Step(unsafe extern "C" fn(Start, usize, *mut Walk, *mut Part) -> bool);

impl Step {
    #[inline]
    pub fn take(self, path: &[u8], walk: &mut Walk) -> Option<Part> {
        let mut part = Part {
            start: 0,
            length: 0,
            kind: 0,
        };
        // SAFETY: the slice is read, and both records are written. A walk over another path, which
        // no caller in this crate passes, would only lead to another result.
        let is_taken = unsafe { (self.0)(path.as_ptr(), path.len(), walk, &mut part) };
        is_taken.then_some(part)
    }
}

/// Returns the ancestor of the path that has `next` bytes, and sets `next` to the length of the
/// ancestor after it.
#[inline]
pub(crate) fn next_ancestor<'a>(path: &'a [u8], next: &mut usize) -> Option<&'a [u8]> {
    let mut span = Span::NOWHERE;
    // SAFETY: the slice is read, and the number and the span are written.
    let is_there = unsafe { unix_path_next_ancestor(path.as_ptr(), path.len(), next, &mut span) };
    if is_there {
        span.of(path)
    } else {
        None
    }
}

/// Returns the valid and the invalid bytes of the chunk at index `next`, and sets `next` to the
/// index of the chunk after it.
#[inline]
pub(crate) fn next_chunk<'a>(path: &'a [u8], next: &mut usize) -> Option<(&'a [u8], &'a [u8])> {
    let mut chunk = Chunk {
        start: 0,
        valid_length: 0,
        broken_length: 0,
    };
    // SAFETY: the slice is read, and the number and the chunk are written.
    let is_there = unsafe { unix_path_next_chunk(path.as_ptr(), path.len(), next, &mut chunk) };
    if !is_there {
        return None;
    }
    let valid = cut(path, chunk.start, chunk.valid_length)?;
    let end = chunk.start.checked_add(chunk.valid_length)?;
    Some((valid, cut(path, end, chunk.broken_length)?))
}

/// Decides whether the entries in these records are accepted at a level. Returns `None` if they
/// are, and otherwise the number of the entry that is refused, the number of the one that it
/// clashes with, and the number of the reason. `slots` is how many uses of paths there are, as
/// `unix_path_entries_scratch` counts them.
#[cfg(feature = "alloc")]
pub(crate) fn refusal_of(records: &[u8], slots: usize, level: u32) -> Option<(usize, usize, u32)> {
    let unused = Slot {
        start: 0,
        end: 0,
        rank: 0,
        entry: 0,
        cause: 0,
    };
    let mut memory = vec![unused; slots];
    let mut found = Refusal {
        entry: 0,
        cause: 0,
        reason: REFUSED_NAME,
    };
    let (start, length) = (records.as_ptr(), records.len());
    // SAFETY: the slice is read, and the slots and the refusal are written.
    let result = unsafe {
        unix_path_check_entries(start, length, memory.as_mut_ptr(), slots, level, &mut found)
    };
    (result != ENTRIES_ACCEPTED).then_some((found.entry, found.cause, found.reason))
}

/// Returns the version of the library.
#[inline]
pub(crate) fn version() -> u32 {
    // SAFETY: the call has no parameters.
    unsafe { unix_path_version() }
}

/// Calls that find a span of a path.
pub(crate) struct Find(unsafe extern "C" fn(Start, usize, *mut Span) -> bool);

impl Find {
    #[inline]
    pub fn find(self, path: &[u8]) -> Option<&[u8]> {
        let mut span = Span::NOWHERE;
        // SAFETY: the slice is read, and the span is written.
        let is_there = unsafe { (self.0)(path.as_ptr(), path.len(), &mut span) };
        if is_there {
            span.of(path)
        } else {
            None
        }
    }
}

/// Calls that find a span of a path, given another path.
pub(crate) struct FindOfTwo(unsafe extern "C" fn(Start, usize, Start, usize, *mut Span) -> bool);

impl FindOfTwo {
    #[inline]
    pub fn find<'a>(self, path: &'a [u8], other: &[u8]) -> Option<&'a [u8]> {
        let (start, length) = (path.as_ptr(), path.len());
        let mut span = Span::NOWHERE;
        // SAFETY: the slices are read, and the span is written.
        let is_there = unsafe { (self.0)(start, length, other.as_ptr(), other.len(), &mut span) };
        if is_there {
            span.of(path)
        } else {
            None
        }
    }
}

/// Calls that answer a question about a path with a `T`.
pub(crate) struct Ask<T>(unsafe extern "C" fn(Start, usize) -> T);

impl<T> Ask<T> {
    #[inline]
    pub fn ask(self, path: &[u8]) -> T {
        // SAFETY: the slice is read.
        unsafe { (self.0)(path.as_ptr(), path.len()) }
    }
}

/// Calls that answer a question about two paths with a `T`.
pub(crate) struct AskTwo<T>(unsafe extern "C" fn(Start, usize, Start, usize) -> T);

impl<T> AskTwo<T> {
    #[inline]
    pub fn ask(self, a: &[u8], b: &[u8]) -> T {
        // SAFETY: the slices are read.
        unsafe { (self.0)(a.as_ptr(), a.len(), b.as_ptr(), b.len()) }
    }
}

/// Calls that make a path or a key from one path or key, and write it to a buffer.
#[derive(Clone, Copy)]
pub(crate) struct Make(unsafe extern "C" fn(Start, usize, *mut u8, usize) -> usize);

impl Make {
    /// Lets the call write to the buffer. Most results have at most `room` bytes.
    #[inline]
    pub fn write<'o, B: Buffer + ?Sized>(
        self,
        path: &[u8],
        room: usize,
        out: &'o mut B,
    ) -> Result<&'o [u8], Error> {
        let (start, length) = (path.as_ptr(), path.len());
        out.receive(
            room,
            // SAFETY: the slice is read, and the buffer is written.
            Filling(|out, room| unsafe { (self.0)(start, length, out, room) }),
        )
    }
}

/// Calls that make a path from a path and a second argument, and write it to a buffer.
#[derive(Clone, Copy)]
pub(crate) struct MakeOfTwo(
    unsafe extern "C" fn(Start, usize, Start, usize, *mut u8, usize) -> usize,
);

impl MakeOfTwo {
    /// Returns the call with these arguments.
    #[inline]
    fn on<'a>(self, path: &'a [u8], other: &'a [u8]) -> impl Fn(*mut u8, usize) -> usize + 'a {
        let (start, length) = (path.as_ptr(), path.len());
        // SAFETY: the slices are read, and the buffer is written.
        move |out, room| unsafe { (self.0)(start, length, other.as_ptr(), other.len(), out, room) }
    }

    /// Lets the call write to the buffer. Most results have at most as many bytes as both arguments
    /// and a slash.
    #[inline]
    pub fn write<'o, B: Buffer + ?Sized>(
        self,
        path: &[u8],
        other: &[u8],
        out: &'o mut B,
    ) -> Result<&'o [u8], Error> {
        let room = path.len().saturating_add(other.len()).saturating_add(1);
        out.receive(room, Filling(self.on(path, other)))
    }

    /// Lets the call write its result after the vector's first `kept` bytes, which are unchanged.
    #[cfg(feature = "alloc")]
    #[inline]
    pub fn write_after(
        self,
        bytes: &mut Vec<u8>,
        kept: usize,
        path: &[u8],
        other: &[u8],
    ) -> Result<(), Error> {
        fill_after(bytes, kept, self.on(path, other))
    }
}
