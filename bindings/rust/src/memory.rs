//! The end of the program after a failed allocation.
use crate::error::Error;
use alloc::alloc::{handle_alloc_error, Layout};
use alloc::vec::Vec;

/// Ends the program in the way of a `Vec` that cannot grow to `size` bytes.
#[cold]
fn out_of_memory(size: usize) -> ! {
    match Layout::array::<u8>(size) {
        Ok(layout) => handle_alloc_error(layout),
        Err(_) => panic!("capacity overflow"),
    }
}

/// Ends the program if the result is `NoMemory`; `size` is the number of bytes that were needed.
#[inline]
pub(crate) fn with_memory<T>(result: Result<T, Error>, size: usize) -> Result<T, Error> {
    match result {
        Err(Error::NoMemory) => out_of_memory(size),
        result => result,
    }
}

/// Returns the vector to which a call writes. Ends the program if an allocation fails; `size` is
/// the number of bytes that the call allocates.
#[inline]
pub(crate) fn try_made<F>(size: usize, call: F) -> Result<Vec<u8>, Error>
where
    F: FnOnce(&mut Vec<u8>) -> Result<&[u8], Error>,
{
    let mut bytes = Vec::new();
    let result = call(&mut bytes).map(|_| ());
    with_memory(result, size)?;
    Ok(bytes)
}

/// Returns the value of a call, and panics with its error. With a correct library the only such
/// error is a separator in an extension.
#[inline]
pub(crate) fn value<T>(result: Result<T, Error>) -> T {
    result.unwrap_or_else(|error| panic!("{error}"))
}
