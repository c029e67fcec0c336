//! `Path` and `PathBuf` for Unix paths, over a library that is proved and compiled to assembly.
//!
//! The types and methods have the names of Rust's `std::path`, and joins for requests from outside
//! that can't leave their root. A path may contain any byte, is compared, ordered and hashed by its
//! components, and is never looked up in the file system. Text is a [`UnixStr`], where std has an
//! `OsStr`.
//!
//! ```
//! use unix_path_proved::{Component, Error, Path, PathBuf};
//!
//! let path = Path::new("/tmp//foo/./bar.txt");
//! assert_eq!(path.parent(), Some(Path::new("/tmp/foo")));
//! assert_eq!(path.extension().unwrap(), "txt");
//! assert_eq!(path.components().next_back(), Some(Component::Normal("bar.txt".as_ref())));
//!
//! let root = Path::new("/srv");
//! assert_eq!(root.join_beneath("a/../b")?, Path::new("/srv/b"));
//! assert_eq!(root.join_beneath("../etc/passwd"), Err(Error::Escapes));
//!
//! let mut copy = PathBuf::from("/srv");
//! copy.push(path.strip_prefix("/tmp").unwrap());
//! assert!(copy.set_extension("md"));
//! assert_eq!(copy, Path::new("/srv/foo/bar.md"));
//! # Ok::<(), Error>(())
//! ```
//!
//! Four methods join two paths:
//!
//! - [`Path::join_beneath`]: a request that must stay beneath the root, such as an entry of an
//!   archive;
//! - [`Path::join_in_root`]: a request as in a chroot, such as the decoded path of a URL;
//! - [`Path::join_verbatim`]: root and request verbatim, for a root that is a link or may contain
//!   links;
//! - [`Path::join`]: trusted paths.
//!
//! Bytes and strings are accepted as paths, and on Unix also the paths and strings of std. Our
//! paths are accepted by the functions of std:
//!
//! ```
//! # #[cfg(unix)]
//! # fn main() -> std::io::Result<()> {
//! use unix_path_proved::Path;
//!
//! let name = std::ffi::OsString::from("no-such-file");
//! let path = Path::new(b"/srv").join(name);
//! assert!(std::fs::read(&path).is_err());
//! assert_eq!(std::path::PathBuf::from(path), std::path::Path::new("/srv/no-such-file"));
//! # Ok(())
//! # }
//! # #[cfg(not(unix))]
//! # fn main() {}
//! ```
//!
//! Unless stated otherwise:
//!
//! - Types and methods behave as those of the same names in std do on Unix, with `UnixStr` and
//!   `unix_str` for `OsStr` and `os_str`.
//! - Everything is purely lexical: symbolic links are not followed.
//! - Methods that return a reference, an iterator, a number or a truth value do not allocate.
//! - If an allocation fails, the program ends as it does when a `Vec` cannot grow. In [`calls`],
//!   the same functions over slices and buffers, it is an error.
//! - Lengths and capacities count bytes.
//!
//! # Features
//!
//! Without features the crate has the views and iterators, and [`calls`] that write to slices.
//! `alloc` adds `PathBuf`, `UnixString` and what else allocates. `std`, the default, adds
//! conversions of errors to `io::Error` and, on Unix, to and from the paths and strings of std.
//!
//! # Targets
//!
//! The crate contains the assembly of the library. It needs no other library, and its build script
//! does nothing.
//!
//! | Target | Tests of this crate |
//! |---|---|
//! | `x86_64-unknown-linux-gnu` | all |
//! | `x86_64-unknown-linux-musl` | only assembled |
//! | `aarch64-unknown-linux-gnu`, `aarch64-unknown-linux-musl` | only assembled |
//! | `x86_64-pc-windows-gnu`, `x86_64-pc-windows-msvc`; experimental | only assembled |
//! | `x86_64-apple-darwin`, `aarch64-apple-darwin`; experimental, not run | only assembled |
//!
//! For any other target, and in Miri, `cargo check` and `cargo doc` work, and the linker reports
//! that there is no assembly. The feature `system` links an installed `libunix_path` instead, on
//! any target with pointers of 64 bits for which that library was built. If the linker does not
//! search its directory, name the directory, for example with `RUSTFLAGS='-L /opt/lib'`.
//!
//! Cargo refuses to build a program with two versions of this crate, since both define the same
//! symbols. For the same reason, use the feature `system` in a program whose C or C++ code also
//! calls `libunix_path`.
//!
//! # What is proved
//!
//! The source of the assembly, which is in Rattle, is proved: each call returns what its contract
//! says, on all bytes. The contracts are in `crates/unix_path_c` of the repository. The compilers
//! that translate the source to assembly and the assembler in rustc are trusted. `asm/PROVED.txt`
//! in this package names the version of the toolchain and lists the SHA-256 of each assembly file.
//!
//! The Rust code of this crate is not proved. It passes the bytes to the library and cuts the
//! results out of them with bounds checks. So a wrong library could return wrong results, but could
//! do harm only by what it reads or writes itself, or by reporting bytes as written that it did not
//! write: a vector has as many bytes as the library reports. Some methods do not call the library.
//! They show the bytes as another type, as UTF-8 if Rust's `str` accepts them, or in debug text, or
//! they compare or hash the bytes of a `UnixStr`.
#![no_std]
#![deny(
    missing_docs,
    missing_debug_implementations,
    unsafe_code,
    unsafe_op_in_unsafe_fn
)]

#[cfg(feature = "alloc")]
extern crate alloc;
#[cfg(feature = "std")]
extern crate std;

#[cfg(feature = "alloc")]
pub mod archive;
#[cfg(feature = "alloc")]
mod boxes;
pub mod calls;
#[cfg(feature = "alloc")]
mod capacity;
mod compare;
mod component;
mod convert;
mod display;
#[cfg(feature = "alloc")]
mod edits;
mod error;
#[allow(unsafe_code)]
mod ffi;
#[cfg(feature = "alloc")]
mod memory;
mod path;
#[cfg(feature = "alloc")]
mod path_buf;
#[cfg(feature = "serde")]
mod serde;
mod unix_str;
#[cfg(feature = "alloc")]
mod unix_string;
mod walks;

pub use component::Component;
pub use display::Display;
pub use error::{Error, RequestError, StripPrefixError};
pub use path::Path;
#[cfg(feature = "alloc")]
pub use path_buf::PathBuf;
pub use unix_str::UnixStr;
#[cfg(feature = "alloc")]
pub use unix_string::UnixString;
pub use walks::{Ancestors, Chunk, Chunks, Components, Iter};

/// The separator of a path's components: `/`.
pub const MAIN_SEPARATOR: char = '/';

/// The separator of a path's components, as text.
pub const MAIN_SEPARATOR_STR: &str = "/";

/// Returns true if the character is a slash.
///
/// ```
/// assert!(unix_path_proved::is_separator('/'));
/// assert!(!unix_path_proved::is_separator('\\'));
/// ```
#[must_use]
#[inline]
pub fn is_separator(c: char) -> bool {
    c == MAIN_SEPARATOR
}

/// Returns the version of the linked library: `65_536 * major + 256 * minor + patch`.
///
/// For version 1.1.0 it is 0x010100.
///
/// ```
/// assert!(unix_path_proved::version() >= 0x01_0100);
/// ```
#[must_use]
#[inline]
pub fn version() -> u32 {
    ffi::version()
}
