//! tools/calls made this file from the exports of crates/unix_path_c/src: the calls, their
//! records and their constants.
use super::*;

pub type Start = *const u8;

/// A walk over the components of a path, from both ends: the rest lies between two indices.
#[repr(C)]
#[derive(Clone, Copy, Debug)]
pub struct Walk {
    /// The index at which the rest begins, counted from the beginning of the path.
    pub(super) front: usize,
    /// The index at which the rest ends, counted from the beginning of the path.
    pub(super) back: usize,
}

/// A component of a path: its position and its kind. It is like Rust's `Component`.
#[repr(C)]
#[derive(Clone, Copy, Debug)]
pub struct Part {
    /// The index of the component's first byte, counted from the beginning of the path.
    pub(super) start: usize,
    /// The number of bytes of the component.
    pub(super) length: usize,
    /// 0 for the root, 1 for a leading `.`, 2 for `..`, and 3 for a name.
    pub kind: u32,
}

/// A run of bytes in a path: `length` bytes from index `start` on.
#[repr(C)]
#[derive(Clone, Copy, Debug)]
pub struct Span {
    /// The index of the first byte.
    pub(super) start: usize,
    /// The number of bytes.
    pub(super) length: usize,
}

/// A chunk of a path: valid UTF-8 and the invalid bytes after it. It is like Rust's `Utf8Chunk`.
#[repr(C)]
#[derive(Clone, Copy, Debug)]
pub struct Chunk {
    /// The index at which the valid UTF-8 begins.
    pub(super) start: usize,
    /// The number of bytes of valid UTF-8. It is 0 if the chunk begins with invalid bytes.
    pub(super) valid_length: usize,
    /// The number of invalid bytes after the valid ones, at most 3: an incomplete UTF-8 sequence,
    /// or a single byte that begins no UTF-8 sequence. It can be 0 only in the last chunk.
    pub(super) broken_length: usize,
}

/// Memory for one use of a path, which `check` writes: where the path is in the records, and what
/// it is used as.
#[repr(C)]
#[derive(Clone, Copy, Debug)]
pub struct Slot {
    /// The index of the path's first byte in the records.
    pub(super) start: usize,
    /// The index just after the path's last byte.
    pub(super) end: usize,
    /// What the path is used as.
    pub(super) rank: usize,
    /// The number of the entry.
    pub(super) entry: usize,
    /// The index of the slot that this one clashes with, or its own index.
    pub(super) cause: usize,
}

/// An entry of an archive that is refused, and why.
#[repr(C)]
#[derive(Clone, Copy, Debug)]
pub struct Refusal {
    /// The number of the entry; the first entry's is 0.
    pub(super) entry: usize,
    /// The number of the entry that it clashes with, or its own number.
    pub(super) cause: usize,
    /// Why it is refused: 0 for its name, 1 for its kind, 2 if it is below a file or link, 3 if a
    /// link's path is used twice, 4 for a hard link to a link, 5 for a link that leads out.
    pub reason: u32,
}

/// The kinds of components.
impl Part {
    pub const ROOT_DIR: u32 = 0;
    pub const CUR_DIR: u32 = 1;
    pub const PARENT_DIR: u32 = 2;
    pub const NORMAL: u32 = 3;
}

/// The error codes, which calls return instead of a length.
#[allow(dead_code)]
pub mod errors {
    /// The error code if an extension has a slash.
    pub const SEPARATOR: usize = usize::MAX - 6;
    /// The error code if the bytes are the key of no path.
    pub const NOT_A_KEY: usize = usize::MAX - 4;
    /// The error code if the range of a key has no end.
    pub const NO_END: usize = usize::MAX - 5;
    /// The error code for a result that is longer than any buffer. It is one more than the greatest
    /// length of a buffer.
    pub const TOO_LONG: usize = 1 << 63;
    /// The error code if there is no relative path.
    pub const NO_RELATIVE_PATH: usize = usize::MAX - 7;
    /// The error code if a request escapes.
    pub const ESCAPES: usize = usize::MAX - 1;
    /// The error code if a request has a NUL byte.
    pub const NUL_IN_REQUEST: usize = usize::MAX - 3;
}

/// The levels, the results and the reasons of `unix_path_check_entries`.
#[allow(dead_code)]
pub mod entries {
    pub const INSIDE: u32 = 0;
    pub const CLOSED: u32 = 1;
    pub const ENTRIES_ACCEPTED: u32 = 0;
    pub const ENTRIES_REFUSED: u32 = 1;
    pub const ENTRIES_CUT_OFF: u32 = 2;
    pub const ENTRIES_NO_ROOM: u32 = 3;
    pub const REFUSED_NAME: u32 = 0;
    pub const REFUSED_KIND: u32 = 1;
    pub const REFUSED_BELOW_LEAF: u32 = 2;
    pub const REFUSED_LINK_USED_TWICE: u32 = 3;
    pub const REFUSED_TARGET_IS_LINK: u32 = 4;
    pub const REFUSED_LEADS_OUT: u32 = 5;
}

#[rustfmt::skip]
super::code::declare! {
    pub fn unix_path_version() -> u32;
    pub fn unix_path_components(path: Start, path_length: usize, walk: *mut Walk);
    pub fn unix_path_next(path: Start, path_length: usize, walk: *mut Walk, part: *mut Part)
        -> bool;
    pub fn unix_path_next_back(path: Start, path_length: usize, walk: *mut Walk, part: *mut Part)
        -> bool;
    pub fn unix_path_as_path(path: Start, path_length: usize, walk: *const Walk, span: *mut Span);
    pub fn unix_path_next_ancestor(path: Start, path_length: usize, next: *mut usize,
        ancestor: *mut Span) -> bool;
    pub fn unix_path_next_chunk(path: Start, path_length: usize, next: *mut usize,
        chunk: *mut Chunk) -> bool;
    pub fn unix_path_parent(path: Start, path_length: usize, span: *mut Span) -> bool;
    pub fn unix_path_file_name(path: Start, path_length: usize, span: *mut Span) -> bool;
    pub fn unix_path_file_stem(path: Start, path_length: usize, span: *mut Span) -> bool;
    pub fn unix_path_extension(path: Start, path_length: usize, span: *mut Span) -> bool;
    pub fn unix_path_file_prefix(path: Start, path_length: usize, span: *mut Span) -> bool;
    pub fn unix_path_strip_prefix(path: Start, path_length: usize, base: Start, base_length: usize,
        span: *mut Span) -> bool;
    pub fn unix_path_starts_with(path: Start, path_length: usize, base: Start, base_length: usize)
        -> bool;
    pub fn unix_path_ends_with(path: Start, path_length: usize, child: Start, child_length: usize)
        -> bool;
    pub fn unix_path_equal(a: Start, a_length: usize, b: Start, b_length: usize) -> bool;
    pub fn unix_path_compare(a: Start, a_length: usize, b: Start, b_length: usize) -> i32;
    pub fn unix_path_hash(path: Start, path_length: usize) -> u64;
    pub fn unix_path_is_utf8(path: Start, path_length: usize) -> bool;
    pub fn unix_path_is_canonical(path: Start, path_length: usize) -> bool;
    pub fn unix_path_is_absolute(path: Start, path_length: usize) -> bool;
    pub fn unix_path_escapes(path: Start, path_length: usize) -> bool;
    pub fn unix_path_check_request(path: Start, path_length: usize) -> i32;
    pub fn unix_path_request_is_root(path: Start, path_length: usize) -> bool;
    pub fn unix_path_ends_in_slash(path: Start, path_length: usize) -> bool;
    pub fn unix_path_common_dir(a: Start, a_length: usize, b: Start, b_length: usize) -> usize;
    pub fn unix_path_join(base: Start, base_length: usize, path: Start, path_length: usize,
        out: *mut u8, out_length: usize) -> usize;
    pub fn unix_path_with_file_name(path: Start, path_length: usize, name: Start,
        name_length: usize, out: *mut u8, out_length: usize) -> usize;
    pub fn unix_path_with_extension(path: Start, path_length: usize, extension: Start,
        extension_length: usize, out: *mut u8, out_length: usize) -> usize;
    pub fn unix_path_with_added_extension(path: Start, path_length: usize, extension: Start,
        extension_length: usize, out: *mut u8, out_length: usize) -> usize;
    pub fn unix_path_canonical(path: Start, path_length: usize, out: *mut u8, out_length: usize)
        -> usize;
    pub fn unix_path_to_string_lossy(path: Start, path_length: usize, out: *mut u8,
        out_length: usize) -> usize;
    pub fn unix_path_resolved(path: Start, path_length: usize, out: *mut u8, out_length: usize)
        -> usize;
    pub fn unix_path_join_beneath(root: Start, root_length: usize, request: Start,
        request_length: usize, out: *mut u8, out_length: usize) -> usize;
    pub fn unix_path_join_in_root(root: Start, root_length: usize, request: Start,
        request_length: usize, out: *mut u8, out_length: usize) -> usize;
    pub fn unix_path_join_verbatim(root: Start, root_length: usize, request: Start,
        request_length: usize, out: *mut u8, out_length: usize) -> usize;
    pub fn unix_path_relative_path(from: Start, from_length: usize, to: Start, to_length: usize,
        out: *mut u8, out_length: usize) -> usize;
    pub fn unix_path_key(path: Start, path_length: usize, out: *mut u8, out_length: usize) -> usize;
    pub fn unix_path_from_key(key: Start, key_length: usize, out: *mut u8, out_length: usize)
        -> usize;
    pub fn unix_path_key_range_end(key: Start, key_length: usize, out: *mut u8, out_length: usize)
        -> usize;
    pub fn unix_path_entries_scratch(records: Start, records_length: usize) -> usize;
    pub fn unix_path_check_entries(records: Start, records_length: usize, slots: *mut Slot,
        slots_length: usize, level: u32, refusal: *mut Refusal) -> u32;
}

impl Step {
    pub const NEXT: Self = Self(unix_path_next);
    pub const NEXT_BACK: Self = Self(unix_path_next_back);
}

impl Find {
    pub const PARENT: Self = Self(unix_path_parent);
    pub const FILE_NAME: Self = Self(unix_path_file_name);
    pub const FILE_STEM: Self = Self(unix_path_file_stem);
    pub const EXTENSION: Self = Self(unix_path_extension);
    pub const FILE_PREFIX: Self = Self(unix_path_file_prefix);
}

impl FindOfTwo {
    pub const STRIP_PREFIX: Self = Self(unix_path_strip_prefix);
}

impl AskTwo<bool> {
    pub const STARTS_WITH: Self = Self(unix_path_starts_with);
    pub const ENDS_WITH: Self = Self(unix_path_ends_with);
    pub const EQUAL: Self = Self(unix_path_equal);
}

impl AskTwo<i32> {
    pub const COMPARE: Self = Self(unix_path_compare);
}

impl Ask<u64> {
    pub const HASH: Self = Self(unix_path_hash);
}

impl Ask<bool> {
    pub const IS_UTF8: Self = Self(unix_path_is_utf8);
    pub const IS_CANONICAL: Self = Self(unix_path_is_canonical);
    pub const IS_ABSOLUTE: Self = Self(unix_path_is_absolute);
    pub const ESCAPES: Self = Self(unix_path_escapes);
    pub const REQUEST_IS_ROOT: Self = Self(unix_path_request_is_root);
    pub const ENDS_IN_SLASH: Self = Self(unix_path_ends_in_slash);
}

impl Ask<i32> {
    pub const CHECK_REQUEST: Self = Self(unix_path_check_request);
}

impl AskTwo<usize> {
    pub const COMMON_DIR: Self = Self(unix_path_common_dir);
}

impl MakeOfTwo {
    pub const JOIN: Self = Self(unix_path_join);
    pub const WITH_FILE_NAME: Self = Self(unix_path_with_file_name);
    pub const WITH_EXTENSION: Self = Self(unix_path_with_extension);
    pub const WITH_ADDED_EXTENSION: Self = Self(unix_path_with_added_extension);
    pub const JOIN_BENEATH: Self = Self(unix_path_join_beneath);
    pub const JOIN_IN_ROOT: Self = Self(unix_path_join_in_root);
    pub const JOIN_VERBATIM: Self = Self(unix_path_join_verbatim);
    pub const RELATIVE_PATH: Self = Self(unix_path_relative_path);
}

impl Make {
    pub const CANONICAL: Self = Self(unix_path_canonical);
    pub const TO_STRING_LOSSY: Self = Self(unix_path_to_string_lossy);
    pub const RESOLVED: Self = Self(unix_path_resolved);
    pub const KEY: Self = Self(unix_path_key);
    pub const FROM_KEY: Self = Self(unix_path_from_key);
    pub const KEY_RANGE_END: Self = Self(unix_path_key_range_end);
}
