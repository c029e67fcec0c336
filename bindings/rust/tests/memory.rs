//! Out of memory: each call that writes to a vector returns an error, and a method of the types
//! ends the program.
#[macro_use]
#[path = "../src/ffi/calls.rs"]
mod shapes;

use std::alloc::{GlobalAlloc, Layout, System};
use std::cell::Cell;
use std::process::Command;
use std::ptr::null_mut;
use unix_path_proved::calls::{self, join_beneath, join_in_root};
use unix_path_proved::{Error, Path, PathBuf};

thread_local! {
    /// True if allocations of this thread fail.
    static IS_REFUSED: Cell<bool> = const { Cell::new(false) };
}

/// The system's allocator, unless allocations of this thread fail.
struct RefusingAllocator;

// SAFETY: each call is passed on to the system's allocator, or returns null.
unsafe impl GlobalAlloc for RefusingAllocator {
    unsafe fn alloc(&self, layout: Layout) -> *mut u8 {
        if IS_REFUSED.get() {
            return null_mut();
        }
        System.alloc(layout)
    }

    unsafe fn dealloc(&self, block: *mut u8, layout: Layout) {
        System.dealloc(block, layout);
    }
}

#[global_allocator]
static MEMORY: RefusingAllocator = RefusingAllocator;

/// Returns the result of the call while allocations fail.
fn without_memory<T>(call: impl FnOnce() -> Result<T, Error>) -> Result<T, Error> {
    IS_REFUSED.set(true);
    let answer = call();
    IS_REFUSED.set(false);
    answer
}

/// Calls `write` on a new vector while allocations fail, and then again.
fn is_an_error(
    write: impl Fn(&mut Vec<u8>) -> bool,
    failed: impl Fn(&mut Vec<u8>) -> Option<Error>,
) {
    let mut out = vec![];
    assert_eq!(
        without_memory(|| failed(&mut out).map_or(Ok(()), Err)),
        Err(Error::NoMemory)
    );
    assert!(out.is_empty() && write(&mut out));
}

#[test]
fn it_is_an_error() {
    macro_rules! of_one {
        ($($name:ident;)*) => {$(is_an_error(
            |out| calls::$name(b"a\0", out).is_ok(),
            |out| calls::$name(b"a\0", out).err(),
        );)*};
    }
    make!(of_one);
    macro_rules! of_two {
        ($($name:ident;)*) => {$(is_an_error(
            |out| calls::$name(b"a/b", b"c", out).is_ok(),
            |out| calls::$name(b"a/b", b"c", out).err(),
        );)*};
    }
    make_of_two!(of_two);
}

#[test]
fn empty_results_need_none() {
    let mut out = vec![];
    let made = without_memory(|| calls::canonical(b"", &mut out).map(<[u8]>::len));
    assert_eq!(made, Ok(0));
    let made = without_memory(|| calls::resolved(b"", &mut out).map(<[u8]>::len));
    assert_eq!(made, Ok(0));
    let way = without_memory(|| calls::relative_path(b"/a", b"b", &mut []).map(<[u8]>::len));
    assert_eq!(way, Err(Error::NoRelativePath));
}

#[test]
fn requests_are_joined_without() {
    IS_REFUSED.set(true);
    let mut out = [0; 16];
    let is_beneath = join_beneath(b"/srv", b"a/../b/", &mut out) == Ok(b"/srv/b");
    let is_in_root = join_in_root(b"/srv", b"/../b/", &mut out) == Ok(b"/srv/b");
    IS_REFUSED.set(false);
    assert!(is_beneath && is_in_root);
}

/// An edit that adds something to the path.
type Edit = fn(&mut Vec<u8>, &[u8]) -> Result<(), Error>;

/// The edits that may allocate. The last two drop the truth value of the edit.
const EDITS: [Edit; 4] = [
    calls::push,
    calls::set_file_name,
    |path, extension| calls::set_extension(path, extension).map(|_| ()),
    |path, extension| calls::add_extension(path, extension).map(|_| ()),
];

#[test]
fn edits_leave_the_path() {
    for edit in EDITS {
        for long in [&[b'x'; 40][..], &[b'x'; 400]] {
            let mut path = b"/a/b".to_vec();
            path.shrink_to_fit();
            let failed = without_memory(|| edit(&mut path, long));
            assert_eq!((failed, &path[..]), (Err(Error::NoMemory), &b"/a/b"[..]));
            assert_eq!(edit(&mut path, long), Ok(()));
        }
    }
    let mut path = b"/a/b".to_vec();
    path.shrink_to_fit();
    let failed = without_memory(|| calls::push(&mut path, b"/a/b/c/d/e/f"));
    assert_eq!((failed, &path[..]), (Err(Error::NoMemory), &b"/a/b"[..]));
}

#[test]
fn edits_in_room_need_none() {
    for edit in EDITS {
        let mut path = Vec::with_capacity(64);
        path.extend(b"/a/b");
        assert_eq!(without_memory(|| edit(&mut path, b"cde")), Ok(()));
        assert!(path.ends_with(b"cde"));
    }
    let mut path = b"/a/b".to_vec();
    let pushed = without_memory(|| calls::push(&mut path, b"/cd"));
    assert_eq!((pushed, &path[..]), (Ok(()), &b"/cd"[..]));
}

/// The methods that allocate.
const METHODS: [fn(&mut PathBuf); 12] = [
    |path| path.push("c"),
    |path| path.set_file_name("long"),
    |path| assert!(path.set_extension("long")),
    |path| assert!(path.add_extension("long")),
    |path| drop(path.join("c")),
    |path| drop(path.canonical()),
    |path| drop(path.resolved()),
    |path| drop(path.join_beneath("c")),
    |path| drop(path.relative_path("c")),
    |path| drop(path.key()),
    |_| drop(PathBuf::from_key(b"a\0")),
    |_| drop(Path::new(b"\xFF").to_string_lossy()),
];

/// Calls the method that a variable names while allocations fail. The test below runs this in
/// programs of their own.
#[test]
fn method() {
    let number = std::env::var("UNIX_PATH_METHOD").unwrap_or_default();
    let Ok(number) = number.parse::<usize>() else {
        return;
    };
    let mut path = PathBuf::from("a/b");
    path.shrink_to_fit();
    IS_REFUSED.set(true);
    METHODS[number](&mut path);
    IS_REFUSED.set(false);
}

#[test]
fn methods_end_the_program() {
    for number in 0..METHODS.len() {
        let mut program = Command::new(std::env::current_exe().unwrap());
        let ended = program
            .args(["--exact", "method", "--nocapture"])
            .env("UNIX_PATH_METHOD", number.to_string())
            .output()
            .unwrap();
        let said = String::from_utf8_lossy(&ended.stderr);
        assert!(said.contains("memory allocation of"), "{number}: {said}");
        assert!(!ended.status.success(), "{number}");
    }
}
