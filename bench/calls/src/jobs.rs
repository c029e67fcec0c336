//! Jobs that users wait for, over our types and over those of std, with the same code except for
//! joins of requests: std has no call for these.
use crate::corpora::{realistic, Corpus};
use crate::random::Random;
use crate::rows::digest;
use crate::timing::{Measure, Timer};
use std::collections::HashSet;
use std::hash::BuildHasherDefault;
use std::hash::DefaultHasher;

/// Our types, and the bytes of a path.
mod ours {
    pub use unix_path_proved::{Path, PathBuf};

    pub fn path(bytes: &[u8]) -> &Path {
        Path::new(bytes)
    }

    pub fn bytes(path: &Path) -> &[u8] {
        path.as_bytes()
    }

    pub fn join_beneath(root: &Path, request: &Path) -> Option<PathBuf> {
        root.join_beneath(request).ok()
    }
}

/// The same of std.
mod of_std {
    use std::ffi::OsStr;
    use std::os::unix::ffi::OsStrExt;
    use std::path::Component;
    pub use std::path::{Path, PathBuf};

    pub fn path(bytes: &[u8]) -> &Path {
        Path::new(OsStr::from_bytes(bytes))
    }

    pub fn bytes(path: &Path) -> &[u8] {
        path.as_os_str().as_bytes()
    }

    pub fn join_beneath(root: &Path, request: &Path) -> Option<PathBuf> {
        let (mut joined, mut depth) = (root.to_path_buf(), 0_usize);
        for part in request.components() {
            match part {
                Component::Normal(name) => joined.push(name),
                Component::CurDir => continue,
                Component::ParentDir if depth > 0 => drop(joined.pop()),
                _ => return None,
            }
            depth = match part {
                Component::Normal(_) => depth + 1,
                _ => depth - 1,
            };
        }
        (!bytes(request).contains(&0)).then_some(joined)
    }
}

/// A job: what it does with paths, the root of some of them, and returns as a digest.
pub type Side = fn(&[Vec<u8>]) -> u64;

/// A directory of the listing, below which about half of the paths are.
const ROOT: &[u8] = b"/home/build/checkout";

/// Defines each job over the types of both modules.
macro_rules! jobs {
    ($($name:literal, $count:literal => |$list:ident| $body:expr;)*) => {
        /// The jobs, each with the number of its paths.
        pub const JOBS: &[(&str, usize, Side, Side)] = &[$(
            (
                $name,
                $count,
                |$list| { #[allow(unused_imports)] use ours::*; $body },
                |$list| { #[allow(unused_imports)] use of_std::*; $body },
            ),
        )*];
    };
}

/// Returns a digest of a list of numbers.
fn all(numbers: impl Iterator<Item = u64>) -> u64 {
    numbers.fold(0, |sum, number| sum.rotate_left(7) ^ number)
}

jobs! {
    "job: sort of 1,000,000 paths", 1_000_000 => |list| {
        let mut paths: Vec<&Path> = list.iter().map(|it| path(it)).collect();
        paths.sort();
        all(paths.into_iter().map(|it| digest(bytes(it))))
    };
    "job: set of 200,000 paths", 200_000 => |list| {
        let hasher = BuildHasherDefault::<DefaultHasher>::default();
        let mut paths = HashSet::with_hasher(hasher);
        paths.extend(list.iter().map(|it| path(it)));
        all(list.iter().map(|it| paths.contains(path(it)).into()))
    };
    "job: strip_prefix over a listing", 200_000 => |list| {
        let rest = |it| path(it).strip_prefix(path(ROOT)).map_or(0, |it| digest(bytes(it)));
        all(list.iter().map(|it| rest(it)))
    };
    "job: starts_with over a listing", 200_000 => |list| {
        all(list.iter().map(|it| path(it).starts_with(path(ROOT)).into()))
    };
    "job: joins of requests", 200_000 => |list| {
        let joined = |it: &[u8]| {
            let request = path(it.strip_prefix(b"/").unwrap_or(it));
            join_beneath(path(b"/srv/www"), request).map_or(0, |it| digest(bytes(&it)))
        };
        all(list.iter().map(|it| joined(it)))
    };
    "job: components().collect::<PathBuf>()", 200_000 => |list| {
        let collected = |it| path(it).components().collect::<PathBuf>();
        all(list.iter().map(|it| digest(bytes(&collected(it)))))
    };
    "job: components().collect::<Vec<_>>()", 200_000 => |list| {
        all(list.iter().map(|it| path(it).components().collect::<Vec<_>>().len() as u64))
    };
}

/// Returns this many paths of a listing in random order. Every eighth one is spelled otherwise.
fn paths(count: usize) -> Corpus {
    let mut paths = realistic(count);
    paths.truncate(count);
    Random(11).shuffle(&mut paths);
    for path in paths.iter_mut().step_by(8) {
        path.extend_from_slice(b"/./x/..");
    }
    Corpus::new("listing", paths)
}

/// Returns the ratio of a job. With `UNIX_PATH_SIDE` of `ours`, `std` or `none` in the environment,
/// only that side runs, and once, so that its instructions can be counted.
pub fn measure(count: usize, ours: Side, std: Side, timer: &Timer) -> Option<Measure> {
    let list = paths(count).paths;
    let once = match std::env::var("UNIX_PATH_SIDE").as_deref() {
        Ok("ours") => ours,
        Ok("std") => std,
        Ok(_) => |list: &[Vec<u8>]| list.len() as u64,
        Err(_) => return Some(timer.compare(1, &|_| ours(&list), &|_| std(&list))),
    };
    std::hint::black_box(once(&list));
    None
}
