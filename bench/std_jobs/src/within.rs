//! Paths from outside, lexically, for which `std::path` has no calls.
use std::os::unix::ffi::OsStrExt;
use std::path::{Component, Path, PathBuf};

/// Appends the components to a resolved path: `..` removes the name before it, and is dropped after
/// the root.
pub fn push_resolved<'a>(kept: &mut PathBuf, parts: impl Iterator<Item = Component<'a>>) {
    for part in parts {
        match part {
            Component::CurDir => {}
            Component::ParentDir if kept.file_name().is_some() => {
                kept.pop();
            }
            Component::ParentDir if kept.has_root() => {}
            part => kept.push(part),
        }
    }
}

/// Returns the path with each `..` dropped together with the name before it.
pub fn resolved(path: &Path) -> PathBuf {
    let mut kept = PathBuf::with_capacity(path.as_os_str().len());
    push_resolved(&mut kept, path.components());
    kept
}

/// Returns true if the path has a root, or some prefix of its components has more `..` than names.
pub fn escapes(path: &Path) -> bool {
    let mut depth = 0_usize;
    for part in path.components() {
        match part {
            Component::Normal(_) => depth += 1,
            Component::ParentDir if depth > 0 => depth -= 1,
            Component::CurDir => {}
            _ => return true,
        }
    }
    false
}

/// Returns the request joined to the root and resolved, or `None` if it escapes.
pub fn join_within(root: &Path, request: &Path) -> Option<PathBuf> {
    if escapes(request) {
        return None;
    }
    let len = root.as_os_str().len() + 1 + request.as_os_str().len();
    let mut kept = PathBuf::with_capacity(len);
    push_resolved(&mut kept, root.components().chain(request.components()));
    Some(kept)
}

/// Returns the request joined to the root, both verbatim, or `None` if the request has a root, a
/// `..` or a NUL.
pub fn join_verbatim(root: &Path, request: &Path) -> Option<PathBuf> {
    let leaves = |part| matches!(part, Component::RootDir | Component::ParentDir);
    if request.components().any(leaves) || request.as_os_str().as_bytes().contains(&0) {
        return None;
    }
    Some(root.join(request))
}

/// Returns the relative path from one path to another, lexically. Both paths are resolved, and the
/// components that both then start with are dropped. The result is a `..` for each name in the rest
/// of `from`, followed by the rest of `to`. Returns `None` if no path without a root leads from
/// `from` to `to`.
pub fn relative_path(from: &Path, to: &Path) -> Option<PathBuf> {
    let (from, to) = (resolved(from), resolved(to));
    if from.has_root() != to.has_root() {
        return None;
    }
    let pairs = from.components().zip(to.components());
    let shared = pairs.take_while(|(left, right)| left == right).count();
    let mut steps = PathBuf::with_capacity(from.as_os_str().len() + to.as_os_str().len());
    for part in from.components().skip(shared) {
        if part == Component::ParentDir {
            return None;
        }
        steps.push("..");
    }
    steps.extend(to.components().skip(shared));
    Some(steps)
}
