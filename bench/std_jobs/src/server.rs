//! Joins requests below roots like a server that creates its roots once, checks each request once,
//! and writes each join to a buffer that it reuses.
use crate::digest::Digest;
use crate::lines::path_of;
use crate::random::Random;
use crate::requests::{push_request, ROOTS};
use crate::tree::Tree;
use crate::within::{escapes, push_resolved, resolved};
use std::os::unix::ffi::OsStrExt;
use std::path::{Path, PathBuf};

/// The reason why a request is refused, as the number that represents it in the digest.
#[derive(Clone, Copy)]
enum Refusal {
    Rooted = 1,
    Escapes = 2,
    Nul = 3,
}

/// Sets `names` to the names of the resolved request.
fn check(request: &Path, names: &mut PathBuf) -> Result<(), Refusal> {
    if request.has_root() {
        return Err(Refusal::Rooted);
    }
    if escapes(request) {
        return Err(Refusal::Escapes);
    }
    if request.as_os_str().as_bytes().contains(&0) {
        return Err(Refusal::Nul);
    }
    names.clear();
    push_resolved(names, request.components());
    Ok(())
}

/// Sets the file to the names below the root, or to the root if there are none.
fn join_into(file: &mut PathBuf, root: &Path, names: &Path) {
    file.clear();
    file.push(root);
    if !names.as_os_str().is_empty() {
        file.push(names);
    }
}

/// Adds the join below a resolved root, and the rest of the join after the root.
fn answer(root: &Path, file: &mut PathBuf, names: &Path, digest: &mut Digest) {
    join_into(file, root, names);
    digest.add_path(file);
    if let Ok(rest) = file.strip_prefix(root) {
        digest.add_path(rest);
    }
}

/// Runs the job for the requests of the job `requests` with this seed and count, each below the
/// same roots: three that are resolved, and one verbatim.
pub fn run(seed: u64, count: u64) -> u64 {
    let mut digest = Digest::default();
    let mut random = Random::new(seed);
    let tree = Tree::new("", seed);
    let kept = ROOTS.map(Path::new);
    let roots = kept.map(resolved);
    let (mut file, mut names) = (PathBuf::new(), PathBuf::new());
    let mut bytes = Vec::new();
    for place in 0..count {
        bytes.clear();
        push_request(&mut bytes, tree, &mut random, place);
        if let Err(refusal) = check(path_of(&bytes), &mut names) {
            digest.add(refusal as u64);
            continue;
        }
        let at = |turn: u64| (place.wrapping_add(turn) & 7) as usize;
        for turn in 0..3 {
            answer(&roots[at(turn)], &mut file, &names, &mut digest);
        }
        join_into(&mut file, kept[at(3)], &names);
        digest.add_path(&file);
    }
    digest.get()
}
