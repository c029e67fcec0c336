//! Normalises two manifests: sorts the canonical forms of each manifest's paths, each form once.
use crate::digest::Digest;
use crate::lines::Lines;
use crate::random::Random;
use crate::tree::{noise_of, shuffled, Tree};
use std::collections::BTreeSet;
use std::path::{Path, PathBuf};

/// Returns the canonical form of the path.
pub fn canonical(path: &Path) -> PathBuf {
    path.components().collect()
}

/// Returns the noise for a path from a random word. For one word in five it changes the path's
/// spelling; for the other words it is 0.
fn noise(word: u64) -> u64 {
    if word.is_multiple_of(5) {
        noise_of(word >> 8)
    } else {
        0
    }
}

/// Returns the paths of `count` files in the order of a walk over the tree, and then as many paths
/// in an order that looks random. One in ten of the latter may be a file of the walk, in another
/// spelling. The others are not files of the walk.
fn listing(tree: Tree, seed: u64, count: u64) -> Lines {
    let mut random = Random::new(seed);
    let mut lines = Lines::default();
    for place in 0..count {
        tree.push(
            lines.buffer(),
            (place << 1) & 0xF_FFFF,
            noise(random.next()),
        );
        lines.end_line();
    }
    for place in 0..count {
        let word = random.next();
        let number = shuffled(place, seed);
        if word.is_multiple_of(10) {
            tree.push(lines.buffer(), number, noise_of(word >> 8));
        } else {
            tree.push(lines.buffer(), number | 1, noise(word >> 4));
        }
        lines.end_line();
    }
    lines
}

/// Adds the canonical form of each path to the digest, in path order and each form once. A set
/// sorts the forms.
fn order_set(paths: &[&Path], digest: &mut Digest) {
    let set: BTreeSet<PathBuf> = paths.iter().map(|path| canonical(path)).collect();
    for path in &set {
        digest.add_path(path);
    }
}

/// Adds the canonical form of each path to the digest, in path order and each form once. The forms
/// are sorted as a list.
fn order_list(paths: &[&Path], digest: &mut Digest) {
    let mut list: Vec<PathBuf> = paths.iter().map(|path| canonical(path)).collect();
    list.sort();
    list.dedup();
    for path in &list {
        digest.add_path(path);
    }
}

/// Normalises two manifests of twice `count` paths each, one as a set and one as a list. Returns
/// the digest of both.
pub fn run(seed: u64, count: u64) -> u64 {
    let mut digest = Digest::default();
    let packages = listing(Tree::new("usr/lib/packages", seed), seed, count);
    order_set(&packages.paths(), &mut digest);
    let other = seed ^ (1 << 40);
    let backup = listing(Tree::new("/srv/backup/daily/host", other), other, count);
    order_list(&backup.paths(), &mut digest);
    digest.get()
}
