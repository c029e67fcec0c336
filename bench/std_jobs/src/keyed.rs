//! Fills a tree of files in memory, looks files up and lists directories: the calls of `table.rs`
//! without a hash map, and the nearest entry above a path.
use crate::digest::Digest;
use crate::lines::path_of;
use crate::table::{filled, look_up, path_in, remove, Table};
use crate::tree::{shuffled, Tree};
use std::ops::Bound::{Included, Unbounded};
use std::path::Path;

/// Lists the entries below some directories: below all those of 8,192 files, and below one in eight
/// of those with 16 files.
fn list_below(tree: Tree, files: &Table, count: u64, digest: &mut Digest) {
    let mut buffer = Vec::new();
    for place in 0..count / 32 {
        let number = place.wrapping_mul(128) & 0xF_FFFF;
        if tree.is_in_large(number) && number & 8191 != 0 {
            continue;
        }
        let file = path_in(&mut buffer, tree, number, 0);
        let folder = file.parent().unwrap_or(file);
        let from_here = files.range::<Path, _>((Included(folder), Unbounded));
        for (_, value) in from_here.take_while(|(path, _)| path.starts_with(folder)) {
            digest.add(*value);
        }
    }
}

/// Finds the entry with the longest path that this path starts with. Returns the rest of this path
/// after the entry's path, and the entry's value.
fn nearest<'a>(files: &Table, path: &'a Path) -> Option<(&'a Path, u64)> {
    let found = path
        .ancestors()
        .find_map(|base| Some((base, *files.get(base)?)));
    let (base, value) = found?;
    Some((path.strip_prefix(base).ok()?, value))
}

/// Makes a path below each file, and finds the nearest entry above that path. It is the file
/// itself, unless the file was removed.
fn find_nearest(tree: Tree, files: &Table, seed: u64, count: u64) -> u64 {
    let mut buffer = Vec::new();
    let mut sum = 0_u64;
    for place in 0..count {
        buffer.clear();
        tree.push(&mut buffer, shuffled(place, seed), 0);
        buffer.extend_from_slice(b"/src/lib.rs");
        if let Some((rest, value)) = nearest(files, path_of(&buffer)) {
            sum = sum.wrapping_add(value ^ rest.as_os_str().len() as u64);
        }
    }
    sum
}

/// Fills a tree with `count` files, looks up each, lists some directories, and removes some files.
/// Then makes a path below each file, and finds the nearest entry above that path.
pub fn run(seed: u64, count: u64) -> u64 {
    let mut digest = Digest::default();
    let tree = Tree::new("/srv/volumes/store", seed);
    let mut files = filled(tree, seed, count);
    digest.add(look_up(tree, &files, seed, count));
    list_below(tree, &files, count, &mut digest);
    digest.add(remove(tree, &mut files, seed, count));
    digest.add(find_nearest(tree, &files, seed, count));
    for value in files.values() {
        digest.add(*value);
    }
    digest.get()
}
