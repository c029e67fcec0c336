//! Fills a tree of files in memory, looks files up and lists directories.
use crate::digest::Digest;
use crate::lines::path_of;
use crate::random::Random;
use crate::tree::{noise_of, shuffled, Tree};
use std::collections::{BTreeMap, HashMap};
use std::ops::Bound::{Included, Unbounded};
use std::path::{Path, PathBuf};

/// A table of paths, each with the number of its file.
pub type Table = BTreeMap<PathBuf, u64>;

/// Returns the path of a file, written to a buffer that is reused.
pub fn path_in<'a>(buffer: &'a mut Vec<u8>, tree: Tree, number: u64, noise: u64) -> &'a Path {
    buffer.clear();
    tree.push(buffer, number, noise);
    path_of(buffer)
}

/// Returns a table of `count` files, inserted in an order that looks random.
pub fn filled(tree: Tree, seed: u64, count: u64) -> Table {
    let mut buffer = Vec::new();
    let mut table = Table::new();
    for place in 0..count {
        let number = shuffled(place, seed);
        table.insert(path_in(&mut buffer, tree, number, 0).to_path_buf(), number);
    }
    table
}

/// Looks up, for each file, another spelling of the file's path or, one time in three, a path in
/// the file's directory where there is no file.
pub fn look_up(tree: Tree, table: &Table, seed: u64, count: u64) -> u64 {
    let mut buffer = Vec::new();
    let mut random = Random::new(seed);
    let mut sum = 0_u64;
    for place in 0..count {
        let word = random.next();
        let number = shuffled(place, seed) | u64::from(word.is_multiple_of(3));
        let path = path_in(&mut buffer, tree, number, noise_of(word >> 8));
        if let Some(value) = table.get(path) {
            sum = sum.wrapping_add(*value);
        }
    }
    sum
}

/// Removes every eighth file that was inserted.
pub fn remove(tree: Tree, table: &mut Table, seed: u64, count: u64) -> u64 {
    let mut buffer = Vec::new();
    let mut sum = 0_u64;
    for place in 0..count / 8 {
        let path = path_in(&mut buffer, tree, shuffled(place << 3, seed), 0);
        if let Some(value) = table.remove(path) {
            sum = sum.wrapping_add(value);
        }
    }
    sum
}

/// Lists the entries below some directories: below all those of 8,192 files, and below one in eight
/// of those with 16 files.
fn list_below(tree: Tree, table: &Table, count: u64, digest: &mut Digest) {
    let mut buffer = Vec::new();
    for place in 0..count / 32 {
        let number = place.wrapping_mul(128) & 0xF_FFFF;
        if tree.is_in_large(number) && number & 8191 != 0 {
            continue;
        }
        let file = path_in(&mut buffer, tree, number, 0);
        let folder = file.parent().unwrap_or(file);
        for (path, value) in table.range::<Path, _>((Included(folder), Unbounded)) {
            let Ok(rest) = path.strip_prefix(folder) else {
                break;
            };
            digest.add(*value ^ rest.as_os_str().len() as u64);
        }
    }
}

/// Looks up each file's number in a hash map, by another spelling of its path. One lookup in three
/// is of a path in the same directory at which there is no file.
fn find_by_hash(tree: Tree, table: &Table, random: &mut Random) -> u64 {
    let mut numbers: HashMap<PathBuf, u64> = HashMap::new();
    for (path, number) in table {
        numbers.insert(path.clone(), *number);
    }
    let mut buffer = Vec::new();
    let mut sum = 0_u64;
    for number in table.values() {
        let word = random.next();
        let asked = *number | u64::from(word.is_multiple_of(3));
        let path = path_in(&mut buffer, tree, asked, noise_of(word >> 8));
        if let Some(found) = numbers.get(path) {
            sum = sum.wrapping_add(*found);
        }
    }
    sum
}

/// Fills a table with `count` files, looks up each, lists some directories, removes some files, and
/// looks up the remaining files in a hash map.
pub fn run(seed: u64, count: u64) -> u64 {
    let mut digest = Digest::default();
    let mut random = Random::new(seed ^ (1 << 32));
    let tree = Tree::new("/srv/volumes/store", seed);
    let mut table = filled(tree, seed, count);
    digest.add(look_up(tree, &table, seed, count));
    list_below(tree, &table, count, &mut digest);
    digest.add(remove(tree, &mut table, seed, count));
    digest.add(find_by_hash(tree, &table, &mut random));
    for (path, value) in &table {
        digest.add_path(path);
        digest.add(*value);
    }
    digest.get()
}
