//! Compares, matches and walks paths and similar paths, and adds each result to the digest.
use crate::digest::Digest;
use crate::lines::path_of;
use crate::long::make_deep;
use crate::random::Random;
use crate::requests::push_request;
use crate::tree::{noise_of, separator, Tree};
use std::cmp::Ordering;
use std::os::unix::ffi::OsStrExt;
use std::path::{Component, Path};

/// The bytes to which a byte is changed.
static BYTES: [u8; 4] = [b'/', b'.', b'b', 0xFF];

/// Appends the path with each slash replaced by a separator. Three bits of the noise select each
/// separator, from the lowest bits up.
fn push_respelled(out: &mut Vec<u8>, path: &[u8], noise: u64) {
    let mut noise = noise;
    for byte in path {
        if *byte == b'/' {
            out.extend_from_slice(separator(noise).as_bytes());
            noise = noise.rotate_right(3);
        } else {
            out.push(*byte);
        }
    }
}

/// Returns a part of the path, selected by `word`: the bytes before or after index `place`, the
/// parent, the file name, or the whole path.
fn part_of(path: &[u8], place: usize, word: u64) -> &[u8] {
    match word & 7 {
        0 => &path[..place],
        1 => &path[place..],
        2 => path_of(path).parent().map_or(path, bytes_of),
        3 => path_of(path).file_name().map_or(path, OsStrExt::as_bytes),
        _ => path,
    }
}

fn bytes_of(path: &Path) -> &[u8] {
    path.as_os_str().as_bytes()
}

/// Sets `near` to a path similar to `path`: to a part of it or all of it, in half of the cases in
/// another spelling, sometimes with one byte changed, and sometimes with a suffix.
fn make_near(near: &mut Vec<u8>, path: &[u8], word: u64) {
    let place = (word >> 32) as usize % (path.len() + 1);
    let noise = if word & 1 == 0 {
        noise_of(word >> 8)
    } else {
        0
    };
    near.clear();
    push_respelled(near, part_of(path, place, word >> 1), noise);
    match (word >> 4) & 7 {
        0 => {
            if let Some(byte) = near.get_mut(place) {
                *byte = BYTES[((word >> 7) & 3) as usize];
            }
        }
        1 => near.extend_from_slice(b"/x"),
        2 => near.push(b'x'),
        _ => {}
    }
}

/// Adds the order and the equality of two paths.
fn compare(first: &Path, second: &Path, digest: &mut Digest) {
    digest.add_flag(first == second);
    digest.add(match first.cmp(second) {
        Ordering::Less => 2,
        Ordering::Equal => 3,
        Ordering::Greater => 4,
    });
}

/// Adds whether the path starts and ends with the other path, and the rest of the path after the
/// other path, or 2 if the path does not start with it.
fn match_ends(path: &Path, other: &Path, digest: &mut Digest) {
    digest.add_flag(path.starts_with(other));
    digest.add_flag(path.ends_with(other));
    match path.strip_prefix(other) {
        Ok(rest) => digest.add_path(rest),
        Err(_) => digest.add(2),
    }
}

/// Adds the kind and the bytes of a component.
fn add_part(part: Component, digest: &mut Digest) {
    digest.add(match part {
        Component::RootDir => 1,
        Component::CurDir => 2,
        Component::ParentDir => 3,
        // No path on Unix has a prefix.
        Component::Normal(_) | Component::Prefix(_) => 4,
    });
    digest.add_bytes(part.as_os_str().as_bytes());
}

/// Walks the path from both ends, with one bit of `turns` for each step, and adds the component
/// that each step takes, and the rest.
fn walk(path: &Path, turns: u64, digest: &mut Digest) {
    let mut walk = path.components();
    let mut turns = turns;
    for _ in 0..64 {
        let part = if turns & 1 == 0 {
            walk.next()
        } else {
            walk.next_back()
        };
        let Some(part) = part else {
            return;
        };
        turns = turns.rotate_right(1);
        add_part(part, digest);
        digest.add_path(walk.as_path());
    }
}

/// Adds the results for a path and a similar one.
fn answer(path: &[u8], near: &mut Vec<u8>, random: &mut Random, digest: &mut Digest) {
    make_near(near, path, random.next());
    let (path, other) = (path_of(path), path_of(near));
    compare(path, other, digest);
    match_ends(path, other, digest);
    match_ends(other, path, digest);
    walk(other, random.next(), digest);
}

/// Runs the job for `count` paths, which alternate between files of a tree and requests, and also
/// for a deep path after one in 64 of them.
pub fn run(seed: u64, count: u64) -> u64 {
    let mut digest = Digest::default();
    let mut random = Random::new(seed);
    let files = Tree::new("/srv/../work/sources", seed);
    let requests = Tree::new("", seed);
    let (mut bytes, mut near) = (Vec::new(), Vec::new());
    for place in 0..count {
        bytes.clear();
        if place & 1 == 0 {
            files.push(&mut bytes, random.next() & 0xF_FFFF, 0);
        } else {
            push_request(&mut bytes, requests, &mut random, place);
        }
        answer(&bytes, &mut near, &mut random, &mut digest);
        if place & 63 == 0 {
            make_deep(&mut bytes, &mut random);
            answer(&bytes, &mut near, &mut random, &mut digest);
        }
    }
    digest.get()
}
