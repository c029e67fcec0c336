//! Resolves requests under a root, as servers and sandboxes do.
use crate::digest::Digest;
use crate::lines::path_of;
use crate::random::Random;
use crate::tree::{noise_of, push_tag, Tree};
use crate::within::{escapes, join_verbatim, join_within, relative_path, resolved};
use std::path::Path;

pub static ROOTS: [&str; 8] = [
    "/srv/www/site/public",
    "/var/lib/tenant/7f/files",
    "/home/build/sandbox/work",
    "data/uploads",
    "/srv/../srv/static//assets",
    "/opt/app/share",
    "./public",
    "/",
];

/// Hidden directories. Some requests begin with one of them.
static HIDDEN: [&str; 4] = [".well-known/acme", ".git/objects", ".config/app", ".cache"];

/// Strings that some requests begin with: they have a `..`, a `.` or a root, and some of them
/// escape.
static UPS: [&str; 8] = [
    "../",
    "a/../../",
    "a/b/../../c/../../",
    "..",
    "/",
    "a/../",
    "./..x/",
    "./",
];

/// Appends a request of a hostile client: a tag, and then two names and up to 127 `..`, or 64 to
/// 120 random bytes.
fn push_hostile(out: &mut Vec<u8>, random: &mut Random, place: u64) {
    let word = random.next();
    push_tag(out, place);
    if word & 1 == 0 {
        out.extend_from_slice(b"/b/c");
        for _ in 0..(word >> 8) & 127 {
            out.extend_from_slice(b"/..");
        }
        return;
    }
    for _ in 0..8 + ((word >> 8) & 7) {
        out.extend_from_slice(&random.next().to_le_bytes());
    }
}

/// Appends a request. Most are plain paths, some of which begin with a hidden name. One in ten has
/// `.`, `..` or `//`, a few escape, and a few are hostile. No two requests are the same, because
/// each has a tag made from `place`.
pub fn push_request(out: &mut Vec<u8>, tree: Tree, random: &mut Random, place: u64) {
    let word = random.next();
    let number = word >> 24;
    let mut noise = 0;
    match word & 63 {
        0 => return push_hostile(out, random, place),
        1..=3 => {
            out.extend_from_slice(UPS[((word >> 8) & 7) as usize].as_bytes());
            tree.push_first(out, number);
        }
        4..=9 => {
            tree.push_first(out, number);
            noise = noise_of(word >> 8);
        }
        10 | 11 => {
            tree.push_first(out, number);
            out.extend_from_slice(b"/../");
            tree.push_first(out, number ^ (1 << 20));
        }
        12..=17 => out.extend_from_slice(HIDDEN[((word >> 8) & 3) as usize].as_bytes()),
        _ => tree.push_first(out, number),
    }
    tree.push_short(out, number, noise, place);
}

/// Adds the result for a request to the digest: the join within the root and, if the join starts
/// with `root`, the rest of the join after `root`; or 0 if the request escapes.
fn answer(root: &Path, request: &Path, digest: &mut Digest) {
    match join_within(root, request) {
        Some(path) => {
            digest.add_path(&path);
            if let Ok(rest) = path.strip_prefix(root) {
                digest.add_path(rest);
            }
        }
        None => digest.add(0),
    }
}

/// Adds to the digest whether the request escapes, and then its verbatim join, or 0 if the request
/// is rejected because it has a root, a `..` or a NUL byte.
fn answer_verbatim_join(root: &Path, request: &Path, digest: &mut Digest) {
    digest.add_flag(escapes(request));
    match join_verbatim(root, request) {
        Some(path) => digest.add_path(&path),
        None => digest.add(0),
    }
}

/// Adds to the digest the results for a request as a link on a page: the resolved request, and the
/// relative path from the page to the request, or 1 if there is none.
fn answer_link(page: &Path, request: &Path, digest: &mut Digest) {
    digest.add_path(&resolved(request));
    match relative_path(page, request) {
        Some(path) => digest.add_path(&path),
        None => digest.add(1),
    }
}

/// Returns the digest of the results for `count` requests. Each is joined within three roots, and
/// verbatim with one more. Each is also a link on a page, whose path is the request before it.
pub fn run(seed: u64, count: u64) -> u64 {
    let mut digest = Digest::default();
    let mut random = Random::new(seed);
    let tree = Tree::new("", seed);
    let mut page = Vec::new();
    let mut request = Vec::new();
    for place in 0..count {
        request.clear();
        push_request(&mut request, tree, &mut random, place);
        let asked = path_of(&request);
        let root_at = |turn: u64| Path::new(ROOTS[(place.wrapping_add(turn) & 7) as usize]);
        for turn in 0..3 {
            answer(root_at(turn), asked, &mut digest);
        }
        answer_verbatim_join(root_at(3), asked, &mut digest);
        answer_link(path_of(&page), asked, &mut digest);
        page.clone_from(&request);
    }
    digest.get()
}
