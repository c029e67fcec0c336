//! Matches a build's rules against its sources.
use crate::digest::Digest;
use crate::lines::{path_of, Lines};
use crate::random::Random;
use crate::tree::{noise_of, Tree};
use std::os::unix::ffi::OsStrExt;
use std::path::{Path, PathBuf};

const BASES: u64 = 40;

const SUFFIXES: u64 = 20;

/// Returns the directories that rules are for, one in four of them in another spelling than the
/// sources have.
fn bases(tree: Tree, random: &mut Random) -> Vec<PathBuf> {
    let mut bases = Vec::new();
    let mut bytes = Vec::new();
    for place in 0..BASES {
        let word = random.next();
        let noise = if place % 4 == 0 { noise_of(word) } else { 0 };
        bytes.clear();
        tree.push(&mut bytes, (word >> 40) & 0xF_FFFF, noise);
        let mut base = path_of(&bytes).to_path_buf();
        for _ in 0..1 + place % 5 {
            base.pop();
        }
        bases.push(base);
    }
    bases
}

/// Returns the suffixes of paths that rules are for: a file's name, and for half of them its
/// directory's name before it.
fn suffixes(tree: Tree, random: &mut Random) -> Lines {
    let mut suffixes = Lines::default();
    for place in 0..SUFFIXES {
        let word = random.next();
        let mut bytes = Vec::new();
        tree.push(&mut bytes, (word >> 40) & 0xF_FFFF, 0);
        let path = path_of(&bytes);
        let folder = path.parent().and_then(Path::file_name);
        if let (0, Some(name)) = (place % 2, folder) {
            suffixes.buffer().extend_from_slice(name.as_bytes());
            suffixes.buffer().push(b'/');
        }
        if let Some(name) = path.file_name() {
            suffixes.buffer().extend_from_slice(name.as_bytes());
        }
        suffixes.end_line();
    }
    suffixes
}

/// Adds the source's names that rules use.
fn add_names(source: &Path, digest: &mut Digest) {
    digest.add_text(source.file_name());
    digest.add_text(source.file_stem());
    digest.add_text(source.extension());
    digest.add_text(source.file_prefix());
}

/// Returns the length of the longest common prefix of both paths that is empty or ends with a
/// slash.
fn common_dir(source: &Path, before: &Path) -> usize {
    let (source, before) = (source.as_os_str().as_bytes(), before.as_os_str().as_bytes());
    let pairs = source.iter().zip(before);
    let common = pairs.take_while(|(left, right)| left == right).count();
    let slash = source[..common].iter().rposition(|byte| *byte == b'/');
    slash.map_or(0, |place| place + 1)
}

/// Returns the last of the bases that the source is below. All are checked, as in
/// `crates/path_jobs`.
fn base_of<'a>(source: &Path, bases: &'a [PathBuf]) -> Option<&'a Path> {
    let mut found = None;
    for base in bases {
        if source.starts_with(base) {
            found = Some(base.as_path());
        }
    }
    found
}

/// Returns the number of suffixes that the source ends with.
fn suffix_count(source: &Path, suffixes: &[&Path]) -> usize {
    let ends = suffixes.iter().filter(|suffix| source.ends_with(suffix));
    ends.count()
}

/// Returns the path of a source's output: the rest of the source's path after the base, below
/// another directory and with another extension.
fn output_of(source: &Path, base: &Path) -> PathBuf {
    let rest = source.strip_prefix(base).unwrap_or(source);
    let object = Path::new("/work/out/debug/objects").join(rest);
    object.with_extension("o")
}

/// Returns the path of a source's list of dependencies, in the same directory.
fn list_of(source: &Path) -> PathBuf {
    let mut list = source.with_file_name("depends");
    list.add_extension("d");
    list
}

/// Adds the position of the source: its depth, and how much it shares with the source before it.
fn add_place(source: &Path, before: &Path, digest: &mut Digest) {
    for folder in source.ancestors() {
        digest.add(folder.as_os_str().len() as u64);
    }
    digest.add(common_dir(source, before) as u64);
}

/// Matches `count` sources against the rules.
pub fn run(seed: u64, count: u64) -> u64 {
    let mut digest = Digest::default();
    let mut random = Random::new(seed);
    let tree = Tree::new("/work/checkout/sources", seed);
    let bases = bases(tree, &mut random);
    let lines = suffixes(tree, &mut random);
    let suffixes = lines.paths();
    let mut before = Vec::new();
    let mut bytes = Vec::new();
    for place in 0..count {
        bytes.clear();
        tree.push(&mut bytes, place & 0xF_FFFF, 0);
        let source = path_of(&bytes);
        let base = base_of(source, &bases);
        digest.add(suffix_count(source, &suffixes) as u64);
        add_names(source, &mut digest);
        add_place(source, path_of(&before), &mut digest);
        if let Some(base) = base {
            digest.add_path(&output_of(source, base));
        }
        digest.add_path(&list_of(source));
        before.clone_from(&bytes);
    }
    digest.get()
}
