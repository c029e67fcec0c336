//! Paths as keys: hashes, maps in which another spelling finds them, and keys for ordered stores.
use crate::strings::*;
use std::borrow::Cow;
use std::collections::hash_map::{DefaultHasher, RandomState};
use std::collections::{BTreeMap, BTreeSet, HashMap, HashSet};
use std::hash::{BuildHasher, BuildHasherDefault, Hash, Hasher};
use std::ops::RangeBounds;
use std::{rc::Rc, sync::Arc};
use unix_path_proved::{calls, Component, Error, Path, PathBuf, UnixStr, UnixString};

/// A hasher that stores what it is fed, each time in one item.
#[derive(Default)]
struct Fed(Vec<Vec<u8>>);

impl Hasher for Fed {
    fn write(&mut self, bytes: &[u8]) {
        self.0.push(bytes.to_vec());
    }

    fn finish(&self) -> u64 {
        0
    }
}

/// Returns what the key feeds a hasher.
fn feeds_of(key: impl Hash) -> Vec<Vec<u8>> {
    let mut hasher = Fed::default();
    key.hash(&mut hasher);
    hasher.0
}

/// Returns the bytes that the key feeds a hasher.
fn fed_by(key: impl Hash) -> Vec<u8> {
    feeds_of(key).concat()
}

/// Returns what a path feeds a hasher: its canonical form and then an end mark. Checks that a
/// borrowed path, an owned path and a walk feed the same.
fn fed_by_path(path: &Path) -> Vec<Vec<u8>> {
    let fed = feeds_of(path);
    let canonical: PathBuf = path.components().collect();
    assert_eq!(fed.concat(), [bytes(&canonical), b"//\0"].concat());
    assert_eq!(fed, feeds_of(&canonical));
    assert_eq!(fed, feeds_of(path.components()));
    assert_eq!(fed, feeds_of(path.to_path_buf()));
    assert_eq!(fed, feeds_of(Box::<Path>::from(path)));
    assert_eq!(fed, feeds_of(Rc::<Path>::from(path)));
    assert_eq!(fed, feeds_of(Arc::<Path>::from(path)));
    assert_eq!(fed, feeds_of(Cow::from(path)));
    fed
}

/// Checks that equal paths feed a hasher the same bytes, that different paths do not, and that no
/// path's bytes are a prefix of another's. So different paths, or different lists of paths, may
/// collide under one key of a hasher, but not under every key.
#[test]
fn hashers_are_fed_the_parts() {
    let mut feeds = HashMap::new();
    let strings = [over(b"/.ab\0\xFF", 5), short(6), random(20_000)];
    for s in strings.iter().flatten() {
        let fed = fed_by_path(ours(s));
        let same = feeds.entry(theirs(s).to_owned()).or_insert(fed.clone());
        assert_eq!(*same, fed);
    }
    let sorted: BTreeSet<_> = feeds.values().map(|fed| fed.concat()).collect();
    assert_eq!(sorted.len(), feeds.len());
    // The set is sorted: a feed that is a prefix of some other feed is also a prefix of the next
    // one.
    let sorted: Vec<_> = sorted.into_iter().collect();
    assert!(sorted.windows(2).all(|pair| !pair[1].starts_with(&pair[0])));
}

/// Checks long paths, which are fed in blocks: each spelling in the same ones.
#[test]
fn long_paths_feed_the_same_blocks() {
    for length in 240..300 {
        for piece in ["a", "a/", "ab/..", "/"] {
            let long: String = piece.chars().cycle().take(length).collect();
            for spelling in [long.clone(), format!("{long}//b"), format!("/{long}/./b")] {
                let fed = fed_by_path(Path::new(&spelling));
                let other = spelling.replace('/', "/./") + "/.";
                let is_same = Path::new(&other) == Path::new(&spelling);
                assert_eq!(fed == fed_by_path(Path::new(&other)), is_same, "{spelling}");
            }
        }
    }
}

/// Checks that the lists of two or three paths with 64 names in all feed a hasher different bytes
/// and have different hashes.
#[test]
fn cut_lists_differ() {
    let path = |names| PathBuf::from_iter(["a"].repeat(names));
    let mut lists = vec![];
    for first in 0..=64 {
        lists.push(vec![path(first), path(64 - first)]);
        for second in 0..=64 - first {
            lists.push([first, second, 64 - first - second].map(path).into());
        }
    }
    let fixed = BuildHasherDefault::<DefaultHasher>::default();
    let random = RandomState::new();
    let feeds: HashSet<_> = lists.iter().map(fed_by).collect();
    let hashes: HashSet<_> = lists.iter().map(|it| fixed.hash_one(it)).collect();
    let keyed: HashSet<_> = lists.iter().map(|it| random.hash_one(it)).collect();
    assert_eq!(lists.len(), 65 + 65 * 66 / 2);
    assert_eq!([feeds.len(), hashes.len(), keyed.len()], [lists.len(); 3]);
}

#[test]
fn equal_paths_share_a_hash() {
    let (mut hashes, mut spellings) = (HashSet::new(), HashSet::new());
    for s in over(b"/.ab", 5) {
        let spelling = ours(&s).canonical();
        let hash = calls::hash(&s);
        assert_eq!(hash, calls::hash(bytes(&spelling)), "{}", s.escape_ascii());
        hashes.insert(hash);
        spellings.insert(Vec::from(spelling));
    }
    // Few of these hashes collide by chance.
    assert!(hashes.len() * 10 > spellings.len() * 9);
}

#[test]
fn texts_feed_their_bytes() {
    let text = UnixStr::new("a//b");
    assert_eq!(fed_by(text), fed_by(&b"a//b"[..]));
    assert_eq!(fed_by(text), fed_by(UnixString::from("a//b")));
    assert_ne!(fed_by(text), fed_by(UnixStr::new("a/b")));
}

/// Checks that each path is found by each of its spellings, as in a map of std's paths.
#[test]
fn maps() {
    let (mut hashed, mut ordered) = (HashMap::new(), BTreeMap::new());
    let mut want = HashMap::new();
    let strings: Vec<Vec<u8>> = short(6).into_iter().chain(random(20_000)).collect();
    for (number, s) in strings.iter().enumerate().rev() {
        hashed.insert(PathBuf::from(ours(s)), number);
        ordered.insert(PathBuf::from(ours(s)), number);
        want.insert(theirs(s).to_owned(), number);
    }
    assert_eq!((hashed.len(), ordered.len()), (want.len(), want.len()));
    for s in &strings {
        let spellings = [
            s.clone(),
            [s, &b"/."[..]].concat(),
            [s, &b"//"[..]].concat(),
        ];
        for spelling in spellings {
            let want = want.get(theirs(&spelling));
            assert_eq!(hashed.get(ours(&spelling)), want);
            assert_eq!(ordered.get(ours(&spelling)), want);
        }
    }
    let keys: Vec<_> = ordered.keys().map(|it| theirs(bytes(it))).collect();
    assert!(keys.windows(2).all(|pair| pair[0] < pair[1]));
}

#[test]
fn other_spellings() {
    let hashed = HashMap::from([(PathBuf::from("/a//b"), 1)]);
    let ordered = BTreeMap::from([(PathBuf::from("/a//b"), 1)]);
    for spelling in ["/a/b", "//a/b/", "/a/./b/."] {
        assert_eq!(hashed.get(Path::new(spelling)), Some(&1));
        assert_eq!(ordered.get(Path::new(spelling)), Some(&1));
    }
    for other in ["a/b", "/a/b/c", "/a", "/a/../a/b"] {
        assert_eq!(
            (hashed.get(Path::new(other)), ordered.get(Path::new(other))),
            (None, None)
        );
    }
    let texts = HashMap::from([(UnixString::from("a"), 1)]);
    assert_eq!(texts.get(UnixStr::new("a")), Some(&1));
}

/// Checks that two paths whose hashes collide under one key of a hasher don't collide under most
/// other keys.
#[test]
fn keys_of_hashers_count() {
    let keys: Vec<RandomState> = (0..64).map(|_| RandomState::new()).collect();
    let low = |key: &RandomState, path: &str| key.hash_one(Path::new(path)) % 16;
    let met = keys
        .iter()
        .filter(|key| low(key, "/a/b") == low(key, "/a/c"));
    assert!((0..30).contains(&met.count()));
}

/// Returns the key of a path, component by component.
fn key_of(path: &[u8]) -> Vec<u8> {
    let codes = ours(path).components().map(|part| match part {
        Component::RootDir => b"\0\x01".to_vec(),
        Component::CurDir => b"\0\x02".to_vec(),
        Component::ParentDir => b"\0\x03".to_vec(),
        Component::Normal(name) => bytes(name)
            .iter()
            .map(|byte| byte + u8::from(*byte < b'/'))
            .chain([0])
            .collect(),
    });
    codes.flatten().collect()
}

#[test]
fn keys_of_short_strings() {
    for s in over(b"/.a0\0\xFF", 5) {
        let key = ours(&s).key();
        assert_eq!(key, key_of(&s), "{}", s.escape_ascii());
        let path = PathBuf::from_key(&key).unwrap();
        assert_eq!(bytes(&path), bytes(&ours(&s).canonical()));
    }
}

/// Checks that bytes are refused if they are the key of no path.
#[test]
fn short_strings_as_keys() {
    let paths = over(b"/.a0\0\x01\x02\xFF", 5);
    let keys: HashSet<_> = paths.iter().map(|s| key_of(s)).collect();
    for key in over(b"/a0\0\x01\x02\x03\xFF", 5) {
        let path = PathBuf::from_key(&key);
        assert_eq!(path.is_ok(), keys.contains(&key));
        match path {
            Ok(path) => assert_eq!(key_of(bytes(&path)), key),
            Err(error) => assert_eq!(error, Error::NotAKey),
        }
    }
}

/// Checks that keys sort in the order of their paths, and that a key's range has the paths that
/// start with its path.
#[test]
fn keys_of_pairs() {
    let strings = over(b"/.a0\0\xFF", 5);
    let keys: Vec<_> = strings.iter().map(|s| ours(s).key()).collect();
    for (base, first) in strings.iter().zip(&keys) {
        let range = ours(base).key_range();
        for (s, key) in strings.iter().zip(&keys) {
            assert_eq!(key.cmp(first), ours(s).cmp(ours(base)));
            assert_eq!(range.contains(key), ours(s).starts_with(base));
        }
    }
}
