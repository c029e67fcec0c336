//! Paths from outside: all short strings, compared with a fold over their components.
use crate::strings::{bytes, ours, over};
use unix_path_proved::{Component, Error, PathBuf, RequestError};

/// A path that was made, as bytes.
type Made = Result<Vec<u8>, Error>;

fn made(result: Result<PathBuf, Error>) -> Made {
    result.map(Vec::from)
}

fn resolved(path: &[u8]) -> Vec<u8> {
    ours(path).resolved().into()
}

fn join_beneath(root: &[u8], request: &[u8]) -> Made {
    made(ours(root).join_beneath(request))
}

fn join_in_root(root: &[u8], request: &[u8]) -> Made {
    made(ours(root).join_in_root(request))
}

fn join_verbatim(root: &[u8], request: &[u8]) -> Made {
    made(ours(root).join_verbatim(request))
}

/// Returns the components that remain after each `..` removes the name before it.
fn kept_parts(path: &[u8]) -> Vec<&[u8]> {
    let mut kept: Vec<&[u8]> = vec![];
    for part in ours(path).components() {
        match (part, kept.last()) {
            (Component::CurDir, _) | (Component::ParentDir, Some(&b"/")) => {}
            (Component::ParentDir, Some(last)) if *last != b".." => {
                kept.pop();
            }
            _ => kept.push(part.as_unix_str().as_bytes()),
        }
    }
    kept
}

/// Returns the components with a slash between two of them, but none after the root.
fn spelling(kept: &[&[u8]]) -> Vec<u8> {
    match kept.split_first() {
        Some((&b"/", names)) => [b"/", &names.join(&b'/')[..]].concat(),
        _ => kept.join(&b'/'),
    }
}

/// Returns true if some prefix of the components has more `..` than names, or the first component
/// is the root.
fn goes_out(path: &[u8]) -> bool {
    let mut depth = 0;
    ours(path).components().any(|part| {
        depth += match part {
            Component::Normal(_) => 1,
            Component::ParentDir => -1,
            Component::RootDir | Component::CurDir => 0,
        };
        part == Component::RootDir || depth < 0
    })
}

#[test]
fn resolved_and_escaping() {
    for s in over(b"/.ab", 6) {
        let want = spelling(&kept_parts(&s));
        assert_eq!(resolved(&s), want, "{}", s.escape_ascii());
        assert_eq!(ours(&s).escapes(), goes_out(&s), "{}", s.escape_ascii());
    }
}

/// Returns the join, or an error if the request has a root, a `..` or a NUL.
fn verbatim_join(root: &[u8], request: &[u8]) -> Made {
    let is_refused = |part| matches!(part, Component::RootDir | Component::ParentDir);
    if ours(request).components().any(is_refused) {
        return Err(Error::Escapes);
    }
    if request.contains(&0) {
        return Err(Error::Nul);
    }
    Ok(ours(root).join(request).into())
}

/// Checks that a join beneath a resolved root has the same bytes as the plain join of root and
/// request after it is resolved, and that it starts with the root.
#[test]
fn joined_beneath_resolved() {
    let strings = over(b"/.a", 5);
    for root in &strings {
        let base = resolved(root);
        for path in &strings {
            assert_eq!(join_verbatim(root, path), verbatim_join(root, path));
            let Ok(joined) = join_beneath(&base, path) else {
                assert!(ours(path).escapes());
                continue;
            };
            let plain = ours(root).join(ours(path));
            assert_eq!(joined, spelling(&kept_parts(bytes(&plain))));
            assert_eq!(resolved(bytes(&plain)), joined);
            assert!(ours(&joined).starts_with(&base) && !ours(path).escapes());
        }
    }
}

#[test]
fn joined_verbatim() {
    let roots: [&[u8]; 7] = [b"", b"/", b"/www", b"..", b"/w\0w", b"/a/../b//.", b"/b"];
    for request in over(b"/.a\0", 6) {
        for root in roots {
            let want = verbatim_join(root, &request);
            assert_eq!(join_verbatim(root, &request), want);
        }
    }
}

/// Returns the root and then the names that remain of the request in a chroot, with slashes between
/// them.
fn joined_names(root: &[u8], request: &[u8]) -> Vec<u8> {
    let behind_root = [b"/", request].concat();
    let names = kept_parts(&behind_root)[1..].join(&b'/');
    if names.is_empty() || root.is_empty() || root.ends_with(b"/") {
        return [root, &names].concat();
    }
    [root, b"/", &names].concat()
}

/// Returns what `check_request` should return, by its definition.
fn refusal(path: &[u8]) -> Result<(), RequestError> {
    match path.first() {
        Some(b'/') => Err(RequestError::Rooted),
        _ if goes_out(path) => Err(RequestError::Escapes),
        _ if path.contains(&0) => Err(RequestError::Nul),
        _ => Ok(()),
    }
}

/// Checks that a join in a root is the same without the request's leading slashes, and that a join
/// beneath the root is the join in the root unless the request is refused.
#[test]
fn joined_to_roots() {
    let roots: [&[u8]; 6] = [b"", b"/", b"/www", b"..", b"/a/../b//.", b"/b"];
    for path in over(b"/.a\0", 6) {
        let slashes = path.iter().take_while(|byte| **byte == b'/').count();
        let checked = refusal(&path);
        assert_eq!(ours(&path).check_request(), checked);
        for root in roots {
            let in_root = match path.contains(&0) {
                true => Err(Error::Nul),
                false => Ok(joined_names(root, &path)),
            };
            assert_eq!(join_in_root(root, &path), in_root);
            assert_eq!(join_in_root(root, &path[slashes..]), in_root);
            let beneath = match checked {
                Err(RequestError::Rooted | RequestError::Escapes) => Err(Error::Escapes),
                _ => in_root,
            };
            assert_eq!(join_beneath(root, &path), beneath);
        }
    }
}

/// Returns true if the last component is a name and the path does not end with it.
fn ends_after_name(path: &[u8]) -> bool {
    match ours(path).components().next_back() {
        Some(Component::Normal(name)) => !path.ends_with(name.as_bytes()),
        _ => false,
    }
}

#[test]
fn roots_and_directories() {
    for path in over(b"/.a\0", 6) {
        let found = (ours(&path).request_is_root(), ours(&path).ends_in_slash());
        let want = (joined_names(b"", &path).is_empty(), ends_after_name(&path));
        assert_eq!(found, want, "{}", path.escape_ascii());
    }
}

/// Returns the relative path, from the components that both paths resolve to, or an error if there
/// is none.
fn relative_path_by_parts(from: &[u8], to: &[u8]) -> Made {
    let (from, to) = (kept_parts(from), kept_parts(to));
    let shared = from.iter().zip(&to).take_while(|(a, b)| a == b).count();
    let (left, onward) = (&from[shared..], &to[shared..]);
    if left.iter().any(|part| *part == b".." || *part == b"/") || onward.first() == Some(&&b"/"[..])
    {
        return Err(Error::NoRelativePath);
    }
    let ups = left.iter().map(|_| &b".."[..]);
    Ok(spelling(
        &ups.chain(onward.iter().copied()).collect::<Vec<_>>(),
    ))
}

#[test]
fn relative_paths() {
    let strings = over(b"/.a", 5);
    for from in &strings {
        for to in &strings {
            let way = made(ours(from).relative_path(to));
            assert_eq!(way, relative_path_by_parts(from, to));
        }
    }
}

#[test]
fn resolved_and_canonical() {
    for s in over(b"/.a", 6) {
        let resolved = ours(&s).resolved();
        let canonical = ours(&s).canonical();
        for again in [
            resolved.canonical(),
            resolved.resolved(),
            canonical.resolved(),
        ] {
            assert_eq!(bytes(&again), bytes(&resolved));
        }
        assert!(resolved.is_canonical() && canonical.is_canonical());
    }
}
