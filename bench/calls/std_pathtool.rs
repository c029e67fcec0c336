//! The program over `std::path`: answers the lines of `pathtool`, all except `json`.
use std::cmp::Ordering;
use std::collections::BTreeSet;
use std::ffi::OsStr;
use std::io::{self, BufWriter, Read, Write};
use std::ops::Bound::{Included, Unbounded};
use std::os::unix::ffi::OsStrExt;
use std::path::{Path, PathBuf};

/// Returns the field as a string of the system.
fn text(field: &[u8]) -> &OsStr {
    OsStr::from_bytes(field)
}

/// Returns the field as a path.
fn path(field: &[u8]) -> &Path {
    Path::new(text(field))
}

/// Appends the items, with a tab between two of them.
fn push_list<'a>(items: impl Iterator<Item = &'a OsStr>, answer: &mut Vec<u8>) {
    for (place, item) in items.enumerate() {
        if place > 0 {
            answer.push(b'\t');
        }
        answer.extend_from_slice(item.as_bytes());
    }
}

/// Appends `+` and the item, or `-` if there is none.
fn push_option(item: Option<&OsStr>, answer: &mut Vec<u8>) {
    match item {
        Some(item) => {
            answer.push(b'+');
            answer.extend_from_slice(item.as_bytes());
        }
        None => answer.push(b'-'),
    }
}

/// Appends the path.
fn push_path(path: &Path, answer: &mut Vec<u8>) {
    answer.extend_from_slice(path.as_os_str().as_bytes());
}

/// Appends `true` or `false`.
fn push_truth(is_so: bool, answer: &mut Vec<u8>) {
    answer.extend_from_slice(if is_so { b"true" } else { b"false" });
}

/// Appends `less`, `equal` or `greater`.
fn push_order(order: Ordering, answer: &mut Vec<u8>) {
    answer.extend_from_slice(match order {
        Ordering::Less => b"less",
        Ordering::Equal => b"equal",
        Ordering::Greater => b"greater",
    });
}

/// Appends the answer to a line that is no command.
fn push_bad_command(answer: &mut Vec<u8>) {
    answer.extend_from_slice(b"bad command");
}

/// Appends the answer to `walk`: the components that the turns take from both ends, and the rest.
fn push_walk(path: &Path, turns: &[u8], answer: &mut Vec<u8>) {
    let mut left = path.components();
    let (mut front, mut behind) = (vec![], vec![]);
    for turn in turns {
        match turn {
            b'f' => front.extend(left.next()),
            b'b' => behind.extend(left.next_back()),
            _ => return push_bad_command(answer),
        }
    }
    let counts = format!("{}\t{}", front.len(), behind.len());
    let parts = front.iter().map(|part| part.as_os_str());
    let rest = std::iter::once(left.as_path().as_os_str());
    let parts_behind = behind.iter().map(|part| part.as_os_str());
    let items = std::iter::once(OsStr::new(&counts));
    push_list(items.chain(parts).chain(rest).chain(parts_behind), answer);
}

/// Makes an edit of the extension and appends its answer: what `edit` returns, or `separator` if
/// the extension has a slash, for which the library would panic.
fn push_extended(extension: &[u8], answers: &mut Vec<u8>, edit: impl FnOnce(&OsStr) -> bool) {
    if extension.contains(&b'/') {
        answers.extend_from_slice(b"separator");
    } else {
        push_truth(edit(text(extension)), answers);
    }
}

/// Makes the edit that the field names, and appends its answer. Returns false if the field names no
/// edit.
fn push_edit(field: &[u8], edited: &mut PathBuf, answers: &mut Vec<u8>) -> bool {
    answers.push(b'\t');
    if field == b"pop" {
        push_truth(edited.pop(), answers);
    } else if let Some(extension) = field.strip_prefix(b"ext:") {
        push_extended(extension, answers, |text| edited.set_extension(text));
    } else if let Some(extension) = field.strip_prefix(b"add:") {
        push_extended(extension, answers, |text| edited.add_extension(text));
    } else {
        if field == b"clear" {
            edited.clear();
        } else if let Some(more) = field.strip_prefix(b"push:") {
            edited.push(path(more));
        } else if let Some(name) = field.strip_prefix(b"name:") {
            edited.set_file_name(text(name));
        } else {
            return false;
        }
        answers.extend_from_slice(b"ok");
    }
    true
}

/// Makes the edits, and appends the edited path and the answers of the edits.
fn push_edited(path: &Path, fields: &[&[u8]], answer: &mut Vec<u8>) {
    let mut edited = path.to_path_buf();
    let mut answers = vec![];
    for field in fields {
        if !push_edit(field, &mut edited, &mut answers) {
            return push_bad_command(answer);
        }
    }
    push_path(&edited, answer);
    answer.extend_from_slice(&answers);
}

/// Returns the canonical form of the path.
fn canonical(path: &Path) -> PathBuf {
    path.components().collect()
}

/// Appends, for each path that starts with the base, the rest of the path after the base, in
/// canonical form.
fn push_under(base: &Path, fields: &[&[u8]], answer: &mut Vec<u8>) {
    let paths: BTreeSet<PathBuf> = fields.iter().map(|field| path(field).into()).collect();
    let rests: Vec<PathBuf> = paths
        .range::<Path, _>((Included(base), Unbounded))
        .map_while(|path| path.strip_prefix(base).ok())
        .map(canonical)
        .collect();
    push_list(rests.iter().map(|rest| rest.as_os_str()), answer);
}

/// Appends the path as text.
fn push_shown(path: &Path, answer: &mut Vec<u8>) {
    for chunk in path.as_os_str().as_bytes().utf8_chunks() {
        answer.extend_from_slice(chunk.valid().as_bytes());
        if !chunk.invalid().is_empty() {
            answer.extend_from_slice("\u{FFFD}".as_bytes());
        }
    }
}

/// Appends the answer to a line.
fn push_answer(fields: &[&[u8]], answer: &mut Vec<u8>) {
    match fields {
        [b"parts", p] => push_list(path(p).iter(), answer),
        [b"back", p] => push_list(path(p).iter().rev(), answer),
        [b"walk", p, turns] => push_walk(path(p), turns, answer),
        [b"parent", p] => push_option(path(p).parent().map(Path::as_os_str), answer),
        [b"ancestors", p] => push_list(path(p).ancestors().map(Path::as_os_str), answer),
        [b"name", p] => push_option(path(p).file_name(), answer),
        [b"stem", p] => push_option(path(p).file_stem(), answer),
        [b"ext", p] => push_option(path(p).extension(), answer),
        [b"canon", p] => push_path(&canonical(path(p)), answer),
        [b"join", p, q] => push_path(&path(p).join(path(q)), answer),
        [b"strip", p, base] => match path(p).strip_prefix(path(base)) {
            Ok(rest) => push_option(Some(rest.as_os_str()), answer),
            Err(_) => answer.extend_from_slice(b"prefix not found"),
        },
        [b"starts", p, q] => push_truth(path(p).starts_with(path(q)), answer),
        [b"ends", p, q] => push_truth(path(p).ends_with(path(q)), answer),
        [b"cmp", p, q] => push_order(path(p).cmp(path(q)), answer),
        [b"edit", p, edits @ ..] => push_edited(path(p), edits, answer),
        [b"under", base, paths @ ..] => push_under(path(base), paths, answer),
        [b"show", p] => push_shown(path(p), answer),
        _ => push_bad_command(answer),
    }
}

fn main() -> io::Result<()> {
    let mut input = vec![];
    io::stdin().lock().read_to_end(&mut input)?;
    let mut output = BufWriter::with_capacity(1 << 16, io::stdout().lock());
    let mut fields = vec![];
    let mut answer = vec![];
    for line in input.split_inclusive(|byte| *byte == b'\n') {
        let line = line.strip_suffix(b"\n").unwrap_or(line);
        fields.clear();
        fields.extend(line.split(|byte| *byte == b'\t'));
        answer.clear();
        push_answer(&fields, &mut answer);
        answer.push(b'\n');
        output.write_all(&answer)?;
    }
    output.flush()
}
