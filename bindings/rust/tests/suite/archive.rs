//! The rows of `tests/entries.txt`: lists of an archive's entries, and whether they are accepted.
use crate::rows::unescaped;
use unix_path_proved::archive::{check, Entry, Kind, Level, Reason, Refusal};
use unix_path_proved::Path;

static ROWS: &str = include_str!("../../../../tests/entries.txt");

fn word(reason: Reason) -> &'static str {
    match reason {
        Reason::Name => "name",
        Reason::Kind => "kind",
        Reason::BelowLeaf => "below_leaf",
        Reason::LinkUsedTwice => "link_used_twice",
        Reason::TargetIsLink => "target_is_link",
        Reason::LeadsOut => "leads_out",
        _ => panic!("{reason:?}"),
    }
}

fn answer(result: Result<(), Refusal>) -> String {
    let field = |it: Refusal| format!("{} {} {}", word(it.reason), it.entry, it.cause);
    result.map_or_else(field, |()| "accepted".to_string())
}

fn entry<'a>(fields: &'a [Vec<u8>]) -> Entry<'a> {
    let target = Path::new(&fields[2]);
    let kind = match &fields[0][..] {
        b"d" => Kind::Directory,
        b"f" => Kind::File,
        b"l" => Kind::Symlink(target),
        b"h" => Kind::HardLink(target),
        _ => Kind::Other,
    };
    Entry::new(&fields[1], kind)
}

#[test]
fn rows() {
    let is_row = |row: &&str| !row.is_empty() && !row.starts_with('#');
    let mut asked = 0;
    for row in ROWS.lines().filter(is_row) {
        let fields: Vec<_> = row.split('|').map(|it| it.trim_matches(' ')).collect();
        let level = match fields[0] {
            "inside" => Level::Inside,
            level => {
                assert_eq!(level, "closed");
                Level::Closed
            }
        };
        let given: Vec<_> = fields[2..].iter().map(|it| unescaped(it)).collect();
        let entries = given.chunks_exact(3).map(entry);
        assert_eq!(given.len() % 3, 0, "{row}");
        assert_eq!(answer(check(entries, level)), fields[1], "{row}");
        asked += 1;
    }
    assert!(asked > 40);
}

/// A NUL ends a record's field, so what has one is refused before.
#[test]
fn nul_bytes() {
    let (file, link) = (Entry::new("a", Kind::File), Path::new(b"b\0"));
    for broken in [
        Entry::new(b"b\0f\0/c\0", Kind::File),
        Entry::new("b", Kind::Symlink(link)),
        Entry::new("b", Kind::HardLink(link)),
    ] {
        for level in [Level::Inside, Level::Closed] {
            assert_eq!(answer(check([file, broken, file], level)), "name 1 1");
            assert_eq!(answer(check([broken, file], level)), "name 0 0");
        }
    }
}
