//! pathtool and a program over `std::path` that answers the same lines.
use crate::clock;
use crate::commands;
use crate::corpora::corpora;
use crate::random::Random;
use crate::timing::{Measure, Timer};
use std::env::{current_exe, temp_dir, var_os};
use std::fs::{remove_dir_all, write, File};
use std::path::{Path, PathBuf};
use std::process::{id, Command};

/// The number of bytes in the lines of a group.
const LEN: usize = 2 << 20;

/// Returns the paths of pathtool and of the program over std, which cargo builds with this one.
fn programs() -> [PathBuf; 2] {
    let built = concat!(env!("CARGO_MANIFEST_DIR"), "/../../build/pathtool");
    let ours = var_os("UNIX_PATH_PROGRAM").unwrap_or_else(|| built.into());
    let this = current_exe().expect("this program has a path");
    [ours.into(), this.with_file_name("std_pathtool")]
}

/// Runs the program on a file, and writes its answers to another one.
fn run(program: &Path, input: &Path, output: &Path) -> u64 {
    let input = File::open(input).expect("the lines are there");
    let output = File::create(output).expect("the folder can be written to");
    let mut command = Command::new(program);
    let status = command.stdin(input).stdout(output).status();
    let status = status.unwrap_or_else(|error| panic!("{}: {error}", program.display()));
    u64::from(!status.success())
}

/// Returns the ratio for each group of commands.
pub fn measures(reps: usize) -> Vec<Measure> {
    let folder = temp_dir().join(format!("calls-{}", id()));
    std::fs::create_dir(&folder).expect("the folder can be made");
    let [input, ours, theirs] = ["lines", "ours", "theirs"].map(|it| folder.join(it));
    let [program, std_program] = programs();
    let (reps, budget, clock) = (
        reps * 4,
        reps as f64 * 0.5,
        clock::of_children as fn() -> f64,
    );
    let timer = Timer {
        reps,
        budget,
        clock,
    };
    let paths = Paths::new();
    let measure = |(_, commands): Group| {
        write(&input, paths.lines(&commands, LEN)).expect("the folder can be written to");
        let found = timer.compare(1, &|_| run(&program, &input, &ours), &|_| {
            run(&std_program, &input, &theirs)
        });
        let answers = [&ours, &theirs].map(|it| std::fs::read(it).expect("the answers are there"));
        let is_same = found.is_same && answers[0] == answers[1];
        Measure { is_same, ..found }
    };
    let measures = groups().into_iter().map(measure).collect();
    remove_dir_all(&folder).expect("the folder can be removed");
    measures
}

/// A name for some commands, and these commands.
type Group = (&'static str, Vec<&'static str>);

/// Returns the groups of the commands that std::path answers the same way, and a group of all of
/// these.
fn groups() -> Vec<Group> {
    let mut groups: Vec<Group> = vec![];
    for command in commands::all().filter(|command| command.is_std) {
        match groups.iter_mut().find(|group| group.0 == command.group) {
            Some(group) => group.1.push(command.name),
            None => groups.push((command.group, vec![command.name])),
        }
    }
    let all = groups.iter().flat_map(|group| group.1.clone()).collect();
    groups.push(("all of them", all));
    groups
}

/// The paths from which lines are made: realistic paths and, for about one line in eight, paths
/// that may be invalid UTF-8.
struct Paths {
    realistic: Vec<Vec<u8>>,
    broken: Vec<Vec<u8>>,
}

impl Paths {
    fn new() -> Paths {
        let mut corpora = corpora();
        let broken = corpora.pop().expect("the last corpus").paths;
        let realistic = corpora.swap_remove(0).paths;
        Paths { realistic, broken }
    }

    /// Returns lines of at least `len` bytes in all, each with one of the commands.
    fn lines(&self, commands: &[&str], len: usize) -> Vec<u8> {
        let mut random = Random(8);
        let mut lines = vec![];
        while lines.len() < len {
            let is_broken = random.below(8) == 0;
            let source = if is_broken {
                &self.broken
            } else {
                &self.realistic
            };
            let at = random.below(source.len());
            let command = random.one_of(commands);
            let next = &source[(at + 1) % source.len()];
            push_line(command, &source[at], next, &mut lines);
        }
        lines
    }
}

/// Appends a line with the command and a path. `next` is the path after it in the corpus, for
/// commands on two paths.
fn push_line(command: &str, path: &[u8], next: &[u8], lines: &mut Vec<u8>) {
    lines.extend_from_slice(command.as_bytes());
    lines.push(b'\t');
    lines.extend_from_slice(path);
    push_fields(command, path, next, lines);
    lines.push(b'\n');
}

/// Appends the fields that follow the path of the command, each with a tab before it.
fn push_fields(command: &str, path: &[u8], next: &[u8], line: &mut Vec<u8>) {
    let half = path.len() / 2;
    match commands::behind(command) {
        "" => {}
        "TURNS" => line.extend_from_slice(b"\tffbfb"),
        "B" => line.extend_from_slice(b"\tdocs/notes.txt"),
        "BASE" => push_field(&path[..half], line),
        "END" => push_field(&path[half..], line),
        "Q" => push_field(next, line),
        "P.." => push_paths(path, next, line),
        "EDIT.." => line.extend_from_slice(b"\tpop\tpush:docs/notes\text:md\tname:index.html"),
        other => panic!("no fields are known for {other} of commands.txt"),
    }
}

/// Appends fields with paths, some of which are below `path`, each with a tab before it.
fn push_paths(path: &[u8], next: &[u8], line: &mut Vec<u8>) {
    push_field(path, line);
    line.extend_from_slice(b"//docs/notes.txt");
    push_field(next, line);
    push_field(path, line);
    line.extend_from_slice(b"/./docs/index.html");
}

/// Appends a tab and the field.
fn push_field(field: &[u8], line: &mut Vec<u8>) {
    line.push(b'\t');
    line.extend_from_slice(field);
}
