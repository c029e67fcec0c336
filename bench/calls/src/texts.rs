//! The corpora of calls that read text: scripts and lengths, and invalid bytes.
use crate::corpora::Corpus;
use crate::random::Random;

/// The greatest number of bytes that the strings of a corpus have together.
const LEN: usize = 4096;

/// Returns the corpora.
pub fn corpora() -> Vec<Corpus> {
    well_formed().into_iter().chain(broken()).collect()
}

/// Text with letters that Latin-1 has.
const FRENCH: &str = "L'été, où l'âne brait, Noël s'ennuie à mâcher des bûches. ";

/// Text of each script.
#[rustfmt::skip]
const SCRIPTS: [(&str, &str); 5] = [
    ("ASCII", "The listing of a folder, /opt/tool-1.2/readme.txt among it; "),
    ("French", FRENCH),
    ("Greek", "Κάθε διαδρομή αρχίζει από τη ρίζα, και συνεχίζει. "),
    ("Chinese", "每条路径都从根开始然后经过许多目录最后到达一个文件"),
    ("emoji", "🌲🌳📁📂🗂🔑🧭"),
];

/// Returns text of several scripts, in strings of several lengths.
fn well_formed() -> Vec<Corpus> {
    let mut random = Random(6);
    let widths: String = (0..LEN)
        .map(|_| random.one_of(&['m', 'ß', '語', '🌲']))
        .collect();
    let mut all = vec![];
    for (script, text) in SCRIPTS.into_iter().chain([("all widths", widths.as_str())]) {
        for len in [8, 16, 25, 50, LEN] {
            let strings = (0..LEN / len)
                .map(|at| beginning_of(text, at, len))
                .collect();
            all.push(Corpus::new(script, strings));
        }
    }
    all
}

/// Repeats the text endlessly, and returns its characters from index `from` on, as many as fit into
/// `len` bytes.
fn beginning_of(text: &str, from: usize, len: usize) -> Vec<u8> {
    let mut beginning = String::new();
    for next in text.chars().cycle().skip(from) {
        if beginning.len() + next.len_utf8() > len {
            break;
        }
        beginning.push(next);
    }
    beginning.into_bytes()
}

/// Returns strings with invalid bytes, of several kinds.
#[rustfmt::skip]
fn broken() -> Vec<Corpus> {
    let every = |step: usize| -> Vec<u8> {
        let byte = |at: usize| if at % step == step - 1 { 0xFF } else { b'a' };
        (0..LEN).map(byte).collect()
    };
    let latin = FRENCH.chars().map(|c| c as u8);
    let mut random = Random(7);
    let kinds = [
        ("French in Latin-1", latin.cycle().take(LEN).collect()),
        ("FF at each 25th byte", every(25)),
        ("FF at each 4th byte", every(4)),
        ("FF at each 2nd byte", every(2)),
        ("FF alone", every(1)),
        ("any bytes", (0..LEN).map(|_| random.below(256) as u8).collect()),
    ];
    let corpus = |(name, string)| Corpus { is_broken: true, ..Corpus::new(name, vec![string]) };
    kinds.into_iter().map(corpus).collect()
}
