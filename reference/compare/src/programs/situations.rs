//! The situations in which `solve` and `mark` are compared, and those that must be seen.

use crate::drawing::examples::{self, is_example};
use crate::harness::files::{Entry, Folder};
use crate::harness::runs::Program;
use crate::harness::tally::{other, sort_of_graph, Note, Seen};
use reference::programs::{Input, Refused};
use reference::{Graph, Kind};

/// How many subgraphs of a graph are optimal.
#[derive(Clone, Copy, Debug, PartialEq, Eq)]
pub enum Best {
    One,
    Several,
    /// There are too many to try every one.
    Untried,
}

impl Best {
    fn words(self) -> &'static str {
        match self {
            Best::One => "just one is best",
            Best::Several => "several are best",
            Best::Untried => "too many to try every one",
        }
    }
}

const PLANS: &str = "solve, plans";

const LINES: &str = "mark, lines";
const NO_GAP: &str = "gap 0";
const GAP: &str = "gap above 0";
const ODD_GAP: &str = "odd gap, and so odd prices";
const NEGATIVE: &str = "merit below 0";

const ABSENT: &str = "absent files";
const FOLDERS: &str = "folders in a file's place";
const EMPTY: &str = "empty files";
const LONGEST: &str = "files of 32,768 bytes, taken";
const TOO_LONG: &str = "files of 32,769 bytes, refused";
const FAR_TOO_LONG: &str = "files of 1,000,000 bytes, refused";
pub const UNUSUAL: [&str; 6] = [ABSENT, FOLDERS, EMPTY, LONGEST, TOO_LONG, FAR_TOO_LONG];

const EXAMPLES: &str = "the examples";

fn refused_in(program: Program, from: &str) -> String {
    format!("{}, refused in {from}", program.name())
}

/// A program and a file or folder, in words.
fn with(program: Program, what: &str) -> Seen {
    other(format!("{} with {what}", program.name()))
}

/// What a plan or a line that is printed shows; of a plan it is said how many are best.
fn seen_in_result(g: &Graph, text: &[u8], best: Option<Best>) -> Note {
    let mut seen = vec![sort_of_graph(g.kind, g.edges > 500)];
    if let Some(best) = best {
        seen.push(other(best.words()));
        return (PLANS.into(), seen);
    }
    let no_gap = text.ends_with(b" gap 0\n");
    seen.push(other(if no_gap { NO_GAP } else { GAP }));
    let last_digit = text.trim_ascii_end().last();
    if last_digit.is_some_and(|digit| digit % 2 == 1) {
        seen.push(other(ODD_GAP));
    }
    if text.starts_with(b"merit -") {
        seen.push(other(NEGATIVE));
    }
    (LINES.into(), seen)
}

/// What is unusual about a file, if anything; `taken` says that its reader does not refuse it.
pub fn unusual(entry: &Entry, taken: bool) -> Option<&'static str> {
    let length = match entry {
        Entry::Absent => return Some(ABSENT),
        Entry::Folder => return Some(FOLDERS),
        Entry::Text(text) => text.len(),
    };
    match (length, taken) {
        (0, _) => Some(EMPTY),
        (32_768, true) => Some(LONGEST),
        (32_769, false) => Some(TOO_LONG),
        (1_000_000, false) => Some(FAR_TOO_LONG),
        _ => None,
    }
}

/// What a run shows; where a plan is expected, `best` says how many are best.
pub fn notes(
    program: Program,
    folder: &Folder,
    expected: &Result<Vec<u8>, Refused>,
    best: Option<Best>,
) -> Vec<Note> {
    let mut notes = vec![match expected {
        Ok(text) => {
            let input = Input::read(&folder.lend()).expect("what led to a result");
            seen_in_result(&input.graph(), text, best)
        }
        Err(refused) => {
            let seen = Seen::Refusal(refused.refusal.number);
            (refused_in(program, refused.from), vec![seen])
        }
    }];
    for (&file, entry) in program.reads().iter().zip(&folder.entries) {
        let taken = !matches!(expected, Err(refused) if refused.from == file);
        if let Some(thing) = unusual(entry, taken) {
            notes.push((thing.into(), vec![with(program, file)]));
        }
        if !taken {
            break;
        }
    }
    if is_example(&folder.name) {
        notes.push((EXAMPLES.into(), vec![with(program, &folder.name)]));
    }
    notes
}

/// The refusals that must be seen, of each program and each place they come from.
const REFUSALS: [(Program, &str, &[u32]); 8] = [
    (Program::Solve, "sheet.mtx", &[1, 2, 3, 4, 5, 6, 7, 8]),
    (Program::Solve, "limits.mtx", &[1, 2, 3, 4, 5, 10]),
    (Program::Solve, "input", &[16]),
    (Program::Mark, "sheet.mtx", &[1, 2, 3, 4, 5, 6, 7, 8]),
    (Program::Mark, "limits.mtx", &[1, 2, 3, 4, 5, 10]),
    (Program::Mark, "plan.mtx", &[1, 2, 3, 4, 5, 6, 8, 17]),
    (Program::Mark, "prices.mtx", &[1, 2, 3, 4, 5, 13]),
    (Program::Mark, "input", &[12, 15]),
];

/// All that must be seen, by the names of the comparisons.
pub fn demanded() -> Vec<Note> {
    let both = [Program::Solve, Program::Mark];
    let refusals = REFUSALS.iter().map(|&(program, from, numbers)| {
        let seen = numbers.iter().map(|&number| Seen::Refusal(number));
        (refused_in(program, from), seen.collect())
    });
    let mut demanded: Vec<Note> = refusals.collect();
    let mut plans: Vec<_> = [Best::One, Best::Several, Best::Untried]
        .map(|best| other(best.words()))
        .into();
    let mut lines: Vec<_> = [NO_GAP, GAP, ODD_GAP, NEGATIVE].map(other).into();
    for full in [false, true] {
        plans.push(sort_of_graph(Kind::Bipartite, full));
        lines.push(sort_of_graph(Kind::Bipartite, full));
        lines.push(sort_of_graph(Kind::General, full));
    }
    demanded.push((PLANS.into(), plans));
    demanded.push((LINES.into(), lines));
    let files = both.iter().flat_map(|&program| {
        let reads = program.reads().iter();
        reads.map(move |file| with(program, file))
    });
    let files: Vec<_> = files.collect();
    demanded.extend(UNUSUAL.map(|thing| (thing.into(), files.clone())));
    let examples = examples::names();
    let examples = examples
        .iter()
        .flat_map(|name| both.map(|program| with(program, name)));
    demanded.push((EXAMPLES.into(), examples.collect()));
    demanded
}
