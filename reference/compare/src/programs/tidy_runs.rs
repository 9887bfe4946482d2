//! The built program `tidy`, on many texts, beside the separately written program; what it wrote is tidied again, and read by the proved reader.

use crate::calls::tidies::{read, sorts_of, Said};
use crate::drawing::examples::{self, file_name, is_example};
use crate::drawing::folders;
use crate::drawing::graphs::{extreme_graphs, Lent};
use crate::drawing::noise::{besides_numbers, BESIDES};
use crate::drawing::texts::{joined, Draft};
use crate::harness::files::{Entry, Held, Named, NAMES};
use crate::harness::runs::{Built, Printed, TIDY};
use crate::harness::tally::{other, sort_of_graph, Note, Seen};
use crate::programs::situations::{unusual, UNUSUAL};
use crate::programs::twice::{self, Twice};
use reference::programs::{printed, tidy_files, Refused};
use reference::{tidy_output, Files, Kind, Random};
use std::io;

const SHEETS: &str = "tidy, sheets";
const TIDY_BEFORE: &str = "tidy before";
const ORDER_KEPT: &str = "in the same order";
const OTHER_ORDER: &str = "in another order";

const LEFT_OUT: &str = "tidy, what is left out or written anew";
const REFUSED: &str = "tidy, refused";
const FILES: &str = "tidy, unusual files";
const EXAMPLES: &str = "tidy, the examples";

/// What stands under sheet.mtx, and what it is called where it is shown.
type Sheet = (String, Entry);

/// The files of a text of sheet.mtx alone.
fn files(text: Option<&[u8]>) -> Files<'_> {
    Files {
        graph: text,
        ..Files::default()
    }
}

/// A run of `tidy` on a text, and what is expected of it.
pub struct Tidying<'a> {
    sheet: &'a Sheet,
    expected: Result<Vec<u8>, Refused>,
    notes: Vec<Note>,
}

/// The lines of the edges in a text, without blanks that need not be there.
fn edge_lines(text: &[u8]) -> Vec<String> {
    let text = String::from_utf8_lossy(text);
    let numeric = text.lines().filter(|line| !line.starts_with('%'));
    let words = numeric.map(|line| line.split_whitespace().collect::<Vec<_>>().join(" "));
    words.filter(|line| !line.is_empty()).skip(1).collect()
}

/// What a text and its tidy form show.
fn notes_of(text: &[u8], tidied: &[u8]) -> Vec<Note> {
    let lent = read(tidied).expect("a tidy text");
    let order = match text {
        _ if text == tidied => TIDY_BEFORE,
        _ if edge_lines(text) == edge_lines(tidied) => ORDER_KEPT,
        _ => OTHER_ORDER,
    };
    let mut sheets = sorts_of(&lent, tidied.len());
    sheets.push(other(order));
    let mut notes = vec![(SHEETS.into(), sheets)];
    if text != tidied {
        notes.push((LEFT_OUT.into(), besides_numbers(text)));
    }
    notes
}

impl<'a> Tidying<'a> {
    /// What is expected for a text.
    pub fn new(sheet: &'a Sheet) -> Tidying<'a> {
        let (name, entry) = sheet;
        let expected = tidy_files(&files(entry.text()));
        let mut notes = match &expected {
            Ok(tidied) => notes_of(entry.text().unwrap_or_default(), tidied),
            Err(refused) => {
                let seen = Seen::Refusal(refused.refusal.number);
                vec![(REFUSED.into(), vec![seen])]
            }
        };
        if let Some(thing) = unusual(entry, expected.is_ok()) {
            notes.push((FILES.into(), vec![other(thing)]));
        }
        if is_example(name) {
            notes.push((EXAMPLES.into(), vec![other(file_name(name))]));
        }
        Tidying {
            sheet,
            expected,
            notes,
        }
    }
}

impl Twice for Tidying<'_> {
    const PROGRAM: &'static str = TIDY;

    fn name(&self) -> &str {
        &self.sheet.0
    }

    fn files(&self) -> Named<'_> {
        vec![(NAMES[0], &self.sheet.1)]
    }

    fn files_again(&self, written: Vec<u8>) -> Held {
        vec![(NAMES[0], Entry::Text(written))]
    }

    fn notes(&self) -> &[Note] {
        &self.notes
    }

    fn judge_output(&self, left: &Printed, again: &Printed) -> Result<(), String> {
        let expected = printed(&self.expected);
        if left.out != expected {
            let expected = String::from_utf8_lossy(&expected);
            return Err(format!("expected {expected:?}"));
        }
        if again.out != tidy_output(&files(Some(&left.out))) {
            return Err(format!("on what it wrote: {}", again.shown()));
        }
        if self.expected.is_err() {
            return Ok(());
        }
        if again.out != left.out {
            return Err(format!("tidied again: {}", again.shown()));
        }
        let text = self.sheet.1.text().unwrap_or_default();
        if Said::by_text(&left.out) != Said::by_text(text) {
            return Err("it says something else than before".into());
        }
        Ok(())
    }
}

/// The text of a graph, valid for a right one.
fn text_of(random: &mut Random, name: String, lent: &Lent) -> Sheet {
    let lines = Draft::of_graph(&lent.lend()).lines(random);
    (name, Entry::Text(joined(random, &lines)))
}

/// The largest graphs of each kind in a drawn order, by rising and by falling rows and columns; those with an edge more; and graphs at the ends of ranges.
fn extreme(random: &mut Random) -> Vec<Sheet> {
    let mut sheets = Vec::new();
    for kind in [Kind::Bipartite, Kind::General] {
        for edges in [0, 1, 1024, 1025] {
            let drawn = Lent::largest(random, kind, edges);
            let mut places: Vec<_> = (0..drawn.row.len()).collect();
            places.sort_by_key(|&at| (drawn.row[at], drawn.column[at]));
            let rising = drawn.in_order(&places);
            places.reverse();
            let falling = drawn.in_order(&places);
            for (order, lent) in [("drawn", drawn), ("rising", rising), ("falling", falling)] {
                let name = format!("{kind:?} of {edges} edges, {order}");
                sheets.push(text_of(random, name, &lent));
            }
        }
    }
    for lent in extreme_graphs(random) {
        sheets.push(text_of(random, format!("{lent:?}"), &lent));
    }
    sheets
}

/// The texts of the examples, the sheets of many folders, of which `count` are drawn, and the extreme ones.
fn all(seed: u64, count: usize) -> Vec<Sheet> {
    let mut sheets = examples::texts();
    for folder in folders::drawn(seed, count) {
        let [sheet, ..] = folder.entries;
        sheets.push((folder.name, sheet));
    }
    sheets.extend(extreme(&mut Random::new(seed)));
    sheets
}

/// All that must be seen, by the names of the comparisons.
fn demanded() -> Vec<Note> {
    let mut sheets: Vec<_> = [TIDY_BEFORE, ORDER_KEPT, OTHER_ORDER].map(other).into();
    for kind in [Kind::Bipartite, Kind::General] {
        sheets.extend([false, true].map(|full| sort_of_graph(kind, full)));
    }
    let refusals = [1, 2, 3, 4, 5, 6, 7, 8].map(Seen::Refusal);
    let examples = examples::texts().into_iter();
    let examples = examples.map(|(name, _)| other(file_name(&name)));
    vec![
        (SHEETS.into(), sheets),
        (LEFT_OUT.into(), BESIDES.map(other).into()),
        (REFUSED.into(), refusals.into()),
        (FILES.into(), UNUSUAL.map(other).into()),
        (EXAMPLES.into(), examples.collect()),
    ]
}

/// Compares `tidy` on the texts of the examples and on many others, of which `count` are drawn. True for each comparison that saw all it must see and in which nothing was wrong.
pub fn compare(seed: u64, count: usize, built: &Built) -> io::Result<Vec<bool>> {
    let sheets = all(seed, count);
    let runs = sheets.iter().map(Tidying::new).collect();
    twice::compare(runs, &demanded(), built)
}
