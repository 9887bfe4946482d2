//! The built programs `to_dimacs` and `from_dimacs`, in many folders, beside the separately written program; what one wrote is brought back by the other.

use crate::calls::assignments::{all_sorts, any_text, bipartite, bounds, sorts_of, Assigned};
use crate::calls::tidies::read;
use crate::drawing::assignment_texts::{flaws, Draft as Crosses};
use crate::drawing::examples::{self, example, file_name, is_example};
use crate::drawing::folders::{any_entry, full, problem, small, unusual_problems, UNUSUAL};
use crate::drawing::graphs::Lent;
use crate::drawing::texts::Draft;
use crate::harness::files::{Entry, Folder, Held, Named, CROSSES, PROBLEM};
use crate::harness::runs::{Built, Printed, FROM_DIMACS, TO_DIMACS};
use crate::harness::tally::Note;
use crate::programs::noting::{self, judge_text, outcome, refusals, things, unusual_files};
use crate::programs::twice::{self, Twice};
use reference::programs::{from_dimacs_file, printed, to_dimacs_files, Refused};
use reference::{from_dimacs_output, number_text, to_dimacs_output, Files, Kind, Random};
use std::io;

/// A run of `to_dimacs` in a folder, and what is expected of it.
pub struct GoingOut<'a> {
    folder: &'a Folder,
    expected: Result<Vec<u8>, Refused>,
    notes: Vec<Note>,
}

impl<'a> GoingOut<'a> {
    /// What is expected in a folder.
    pub fn new(folder: &'a Folder) -> GoingOut<'a> {
        let expected = to_dimacs_files(&folder.lend());
        let lent = folder.lend().graph.and_then(|text| read(text).ok());
        let files = PROBLEM.into_iter().zip(&folder.entries);
        let shown = || sorts_of(&lent.expect("a graph"));
        let mut notes = vec![outcome(TO_DIMACS, &expected, shown)];
        notes.extend(unusual_files(TO_DIMACS, files, &expected));
        notes.extend(noting::example(TO_DIMACS, folder));
        GoingOut {
            folder,
            expected,
            notes,
        }
    }
}

impl Twice for GoingOut<'_> {
    const PROGRAM: &'static str = TO_DIMACS;
    const AGAIN: &'static str = FROM_DIMACS;

    fn name(&self) -> &str {
        &self.folder.name
    }

    fn files(&self) -> Named<'_> {
        PROBLEM.into_iter().zip(&self.folder.entries).collect()
    }

    fn files_again(&self, written: Vec<u8>) -> Held {
        vec![(CROSSES, Entry::Text(written))]
    }

    fn notes(&self) -> &[Note] {
        &self.notes
    }

    fn judge_output(&self, left: &Printed, again: &Printed) -> Result<(), String> {
        judge_text(left, &printed(&self.expected), "")?;
        judge_text(again, &from_dimacs_output(&left.out), "brought back: ")?;
        if self.expected.is_err() {
            return Ok(());
        }
        // The sheet's own pairs in their order.
        let sheet = read(self.folder.lend().graph.unwrap_or_default());
        let sheet = sheet.map_err(|refusal| format!("{refusal:?}"))?;
        let header = "%%MatrixMarket matrix coordinate integer general";
        let own = format!("{header}\n{}", sheet.lines());
        judge_text(again, own.as_bytes(), "brought back: ")
    }
}

/// What stands under crosses.asn, and what it is called where it is shown.
type Text = (String, Entry);

/// A run of `from_dimacs` on a text, and what is expected of it.
pub struct ComingIn<'a> {
    crosses: &'a Text,
    expected: Result<Vec<u8>, Refused>,
    notes: Vec<Note>,
}

impl<'a> ComingIn<'a> {
    /// What is expected for a text.
    pub fn new(crosses: &'a Text) -> ComingIn<'a> {
        let (name, entry) = crosses;
        let expected = from_dimacs_file(entry.text().unwrap_or_default());
        let lent = expected.as_ref().ok().and_then(|text| read(text).ok());
        let files = [(CROSSES, entry)].into_iter();
        let shown = || sorts_of(&lent.expect("a graph"));
        let mut notes = vec![outcome(FROM_DIMACS, &expected, shown)];
        notes.extend(unusual_files(FROM_DIMACS, files, &expected));
        if is_example(name) {
            notes.push(noting::examples(FROM_DIMACS, [file_name(name)].into_iter()));
        }
        ComingIn {
            crosses,
            expected,
            notes,
        }
    }
}

/// The text of as many limits of 1 as a sheet has fish; of one, if it is no sheet.
fn limits(sheet: &[u8]) -> Vec<u8> {
    let count = read(sheet).map_or(1, |lent| lent.vertices());
    number_text(&vec![1; count])
}

impl Twice for ComingIn<'_> {
    const PROGRAM: &'static str = FROM_DIMACS;
    const AGAIN: &'static str = TO_DIMACS;

    fn name(&self) -> &str {
        &self.crosses.0
    }

    fn files(&self) -> Named<'_> {
        vec![(CROSSES, &self.crosses.1)]
    }

    fn files_again(&self, written: Vec<u8>) -> Held {
        let limits = Entry::Text(limits(&written));
        PROBLEM
            .into_iter()
            .zip([Entry::Text(written), limits])
            .collect()
    }

    fn notes(&self) -> &[Note] {
        &self.notes
    }

    fn judge_output(&self, left: &Printed, again: &Printed) -> Result<(), String> {
        judge_text(left, &printed(&self.expected), "")?;
        let files = Files {
            graph: Some(&left.out),
            bounds: Some(&limits(&left.out)),
            ..Files::default()
        };
        judge_text(again, &to_dimacs_output(&files), "taken out again: ")?;
        if self.expected.is_err() {
            return Ok(());
        }
        let text = self.crosses.1.text().unwrap_or_default();
        let own = Assigned::read(text).and_then(|own| own.write());
        let own = own.map_err(|refusal| format!("{refusal:?}"))?;
        judge_text(again, &own, "taken out again: ")
    }
}

/// A folder whose sheet mostly can go out, in which now and then a number is wrong, or a file is damaged or unusual.
fn any_folder(random: &mut Random, name: String) -> Folder {
    let mut lent = match random.below(10) {
        0 => Lent::any_of(random, Kind::General),
        _ => bipartite(random),
    };
    let bound = match random.below(3) {
        0 => bounds(random, lent.vertices()),
        _ => vec![1; lent.vertices()],
    };
    if random.below(8) == 0 {
        lent.spoil(random);
    }
    let sheet = any_entry(random, Draft::of_graph(&lent.lend()));
    problem(name, sheet, any_entry(random, Draft::of_numbers(&bound)))
}

/// The examples, the folders with an unusual file, and `count` others.
fn all_folders(random: &mut Random, count: usize) -> Vec<Folder> {
    let names = examples::names().into_iter();
    let mut folders: Vec<_> = names.map(|name| example(&name)).collect();
    for make in [small, full] {
        let lent = make(random, Kind::Bipartite);
        let ones = vec![1; lent.vertices()];
        folders.extend(unusual_problems(random, &lent, &ones));
    }
    folders.extend((0..count).map(|at| any_folder(random, format!("{at}"))));
    folders
}

/// The examples, texts with each flaw, each unusual thing in the place of a small and a full text, and `count` texts that may be damaged.
fn all_crosses(random: &mut Random, count: usize) -> Vec<Text> {
    let mut all = examples::assignments();
    for flaw in flaws() {
        for _ in 0..3 {
            all.push((flaw.words.into(), Entry::Text(flaw.text(random))));
        }
    }
    for make in [small, full] {
        let lent = make(random, Kind::Bipartite);
        for thing in UNUSUAL {
            let text = Crosses::of(&lent.lend()).text(random);
            all.push((format!("{thing:?}"), thing.entry(random, text)));
        }
    }
    all.extend((0..count).map(|at| (format!("{at}"), Entry::Text(any_text(random)))));
    all
}

/// All that must be seen of `to_dimacs`, by the names of the comparisons.
fn demanded_out() -> Vec<Note> {
    vec![
        noting::texts(TO_DIMACS, all_sorts()),
        refusals(TO_DIMACS, PROBLEM[0], &[1, 2, 3, 4, 5, 6, 7, 8]),
        refusals(TO_DIMACS, PROBLEM[1], &[1, 2, 3, 4, 5, 10]),
        refusals(TO_DIMACS, "input", &[16, 19]),
        things(TO_DIMACS, &PROBLEM),
        noting::all_examples(TO_DIMACS),
    ]
}

/// All that must be seen of `from_dimacs`.
fn demanded_in() -> Vec<Note> {
    let examples = examples::assignments();
    let examples = examples.iter().map(|(name, _)| file_name(name));
    vec![
        noting::texts(FROM_DIMACS, all_sorts()),
        refusals(FROM_DIMACS, CROSSES, &[1, 4, 6, 7, 8, 20, 21]),
        things(FROM_DIMACS, &[CROSSES]),
        noting::examples(FROM_DIMACS, examples),
    ]
}

/// Compares `to_dimacs` and `from_dimacs` on the examples and on many others, of which `count` are drawn for each. True for each comparison that saw all it must see and in which nothing was wrong.
pub fn compare(seed: u64, count: usize, built: &Built) -> io::Result<Vec<bool>> {
    let mut random = Random::new(seed);
    let folders = all_folders(&mut random, count);
    let runs = folders.iter().map(GoingOut::new).collect();
    let mut results = twice::compare(runs, &demanded_out(), built)?;
    let crosses = all_crosses(&mut random, count);
    let runs = crosses.iter().map(ComingIn::new).collect();
    results.extend(twice::compare(runs, &demanded_in(), built)?);
    Ok(results)
}
