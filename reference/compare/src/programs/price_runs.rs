//! The built program `price_tanks`, in many folders, beside the separately written program; what it wrote is marked with a plan.

use crate::calls::prices::Prices;
use crate::drawing::doublings::{Faulty, Lending, Shape, FAULTS, MOST_TRIED};
use crate::drawing::examples::{self, example};
use crate::drawing::folders::{any_entry, problem, unusual_problems};
use crate::drawing::graphs::{falling, feasible};
use crate::drawing::texts::{joined, Draft};
use crate::harness::files::{Entry, Folder, Held, Named, NAMES, PROBLEM};
use crate::harness::runs::{Built, Printed, MARK, PRICE_TANKS};
use crate::harness::tally::{other, sort_of_graph, Note, Seen};
use crate::programs::noting::{self, judge_text, outcome, refusals, things, unusual_files};
use crate::programs::twice::{self, Twice};
use reference::brute::weight_of;
use reference::programs::{price_tanks_files, printed, Input, Refused};
use reference::{feasible_subgraphs, mark_output, measure, number_text};
use reference::{read_numbers, read_subgraph, Files, Graph, Kind, Random, What};
use std::io;

const NO_PLAN: &str = "no plan";
const PROVED_BEST: &str = "plans with gap 0 or 1";
const GAP: &str = "plans with a larger gap";

const TWO_SIDED: &str = "two-sided";
const VERTICES: &str = "65 vertices";
const EDGES: &str = "513 edges";

/// The plan of a folder, if it has a valid one.
fn plan_of(files: &Files, g: &Graph, bound: &[i32]) -> Option<Vec<u8>> {
    let mut chosen = vec![0; g.edges as usize];
    read_subgraph(files.subgraph.unwrap_or_default(), g, &mut chosen).ok()?;
    // Any prices in range that cover.
    let (vertex, edge) = (vec![0; bound.len()], vec![2_000_000; chosen.len()]);
    measure(g, bound, &chosen, &vertex, &edge, 0, &[], &[], &[]).ok()?;
    Some(chosen)
}

/// The total that prices in a text have, if they are right for a folder's sheet, in the layout of the separately written writer, and both measuring calls take a valid
/// plan of the folder with them; if not, why.
fn judge_prices(files: &Files, text: &[u8]) -> Result<i64, String> {
    let input = Input::read(files).map_err(|refused| format!("{refused:?}"))?;
    let (g, bound) = (input.graph(), input.bound());
    let mut price = vec![0; bound.len() + g.edges as usize];
    read_numbers(text, price.len() as u32, What::Prices, &mut price)
        .map_err(|refusal| format!("the prices do not read back: {refusal:?}"))?;
    if number_text(&price) != text {
        return Err("the prices are not laid out as they must be".into());
    }
    let (vertex, edge) = price.split_at(bound.len());
    let prices = Prices { vertex, edge };
    let total = prices.judge(&g, bound)?;
    let mut subgraphs = vec![falling(&g, bound)];
    subgraphs.extend(plan_of(files, &g, bound));
    prices.judge_gaps(&g, bound, total, &subgraphs)?;
    Ok(total)
}

/// What a sheet that is priced shows, with a folder's plan; the total is that of its prices.
fn seen_of(files: &Files, total: i64) -> Vec<Seen> {
    let input = Input::read(files).expect("what led to a result");
    let (g, bound) = (input.graph(), input.bound());
    let gap = plan_of(files, &g, bound).map(|chosen| total - 2 * weight_of(&g, &chosen));
    let marked = match gap {
        None => NO_PLAN,
        Some(0 | 1) => PROVED_BEST,
        Some(_) => GAP,
    };
    let full = g.rows == 64 && g.edges == 512;
    vec![sort_of_graph(g.kind, full), other(marked)]
}

/// Why a sheet cannot be doubled, where it is just beyond what can.
fn beyond(files: &Files) -> Vec<Seen> {
    let Ok(input) = Input::read(files) else {
        return Vec::new();
    };
    let g = input.graph();
    let why = [
        (TWO_SIDED, g.kind == Kind::Bipartite),
        (VERTICES, g.kind == Kind::General && g.rows == 65),
        (
            EDGES,
            g.kind == Kind::General && g.rows <= 64 && g.edges == 513,
        ),
    ];
    let why = why.into_iter().filter(|&(_, is_so)| is_so);
    why.map(|(words, _)| other(words)).collect()
}

/// A run of `price_tanks` in a folder, and what is expected of it.
pub struct Pricing<'a> {
    folder: &'a Folder,
    expected: Result<Vec<u8>, Refused>,
    notes: Vec<Note>,
}

impl<'a> Pricing<'a> {
    /// What is expected in a folder.
    pub fn new(folder: &'a Folder) -> Pricing<'a> {
        let files = folder.lend();
        let expected = price_tanks_files(&files);
        let shown = || {
            let text = expected.as_deref().unwrap_or_default();
            let total = judge_prices(&files, text).expect("right prices");
            seen_of(&files, total)
        };
        let (name, mut seen) = outcome(PRICE_TANKS, &expected, shown);
        if matches!(&expected, Err(refused) if refused.from == "input") {
            seen.extend(beyond(&files));
        }
        let read = PROBLEM.into_iter().zip(&folder.entries);
        let mut notes = vec![(name, seen)];
        notes.extend(unusual_files(PRICE_TANKS, read, &expected));
        notes.extend(noting::example(PRICE_TANKS, folder));
        Pricing {
            folder,
            expected,
            notes,
        }
    }
}

impl Twice for Pricing<'_> {
    const PROGRAM: &'static str = PRICE_TANKS;
    const AGAIN: &'static str = MARK;

    fn name(&self) -> &str {
        &self.folder.name
    }

    fn files(&self) -> Named<'_> {
        PROBLEM.into_iter().zip(&self.folder.entries).collect()
    }

    fn files_again(&self, written: Vec<u8>) -> Held {
        let mut entries = self.folder.entries.clone();
        entries[3] = Entry::Text(written);
        NAMES.into_iter().zip(entries).collect()
    }

    fn notes(&self) -> &[Note] {
        &self.notes
    }

    fn judge_output(&self, left: &Printed, again: &Printed) -> Result<(), String> {
        let files = self.folder.lend();
        match &self.expected {
            Ok(_) => drop(judge_prices(&files, &left.out)?),
            Err(_) => judge_text(left, &printed(&self.expected), "")?,
        }
        let marked = Files {
            prices: Some(&left.out),
            ..files
        };
        judge_text(again, &mark_output(&marked), "marked: ")
    }
}

/// The text of a valid plan of what is lent: of any, of one by falling merit, or on a small sheet of a best one.
fn plan(random: &mut Random, lending: &Lending) -> Entry {
    let (g, bound) = (lending.graph.lend(), &lending.bound);
    let chosen = match random.below(3) {
        0 => feasible(random, &g, bound),
        1 if g.edges <= MOST_TRIED => {
            let all = feasible_subgraphs(&g, bound);
            all.max_by_key(|x| weight_of(&g, x)).expect("the empty one")
        }
        _ => falling(&g, bound),
    };
    let places: Vec<_> = (0..chosen.len()).filter(|&e| chosen[e] == 1).collect();
    let lines = Draft::of_subgraph(g.kind, &g, &places).lines(random);
    Entry::Text(joined(random, &lines))
}

/// The shapes of sheets in the folders, small ones most often.
const SHAPES: [Shape; 8] = [
    Shape::Small,
    Shape::SmallRings,
    Shape::SmallRings,
    Shape::SmallRings,
    Shape::SmallRings,
    Shape::Sparse,
    Shape::Rings,
    Shape::FullRings,
];

/// The folder of what is lent, and a plan; now and then a file is damaged or unusual.
fn any_folder(random: &mut Random, name: String, lending: &Lending, plan: Entry) -> Folder {
    let sheet = any_entry(random, Draft::of_graph(&lending.graph.lend()));
    let limits = any_entry(random, Draft::of_numbers(&lending.bound));
    let mut folder = problem(name, sheet, limits);
    folder.entries[2] = plan;
    folder
}

/// The examples; folders of a small and a full sheet with each unusual thing in each file's place; those of what is lent with each fault, of which some do not
/// show in a text; and `count` others.
fn all(seed: u64, count: usize) -> Vec<Folder> {
    let mut random = Random::new(seed);
    let names = examples::names().into_iter();
    let mut folders: Vec<_> = names.map(|name| example(&name)).collect();
    for shape in [Shape::SmallRings, Shape::Full] {
        let (lending, _) = Lending::of(&mut random, shape);
        let plan = plan(&mut random, &lending);
        for mut folder in unusual_problems(&mut random, &lending.graph, &lending.bound) {
            folder.entries[2] = plan.clone();
            folders.push(folder);
        }
    }
    for fault in &FAULTS {
        for _ in 0..6 {
            if let Some(faulty) = Faulty::with(&mut random, &[fault]) {
                let name = fault.words.into();
                let folder = any_folder(&mut random, name, &faulty.lending, Entry::Absent);
                folders.push(folder);
            }
        }
    }
    for at in 0..count {
        let shape = random.pick(&SHAPES);
        let (lending, _) = Lending::of(&mut random, shape);
        let plan = match random.below(16) {
            0 => Entry::Absent,
            _ => plan(&mut random, &lending),
        };
        folders.push(any_folder(&mut random, format!("{at}"), &lending, plan));
    }
    folders
}

/// All that must be seen, by the names of the comparisons.
fn demanded() -> Vec<Note> {
    let mut priced: Vec<_> = [NO_PLAN, PROVED_BEST, GAP].map(other).into();
    priced.extend([false, true].map(|full| sort_of_graph(Kind::General, full)));
    let mut beyond = refusals(PRICE_TANKS, "input", &[24]);
    beyond.1.extend([TWO_SIDED, VERTICES, EDGES].map(other));
    vec![
        noting::texts(PRICE_TANKS, priced),
        refusals(PRICE_TANKS, PROBLEM[0], &[1, 2, 3, 4, 5, 6, 7, 8]),
        refusals(PRICE_TANKS, PROBLEM[1], &[1, 2, 3, 4, 5, 10]),
        beyond,
        things(PRICE_TANKS, &PROBLEM),
        noting::all_examples(PRICE_TANKS),
    ]
}

/// Compares `price_tanks` in the examples and in many other folders, of which `count` are drawn. True for each comparison that saw all it must see and in which nothing was wrong.
pub fn compare(seed: u64, count: usize, built: &Built) -> io::Result<Vec<bool>> {
    let folders = all(seed, count);
    let runs = folders.iter().map(Pricing::new).collect();
    twice::compare(runs, &demanded(), built)
}
