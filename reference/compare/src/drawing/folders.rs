//! Many folders for the programs on a sheet: right ones, ones with a damaged or an unusual file, and the examples.

use crate::drawing::examples::{self, example};
use crate::drawing::graphs::{bounds, cover, feasible, prices, Lent};
use crate::drawing::solved::Solved;
use crate::drawing::texts::{damaged, joined, padded, Draft};
use crate::harness::files::{Entry, Folder, NAMES, PROBLEM};
use reference::{Graph, Kind, Random};

/// What a folder holds, before it is written as texts. The subgraph may exceed a bound, and the prices may not cover.
struct Content {
    graph: Lent,
    bound: Vec<i32>,
    /// The graph whose edges the subgraph's text names: the same one, unless spoiled.
    named: Lent,
    /// The chosen edges, in the order in which they are written.
    chosen: Vec<usize>,
    price: Vec<i32>,
}

/// A full graph of a kind.
pub fn full(random: &mut Random, kind: Kind) -> Lent {
    match kind {
        Kind::Bipartite => {
            let (rows, columns) = (32 + random.below(33) as u32, 32 + random.below(33) as u32);
            Lent::right(random, kind, rows, columns, 1024)
        }
        Kind::General => {
            let rows = 64 + random.below(65) as u32;
            Lent::right(random, kind, rows, rows, 1024)
        }
    }
}

/// A small graph of a kind, with few enough edges to try every subgraph.
pub fn small(random: &mut Random, kind: Kind) -> Lent {
    let rows = 2 + random.below(4) as u32;
    let columns = match kind {
        Kind::Bipartite => 2 + random.below(4) as u32,
        Kind::General => rows,
    };
    Lent::right(random, kind, rows, columns, 12)
}

/// Marks and prices: a best subgraph with prices that prove it, or others.
fn marks_and_prices(random: &mut Random, g: &Graph, bound: &[i32]) -> (Vec<u8>, Vec<i32>) {
    if g.kind == Kind::Bipartite && random.below(4) == 0 {
        let best = Solved::of(g, bound).expect("a right graph");
        return (best.chosen, [best.vertex, best.edge].concat());
    }
    let m = g.edges as usize;
    let chosen = match random.below(6) {
        0 => (0..m).map(|_| random.below(2) as u8).collect(),
        _ => feasible(random, g, bound),
    };
    let extreme = random.below(20) == 0;
    let vertex = prices(random, bound.len(), 1_200_000, extreme);
    let mut edge = prices(random, m, 600_000, extreme);
    if random.below(6) > 0 {
        cover(g, &vertex, &mut edge);
    }
    (chosen, [vertex, edge].concat())
}

impl Content {
    fn of(random: &mut Random, mut graph: Lent) -> Content {
        graph.level(random);
        let bound = bounds(random, graph.vertices());
        let (marks, price) = marks_and_prices(random, &graph.lend(), &bound);
        let mut chosen: Vec<_> = (0..marks.len()).filter(|&e| marks[e] == 1).collect();
        if random.below(3) == 0 {
            chosen.reverse();
        }
        Content {
            named: graph.clone(),
            graph,
            bound,
            chosen,
            price,
        }
    }

    fn any(random: &mut Random) -> Content {
        let kind = random.pick(&[Kind::Bipartite, Kind::General]);
        let graph = match random.below(16) {
            0 => full(random, kind),
            1..=5 => small(random, kind),
            _ => Lent::any(random),
        };
        Content::of(random, graph)
    }

    /// One number is made wrong.
    fn spoil(&mut self, random: &mut Random) {
        match random.below(4) {
            0 => self.graph.spoil(random),
            1 => {
                let at = random.below(self.bound.len() as u64) as usize;
                self.bound[at] = random.pick(&[-1, 65, -999_999_999]);
            }
            2 => self.named.spoil(random),
            _ => {
                let at = random.below(self.price.len() as u64) as usize;
                self.price[at] = random.pick(&[-1, 4_000_001, 999_999_999]);
            }
        }
    }

    /// The text of a file, by its place in the order of reading.
    fn draft(&self, file: usize) -> Draft {
        match file {
            0 => Draft::of_graph(&self.graph.lend()),
            1 => Draft::of_numbers(&self.bound),
            2 => Draft::of_subgraph(self.named.kind, &self.named.lend(), &self.chosen),
            _ => Draft::of_numbers(&self.price),
        }
    }

    /// The folder of texts without damage.
    fn folder(&self, random: &mut Random, name: String) -> Folder {
        let entries = std::array::from_fn(|file| {
            let lines = self.draft(file).lines(random);
            Entry::Text(joined(random, &lines))
        });
        Folder { name, entries }
    }
}

/// An unusual thing in a file's place.
#[derive(Clone, Copy, Debug)]
pub enum Unusual {
    Absent,
    Folder,
    Empty,
    /// The right text with blank lines after it, up to a length.
    Padded(usize),
    /// Nothing but spaces, of a length.
    Spaces(usize),
}

pub const UNUSUAL: [Unusual; 8] = [
    Unusual::Absent,
    Unusual::Folder,
    Unusual::Empty,
    Unusual::Padded(32_768),
    Unusual::Padded(32_769),
    Unusual::Padded(1_000_000),
    Unusual::Spaces(32_768),
    Unusual::Spaces(32_769),
];

impl Unusual {
    /// The unusual thing in the place of a right text.
    pub fn entry(self, random: &mut Random, text: Vec<u8>) -> Entry {
        match self {
            Unusual::Absent => Entry::Absent,
            Unusual::Folder => Entry::Folder,
            Unusual::Empty => Entry::Text(Vec::new()),
            Unusual::Padded(length) => Entry::Text(padded(random, text, length)),
            Unusual::Spaces(length) => Entry::Text(vec![b' '; length]),
        }
    }
}

/// One file of so many has numbers in other forms.
const OTHER_FORMS: u64 = 24;

/// The text of a draft, now and then damaged, with numbers in other forms, or with something unusual in its place.
pub fn any_entry(random: &mut Random, draft: Draft) -> Entry {
    let lines = draft.with_other_forms(random, OTHER_FORMS).lines(random);
    match random.below(36) {
        0..=5 => Entry::Text(damaged(random, lines)),
        6 => {
            let text = joined(random, &lines);
            random.pick(&UNUSUAL).entry(random, text)
        }
        _ => Entry::Text(joined(random, &lines)),
    }
}

/// A folder in which now and then a number is wrong, a file is damaged or unusual, or two files are swapped.
fn any(random: &mut Random, name: String) -> Folder {
    let mut content = Content::any(random);
    if random.below(5) == 0 {
        content.spoil(random);
    }
    let mut entries = std::array::from_fn(|file| any_entry(random, content.draft(file)));
    if random.below(40) == 0 {
        entries.swap(random.below(4) as usize, random.below(4) as usize);
    }
    Folder { name, entries }
}

/// Folders of small and full graphs of both kinds, and each of them with each unusual thing in each file's place.
fn unusual(random: &mut Random) -> Vec<Folder> {
    let mut folders = Vec::new();
    for kind in [Kind::Bipartite, Kind::General] {
        for make in [small, full] {
            let graph = make(random, kind);
            let right = Content::of(random, graph);
            let name = format!("{kind:?} of {} edges", right.graph.edges);
            folders.push(right.folder(random, name.clone()));
            for (file, name_of_file) in NAMES.iter().enumerate() {
                for thing in UNUSUAL {
                    let name = format!("{name}, {name_of_file} {thing:?}");
                    let mut folder = right.folder(random, name);
                    let text = folder.entries[file].text().unwrap_or_default().to_vec();
                    folder.entries[file] = thing.entry(random, text);
                    folders.push(folder);
                }
            }
        }
    }
    folders
}

/// The folder of a sheet and its limits.
pub fn problem(name: String, sheet: Entry, limits: Entry) -> Folder {
    Folder {
        name,
        entries: [sheet, limits, Entry::Absent, Entry::Absent],
    }
}

/// The folders of a sheet and its limits with each unusual thing in each file's place.
pub fn unusual_problems(random: &mut Random, graph: &Lent, bound: &[i32]) -> Vec<Folder> {
    let drafts = [Draft::of_graph(&graph.lend()), Draft::of_numbers(bound)];
    let mut folders = Vec::new();
    for (at, file) in PROBLEM.into_iter().enumerate() {
        for thing in UNUSUAL {
            let mut texts = drafts.each_ref().map(|draft| {
                let lines = draft.lines(random);
                joined(random, &lines)
            });
            let text = std::mem::take(&mut texts[at]);
            let thing_in_place = thing.entry(random, text);
            let mut entries = texts.map(Entry::Text);
            entries[at] = thing_in_place;
            let [sheet, limits] = entries;
            let name = format!("{} edges, {file} {thing:?}", graph.edges);
            folders.push(problem(name, sheet, limits));
        }
    }
    folders
}

/// The folders with an unusual file, and `count` others.
pub fn drawn(seed: u64, count: usize) -> Vec<Folder> {
    let mut random = Random::new(seed);
    let mut folders = unusual(&mut random);
    folders.extend((0..count).map(|at| any(&mut random, format!("{at} of seed {seed}"))));
    folders
}

/// The examples, the folders with an unusual file, and `count` others.
pub fn all(seed: u64, count: usize) -> Vec<Folder> {
    let mut folders: Vec<_> = examples::names().iter().map(|name| example(name)).collect();
    folders.extend(drawn(seed, count));
    folders
}
