//! The readers of graphs, numbers and subgraphs, on many texts, valid and damaged; and the subgraph writer.

use crate::drawing::graphs::{length, Lent};
use crate::drawing::texts::{damaged, Draft};
use crate::harness::guard::Guarded;
use crate::harness::proved;
use crate::harness::tally::Tally;
use reference::{Graph, Head, Kind, Random, Refusal, What};
use std::fmt::Debug;

/// What a reader gave for a text in both programs.
pub struct Read<T> {
    pub expected: Result<T, Refusal>,
    pub proved: Result<T, Refusal>,
    /// Whether answers and outputs are the same, and nothing else was written.
    pub agreed: bool,
}

impl<T: Debug> Read<T> {
    /// The answers and the text, to be shown.
    pub fn shown(&self, text: &[u8]) -> String {
        let text = String::from_utf8_lossy(text);
        format!("{:?} {:?} {text:?}", self.expected, self.proved)
    }
}

/// The graph reader of both programs, with outputs of these lengths.
pub fn read_graphs(text: &[u8], lengths: [usize; 3]) -> Read<Head> {
    let mut outputs = (
        vec![9; lengths[0]],
        vec![9; lengths[1]],
        vec![9; lengths[2]],
    );
    let expected = reference::read_graph(text, &mut outputs.0, &mut outputs.1, &mut outputs.2);
    let lent = Guarded::of(text, 10);
    let mut row = Guarded::new(lengths[0], 5, 77);
    let mut column = Guarded::new(lengths[1], 6, 77);
    let mut weight = Guarded::new(lengths[2], -7, 77);
    let proved = proved::read_graph(
        lent.lend(),
        row.lend_mut(),
        column.lend_mut(),
        weight.lend_mut(),
    );
    let agreed = expected == proved
        && row.lend() == outputs.0
        && column.lend() == outputs.1
        && weight.lend() == outputs.2
        && row.unharmed()
        && column.unharmed()
        && weight.unharmed()
        && lent.unharmed()
        && lent.lend() == text;
    Read {
        expected,
        proved,
        agreed,
    }
}

/// The number reader of both programs, with an output of this length.
pub fn read_numbers(text: &[u8], count: u32, what: What, long: usize) -> Read<()> {
    let mut output = vec![9; long];
    let expected = reference::read_numbers(text, count, what, &mut output);
    let lent = Guarded::of(text, 10);
    let mut out = Guarded::new(long, -7, 77);
    let proved = proved::read_numbers(lent.lend(), count, what, out.lend_mut());
    let agreed = expected == proved
        && out.lend() == output
        && out.unharmed()
        && lent.unharmed()
        && lent.lend() == text;
    Read {
        expected,
        proved,
        agreed,
    }
}

/// The subgraph reader of both programs, with an output of this length.
pub fn read_subgraphs(text: &[u8], g: &Graph, long: usize) -> Read<()> {
    let mut output = vec![9; long];
    let expected = reference::read_subgraph(text, g, &mut output).map(|_| ());
    let lent = Guarded::of(text, 10);
    let mut out = Guarded::new(long, 3, 77);
    let proved = proved::read_subgraph(lent.lend(), g, out.lend_mut());
    let agreed = expected == proved
        && out.lend() == output
        && out.unharmed()
        && lent.unharmed()
        && lent.lend() == text;
    Read {
        expected,
        proved,
        agreed,
    }
}

/// One text of so many has numbers in other forms.
const OTHER_FORMS: u64 = 6;

/// The text of a draft, damaged now and then, with numbers in other forms now and then.
fn any_text(random: &mut Random, draft: Draft) -> Vec<u8> {
    let lines = draft.with_other_forms(random, OTHER_FORMS).lines(random);
    damaged(random, lines)
}

fn compare_graphs(random: &mut Random, tally: &mut Tally) {
    let graph = Lent::any(random);
    let text = any_text(random, Draft::of_graph(&graph.lend()));
    let lengths = [1024; 3].map(|right| length(random, right));
    let read = read_graphs(&text, lengths);
    tally.count(&read.expected, read.agreed, || read.shown(&text));
}

fn compare_numbers(random: &mut Random, tally: &mut Tally) {
    let what = random.pick(&[What::Bounds, What::Prices]);
    let most = if what == What::Bounds { 64 } else { 4_000_000 };
    let held = if random.below(100) == 0 {
        1 + random.below(1152)
    } else {
        1 + random.below(8)
    } as usize;
    let numbers: Vec<_> = (0..held).map(|_| random.between(0, most)).collect();
    let text = any_text(random, Draft::of_numbers(&numbers));
    let count = match random.below(60) {
        0 => random.pick(&[0, 1153, u32::MAX, 1 << 31]),
        1 => held as u32 + 1,
        _ => held as u32,
    };
    let long = if random.below(3) == 0 {
        length(random, held)
    } else {
        (count as usize).min(4096)
    };
    let read = read_numbers(&text, count, what, long);
    tally.count(&read.expected, read.agreed, || {
        format!("{count} {what:?} {long} {}", read.shown(&text))
    });
}

/// The numbers of a graph as they are lent: now and then something is wrong.
fn lent_graph(random: &mut Random) -> Lent {
    let mut lent = Lent::any(random);
    if random.below(8) == 0 {
        lent.spoil(random);
    }
    lent
}

fn marks(random: &mut Random, count: usize) -> Vec<u8> {
    let wrong = random.below(30) == 0;
    (0..count)
        .map(|_| {
            if wrong && random.below(4) == 0 {
                random.pick(&[2, 255, 1])
            } else {
                random.below(2) as u8
            }
        })
        .collect()
}

/// The text of some edges of a graph, damaged now and then.
pub fn subgraph_text(random: &mut Random, g: &Graph) -> Vec<u8> {
    let mut chosen: Vec<usize> = (0..g.row.len()).filter(|_| random.below(2) == 0).collect();
    if random.below(3) == 0 {
        chosen.reverse();
    }
    let kind = if random.below(40) == 0 {
        random.pick(&[Kind::Bipartite, Kind::General])
    } else {
        g.kind
    };
    any_text(random, Draft::of_subgraph(kind, g, &chosen))
}

fn compare_subgraphs(random: &mut Random, tally: &mut Tally) {
    let lent = lent_graph(random);
    let g = lent.lend();
    let text = subgraph_text(random, &g);
    let long = length(random, (g.edges as usize).min(4096));
    let read = read_subgraphs(&text, &g, long);
    tally.count(&read.expected, read.agreed, || {
        format!("{g:?} {long} {}", read.shown(&text))
    });
}

fn compare_written(random: &mut Random, tally: &mut Tally) {
    let lent = lent_graph(random);
    let g = lent.lend();
    let count = length(random, (g.edges as usize).min(4096));
    let chosen = marks(random, count);
    let long = length(random, 16_384);
    let mut expected = vec![9; long];
    let answer = reference::write_subgraph(&g, &chosen, &mut expected);
    let mut out = Guarded::new(long, 5, 77);
    let proved = proved::write_subgraph(&g, &chosen, out.lend_mut());
    let mut agreed = answer == proved && out.lend() == expected && out.unharmed();
    if let Ok(length) = proved {
        let mut back = Guarded::new(chosen.len(), 9, 77);
        let read = proved::read_subgraph(&out.lend()[..length], &g, back.lend_mut());
        agreed = agreed && read == Ok(()) && back.lend() == chosen;
    }
    tally.count(&answer, agreed, || {
        format!("{answer:?} {proved:?} {g:?} {chosen:?} {long}")
    });
}

/// Compares `count` texts of each sort; true if the two programs agreed on all.
pub fn compare(seed: u64, count: u64) -> Vec<bool> {
    let mut random = Random::new(seed);
    let mut graphs = Tally::new("graph reader");
    let mut numbers = Tally::new("number reader");
    let mut subgraphs = Tally::new("subgraph reader");
    let mut written = Tally::new("subgraph writer, and reading back");
    for _ in 0..count {
        compare_graphs(&mut random, &mut graphs);
        compare_numbers(&mut random, &mut numbers);
        compare_subgraphs(&mut random, &mut subgraphs);
        compare_written(&mut random, &mut written);
    }
    vec![
        graphs.report(count, &[1, 2, 3, 4, 5, 6, 7, 8, 9]),
        numbers.report(count, &[1, 2, 3, 4, 5, 9, 10, 13]),
        subgraphs.report(count, &[1, 2, 3, 4, 5, 6, 7, 8, 9, 17]),
        written.report(count, &[4, 6, 7, 8, 9, 11]),
    ]
}
