//! What is lent to the calls on a graph, right and wrong, and what both programs write of its text.

use crate::drawing::graphs::{extreme_graphs, Lent};
use crate::harness::guard::Guarded;
use crate::harness::tally::{other, Seen};
use reference::tidy::SHEET_TEXT;
use reference::{Graph, Random, Refusal};

/// What is lent to be written.
#[derive(Clone, Copy, Debug, PartialEq, Eq)]
pub enum Sort {
    Right,
    /// One number or length is wrong.
    Spoilt,
    /// Several numbers are wrong, or a length too.
    Often,
    /// The length of one of the three slices is wrong.
    Slice,
    /// The length of the output is wrong.
    Output,
    /// Sizes are at the ends of their ranges or beyond them, or an edge is too many.
    Extreme,
}

pub const SORTS: [Sort; 9] = [
    Sort::Right,
    Sort::Right,
    Sort::Right,
    Sort::Right,
    Sort::Spoilt,
    Sort::Often,
    Sort::Slice,
    Sort::Output,
    Sort::Extreme,
];

/// Wrong lengths of the output.
const WRONG_OUTPUTS: [usize; 7] = [0, 1, 16_384, 32_767, 32_769, 32_784, 65_536];

/// One of the three slices gets another length.
fn resize(random: &mut Random, lent: &mut Lent) {
    let count = lent.row.len();
    let long = random.pick(&[0, count.saturating_sub(1), count + 1, 2 * count + 2, 1024]);
    match random.below(3) {
        0 => lent.row.resize(long, 1),
        1 => lent.column.resize(long, 1),
        _ => lent.weight.resize(long, 1),
    }
}

/// What is lent, by its sort, in the place of a right graph: a graph, and the length of the output.
pub fn lent_of(random: &mut Random, sort: Sort, mut lent: Lent) -> (Lent, usize) {
    let mut long = SHEET_TEXT;
    match sort {
        Sort::Right => {}
        Sort::Spoilt => lent.spoil(random),
        Sort::Often => {
            for _ in 0..2 + random.below(4) {
                lent.spoil(random);
            }
        }
        Sort::Slice => resize(random, &mut lent),
        Sort::Output => long = random.pick(&WRONG_OUTPUTS),
        Sort::Extreme => {
            let mut graphs = extreme_graphs(random);
            graphs.push(Lent::largest(random, lent.kind, 1025));
            lent = graphs.swap_remove(random.below(graphs.len() as u64) as usize);
        }
    }
    (lent, long)
}

/// The name of a slice, the length that it has, and the right one.
pub type Length = (String, usize, usize);

/// The lengths of a graph's slices.
pub fn edge_lengths(lent: &Lent) -> Vec<Length> {
    let edges = lent.edges as usize;
    let slices = [
        ("row", lent.row.len()),
        ("column", lent.column.len()),
        ("weight", lent.weight.len()),
    ];
    slices.map(|(name, has)| (name.into(), has, edges)).into()
}

/// The lengths of a graph's slices and of the output of its text.
pub fn lengths(lent: &Lent, long: usize) -> Vec<Length> {
    let mut lengths = edge_lengths(lent);
    lengths.push((format!("output of {long} bytes"), long, SHEET_TEXT));
    lengths
}

/// The slice whose length is wrong, if just one is.
pub fn wrong_length(lengths: &[Length]) -> Option<Seen> {
    let wrong = lengths.iter();
    let wrong: Vec<_> = wrong.filter(|(_, has, right)| has != right).collect();
    match wrong[..] {
        [(name, has, right)] if has < right => Some(other(format!("{name}, too short"))),
        [(name, ..)] => Some(other(format!("{name}, too long"))),
        _ => None,
    }
}

/// Slices of these names, too short and too long.
pub fn wrong_slices(names: &[&str]) -> Vec<Seen> {
    let both = names.iter().flat_map(|&name| [(name, 0), (name, 2)]);
    both.filter_map(|(name, has)| wrong_length(&[(name.into(), has, 1)]))
        .collect()
}

/// The outputs whose lengths are wrong.
pub fn wrong_outputs() -> Vec<Seen> {
    let none = Lent::empty();
    let outputs = WRONG_OUTPUTS.into_iter();
    outputs
        .filter_map(|long| wrong_length(&lengths(&none, long)))
        .collect()
}

/// The slices of a graph between guards.
pub struct GuardedEdges {
    row: Guarded<u32>,
    column: Guarded<u32>,
    weight: Guarded<i32>,
}

impl GuardedEdges {
    pub fn of(g: &Graph) -> GuardedEdges {
        GuardedEdges {
            row: Guarded::of(g.row, 77),
            column: Guarded::of(g.column, 77),
            weight: Guarded::of(g.weight, 77),
        }
    }

    /// The same graph, with these slices.
    pub fn lend<'a>(&'a self, g: &Graph) -> Graph<'a> {
        Graph {
            row: self.row.lend(),
            column: self.column.lend(),
            weight: self.weight.lend(),
            ..*g
        }
    }

    /// Whether slices and guards are as they were.
    pub fn unharmed(&self, g: &Graph) -> bool {
        self.row.unharmed()
            && self.column.unharmed()
            && self.weight.unharmed()
            && self.row.lend() == g.row
            && self.column.lend() == g.column
            && self.weight.lend() == g.weight
    }
}

/// What a call answered that writes a graph's text, in both programs.
#[derive(Debug)]
pub struct Written {
    pub expected: Result<usize, Refusal>,
    /// What the proved call answered.
    pub told: [Result<usize, Refusal>; 2],
    /// Whether answers and outputs are the same, and nothing else was written.
    pub agreed: bool,
}

impl Written {
    /// Writes by both programs, by the proved call twice, with outputs of this length that hold other bytes.
    pub fn by(
        g: &Graph,
        long: usize,
        separate: impl Fn(&Graph, &mut [u8]) -> Result<usize, Refusal>,
        proved: impl Fn(&Graph, &mut [u8]) -> Result<usize, Refusal>,
    ) -> Written {
        let mut output = vec![9; long];
        let expected = separate(g, &mut output);
        let edges = GuardedEdges::of(g);
        let mut agreed = expected.is_ok() || output.iter().all(|&byte| byte == 0);
        let told = [5, 255].map(|held| {
            let mut out = Guarded::new(long, held, 77);
            let told = proved(&edges.lend(g), out.lend_mut());
            agreed &= told == expected && out.lend() == output && out.unharmed();
            told
        });
        agreed &= edges.unharmed(g);
        Written {
            expected,
            told,
            agreed,
        }
    }
}
