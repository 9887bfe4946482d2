//! What is lent to be priced: general graphs that can be doubled, with bounds, and faults that lead to what is known.

use crate::drawing::graphs::{bounds, numbers, Lent};
use crate::drawing::problems::WHOLE_RANGE;
use crate::harness::tally::{other, Seen};
use reference::{Kind, Random, Refusal};
use std::ops::RangeInclusive;

/// The most edges with which every subgraph of a graph and of its doubled graph is tried.
pub const MOST_TRIED: u32 = 7;

/// The sizes and the edges of a graph that can be doubled.
#[derive(Clone, Copy, Debug, PartialEq, Eq)]
pub enum Shape {
    Small,
    SmallRings,
    Sparse,
    Middling,
    Dense,
    Rings,
    Full,
    FullRings,
}

impl Shape {
    /// Those with few enough edges to try every subgraph.
    pub const SMALL: [Shape; 2] = [Shape::Small, Shape::SmallRings];

    pub const LARGE: [Shape; 6] = [
        Shape::Sparse,
        Shape::Middling,
        Shape::Dense,
        Shape::Rings,
        Shape::Full,
        Shape::FullRings,
    ];

    /// Graphs of this shape, in words.
    pub fn seen(self) -> Seen {
        other(match self {
            Shape::Small => "small graphs",
            Shape::SmallRings => "small graphs with odd rings",
            Shape::Sparse => "graphs with no more edges than vertices",
            Shape::Middling => "middling graphs",
            Shape::Dense => "graphs with every edge",
            Shape::Rings => "graphs with odd rings",
            Shape::Full => "full graphs",
            Shape::FullRings => "full graphs with odd rings",
        })
    }

    fn graph(self, random: &mut Random) -> Lent {
        let mut from = |low, high| random.between(low, high) as u32;
        let (vertices, edges) = match self {
            Shape::Small => (from(1, 6), from(0, MOST_TRIED as i32)),
            Shape::SmallRings => (from(3, MOST_TRIED as i32), from(3, MOST_TRIED as i32)),
            Shape::Sparse => {
                let vertices = from(7, 64);
                (vertices, from(0, vertices as i32))
            }
            Shape::Middling => (from(7, 63), from(0, 511)),
            Shape::Dense => (from(7, 32), 512),
            Shape::Rings => (from(9, 64), from(0, 100)),
            Shape::Full | Shape::FullRings => (64, 512),
        };
        let most = edges as usize;
        match self {
            Shape::SmallRings | Shape::Rings | Shape::FullRings => {
                Lent::rings(random, vertices, most)
            }
            _ => Lent::right(random, Kind::General, vertices, vertices, most),
        }
    }
}

/// What weights or bounds are drawn from, in words; where there is no range, they are of many sorts.
type Range = (&'static str, Option<RangeInclusive<i32>>);

const WEIGHTS: [Range; 9] = [
    ("weights of many sorts", None),
    ("weights from the whole range", Some(WHOLE_RANGE)),
    ("weights above 0", Some(1..=1_000_000)),
    ("weights from -2 to 3", Some(-2..=3)),
    ("weights of 0 and 1", Some(0..=1)),
    ("weights of 1", Some(1..=1)),
    ("weights of 0", Some(0..=0)),
    ("weights below 0", Some(-1_000_000..=-1)),
    ("weights of 1,000,000", Some(1_000_000..=1_000_000)),
];

const BOUNDS: [Range; 6] = [
    ("bounds of many sorts", None),
    ("bounds of 0", Some(0..=0)),
    ("bounds of 1", Some(1..=1)),
    ("bounds from 1 to 4", Some(1..=4)),
    ("bounds from the whole range", Some(0..=64)),
    ("bounds of 64", Some(64..=64)),
];

/// All sorts of weights and bounds.
pub fn all_ranges() -> Vec<Seen> {
    let ranges = WEIGHTS.iter().chain(&BOUNDS);
    ranges.map(|(words, _)| other(*words)).collect()
}

/// Any of some ranges.
fn any_range<'a>(random: &mut Random, ranges: &'a [Range]) -> &'a Range {
    &ranges[random.below(ranges.len() as u64) as usize]
}

/// What is lent to be priced: a graph, its bounds, and outputs of these lengths.
#[derive(Clone, Debug)]
pub struct Lending {
    pub graph: Lent,
    pub bound: Vec<i32>,
    pub vertices: usize,
    pub edges: usize,
}

impl Lending {
    /// A graph and bounds, and the lengths that the graph's numbers ask for.
    pub fn new(graph: Lent, bound: Vec<i32>) -> Lending {
        Lending {
            vertices: graph.vertices(),
            edges: graph.edges as usize,
            graph,
            bound,
        }
    }

    /// A graph of a shape with weights and bounds of any sort, and what it shows.
    pub fn of(random: &mut Random, shape: Shape) -> (Lending, Vec<Seen>) {
        let mut graph = shape.graph(random);
        let (weights, range) = any_range(random, &WEIGHTS);
        if let Some(range) = range {
            graph.weight = numbers(random, graph.weight.len(), range);
        }
        let count = graph.vertices();
        let (words, range) = any_range(random, &BOUNDS);
        let bound = match range {
            Some(range) => numbers(random, count, range),
            None => bounds(random, count),
        };
        let seen = vec![shape.seen(), other(*weights), other(*words)];
        (Lending::new(graph, bound), seen)
    }

    /// A graph that can be doubled, with a few edges.
    fn few_edges(random: &mut Random) -> Lending {
        let vertices = 4 + random.below(5) as u32;
        let edges = 3 + random.below(10) as usize;
        let graph = Lent::right(random, Kind::General, vertices, vertices, edges);
        Lending::new(graph, Vec::new())
    }

    /// Any edge, from 0.
    fn any_edge(&self, random: &mut Random) -> Option<usize> {
        let count = self.graph.row.len() as u64;
        (count > 0).then(|| random.below(count) as usize)
    }
}

/// A fault of what is lent to be priced.
pub struct Fault {
    pub words: &'static str,
    /// The number of its refusal.
    pub number: u32,
    /// Makes it, and hands back its place, or nothing if it cannot be made there.
    make: fn(&mut Random, &mut Lending) -> Option<u64>,
}

/// The numbers of faults in the order of the tests.
pub const ORDER: [u32; 7] = [9, 4, 6, 7, 8, 10, 24];

/// The numbers of faults in an order in which one leaves those before as they are, unless it is found before them.
const MAKING: [u32; 7] = [24, 4, 8, 7, 6, 10, 9];

/// The ends of any edge become others; the place is the edge.
fn change_ends(
    random: &mut Random,
    lent: &mut Lending,
    change: fn(&Lent, u32, u32) -> (u32, u32),
) -> Option<u64> {
    let at = lent.any_edge(random)?;
    let graph = &mut lent.graph;
    (graph.row[at], graph.column[at]) = change(graph, graph.row[at], graph.column[at]);
    Some(at as u64 + 1)
}

/// The weight of any edge becomes another; the place is the edge.
fn set_weight(random: &mut Random, lent: &mut Lending, weight: i32) -> Option<u64> {
    let at = lent.any_edge(random)?;
    lent.graph.weight[at] = weight;
    Some(at as u64 + 1)
}

/// An edge gets the ends of an earlier one; the place is the later one.
fn repeat_ends(random: &mut Random, lent: &mut Lending) -> Option<u64> {
    let at = lent.any_edge(random)?;
    let earlier = (at > 0).then(|| random.below(at as u64) as usize)?;
    let graph = &mut lent.graph;
    (graph.row[at], graph.column[at]) = (graph.row[earlier], graph.column[earlier]);
    Some(at as u64 + 1)
}

/// Any bound becomes another; the place is the vertex.
fn set_bound(random: &mut Random, lent: &mut Lending, bound: i32) -> Option<u64> {
    let count = lent.bound.len() as u64;
    let at = (count > 0).then(|| random.below(count))?;
    lent.bound[at as usize] = bound;
    Some(at + 1)
}

/// Something if the graph is general, so that both ends of an edge are of the same vertices.
fn is_general(lent: &Lending) -> Option<()> {
    (lent.graph.kind == Kind::General).then_some(())
}

/// The sizes become others.
fn set_sizes(lent: &mut Lending, rows: u32, columns: u32) -> Option<u64> {
    (lent.graph.rows, lent.graph.columns) = (rows, columns);
    Some(0)
}

/// The graph becomes another.
fn set_graph(lent: &mut Lending, graph: Lent) -> Option<u64> {
    lent.graph = graph;
    Some(0)
}

/// Something is added to a slice.
fn lengthen<T: Default>(slice: &mut Vec<T>) -> Option<u64> {
    slice.push(T::default());
    Some(0)
}

/// The last is taken from a slice.
fn shorten<T>(slice: &mut Vec<T>) -> Option<u64> {
    slice.pop().map(|_| 0)
}

const fn fault(
    number: u32,
    words: &'static str,
    make: fn(&mut Random, &mut Lending) -> Option<u64>,
) -> Fault {
    Fault {
        words,
        number,
        make,
    }
}

/// All faults that are known.
pub static FAULTS: [Fault; 39] = [
    fault(9, "a row more", |_, lent| lengthen(&mut lent.graph.row)),
    fault(9, "a row less", |_, lent| shorten(&mut lent.graph.row)),
    fault(9, "a column more", |_, lent| {
        lengthen(&mut lent.graph.column)
    }),
    fault(9, "a column less", |_, lent| {
        shorten(&mut lent.graph.column)
    }),
    fault(9, "a weight more", |_, lent| {
        lengthen(&mut lent.graph.weight)
    }),
    fault(9, "a weight less", |_, lent| {
        shorten(&mut lent.graph.weight)
    }),
    fault(9, "a bound more", |_, lent| lengthen(&mut lent.bound)),
    fault(9, "a bound less", |_, lent| shorten(&mut lent.bound)),
    fault(9, "a vertex price more", |_, lent| {
        lent.vertices += 1;
        Some(0)
    }),
    fault(9, "a vertex price less", |_, lent| {
        lent.vertices = lent.vertices.checked_sub(1)?;
        Some(0)
    }),
    fault(9, "an edge price more", |_, lent| {
        lent.edges += 1;
        Some(0)
    }),
    fault(9, "an edge price less", |_, lent| {
        lent.edges = lent.edges.checked_sub(1)?;
        Some(0)
    }),
    fault(4, "no vertices", |_, lent| set_sizes(lent, 0, 0)),
    fault(4, "no rows", |_, lent| {
        set_sizes(lent, 0, lent.graph.columns)
    }),
    fault(4, "rows and columns that are not as many", |_, lent| {
        set_sizes(lent, lent.graph.rows, lent.graph.rows + 64)
    }),
    fault(4, "129 rows and columns", |_, lent| {
        set_sizes(lent, 129, 129)
    }),
    fault(4, "1,025 edges", |random, lent| {
        set_graph(lent, Lent::largest(random, lent.graph.kind, 1025))
    }),
    fault(6, "row 0", |random, lent| {
        change_ends(random, lent, |_, _, column| (0, column))
    }),
    fault(6, "column 0", |random, lent| {
        change_ends(random, lent, |_, row, _| (row, 0))
    }),
    fault(6, "a row beyond the last", |random, lent| {
        change_ends(random, lent, |graph, _, column| (graph.rows + 1, column))
    }),
    fault(6, "a column beyond the last", |random, lent| {
        change_ends(random, lent, |graph, row, _| (row, graph.columns + 1))
    }),
    fault(6, "an edge from a vertex to itself", |random, lent| {
        is_general(lent)?;
        change_ends(random, lent, |_, row, _| (row, row))
    }),
    fault(6, "ends turned round", |random, lent| {
        is_general(lent)?;
        change_ends(random, lent, |_, row, column| (column, row))
    }),
    fault(7, "weight 1,000,001", |random, lent| {
        set_weight(random, lent, 1_000_001)
    }),
    fault(7, "weight -1,000,001", |random, lent| {
        set_weight(random, lent, -1_000_001)
    }),
    fault(7, "the greatest weight of 32 bits", |random, lent| {
        set_weight(random, lent, i32::MAX)
    }),
    fault(7, "the least weight of 32 bits", |random, lent| {
        set_weight(random, lent, i32::MIN)
    }),
    fault(8, "the same ends twice", repeat_ends),
    fault(10, "bound 65", |random, lent| set_bound(random, lent, 65)),
    fault(10, "bound -1", |random, lent| set_bound(random, lent, -1)),
    fault(10, "the greatest bound of 32 bits", |random, lent| {
        set_bound(random, lent, i32::MAX)
    }),
    fault(10, "the least bound of 32 bits", |random, lent| {
        set_bound(random, lent, i32::MIN)
    }),
    fault(24, "two-sided", |random, lent| {
        let (rows, columns) = (1 + random.below(9) as u32, 1 + random.below(9) as u32);
        let graph = Lent::right(random, Kind::Bipartite, rows, columns, 12);
        set_graph(lent, graph)
    }),
    fault(24, "two-sided and full", |random, lent| {
        set_graph(lent, Lent::largest(random, Kind::Bipartite, 1024))
    }),
    fault(24, "65 vertices", |random, lent| {
        let graph = Lent::right(random, Kind::General, 65, 65, 12);
        set_graph(lent, graph)
    }),
    fault(24, "128 vertices", |random, lent| {
        set_graph(lent, Lent::largest(random, Kind::General, 12))
    }),
    fault(24, "513 edges", |random, lent| {
        let vertices = 33 + random.below(32) as u32;
        let graph = Lent::right(random, Kind::General, vertices, vertices, 513);
        set_graph(lent, graph)
    }),
    fault(24, "1,024 edges", |random, lent| {
        let graph = Lent::right(random, Kind::General, 64, 64, 1024);
        set_graph(lent, graph)
    }),
    fault(24, "128 vertices and 1,024 edges", |random, lent| {
        set_graph(lent, Lent::largest(random, Kind::General, 1024))
    }),
];

/// What is lent with faults, one of each number, and the refusal of each in the order of the tests.
pub struct Faulty {
    pub lending: Lending,
    pub refusals: Vec<Refusal>,
}

impl Faulty {
    /// What is lent with these faults, unless they cannot be made together.
    pub fn with(random: &mut Random, faults: &[&Fault]) -> Option<Faulty> {
        let mut lending = Lending::few_edges(random);
        let mut refusals = Vec::new();
        for number in MAKING {
            if number == 10 {
                // The sizes do not change any more.
                let count = lending.graph.vertices();
                let bound = bounds(random, count);
                lending = Lending::new(lending.graph, bound);
            }
            if let Some(fault) = faults.iter().find(|fault| fault.number == number) {
                let place = (fault.make)(random, &mut lending)?;
                refusals.push(Refusal::new(number, place));
            }
        }
        let turn = |refusal: &Refusal| ORDER.iter().position(|&number| number == refusal.number);
        refusals.sort_by_key(turn);
        Some(Faulty { lending, refusals })
    }

    /// What is lent with a fault of each of these numbers.
    pub fn of(random: &mut Random, numbers: &[u32]) -> Faulty {
        loop {
            let faults: Vec<_> = numbers
                .iter()
                .map(|&number| any_fault(random, number))
                .collect();
            if let Some(faulty) = Faulty::with(random, &faults) {
                return faulty;
            }
        }
    }
}

/// Any fault of a number.
fn any_fault(random: &mut Random, number: u32) -> &'static Fault {
    let mut faults: Vec<_> = FAULTS
        .iter()
        .filter(|fault| fault.number == number)
        .collect();
    faults.swap_remove(random.below(faults.len() as u64) as usize)
}
