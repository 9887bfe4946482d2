//! Graphs, and the tests on a graph's numbers.

use crate::refusal::Refusal;
use std::ops::Add;

/// The most row or column vertices of a bipartite graph (dams, sires).
pub const MOST_SIDE: u32 = 64;
/// The most vertices of a general graph (families).
pub const MOST_GENERAL: u32 = 128;
/// The most vertices of any graph (fish).
pub const MOST_VERTICES: usize = 128;
/// The most edges of any graph (pairs).
pub const MOST_EDGES: u32 = 1_024;
/// The largest absolute value of a weight (merit).
pub const MOST_WEIGHT: i32 = 1_000_000;
/// The largest bound (limit).
pub const MOST_BOUND: i32 = 64;
/// The largest price of any sort, in half points (price).
pub const MOST_PRICE: i32 = 4_000_000;
/// The largest price in a text by the old rules (document 01's price).
pub const MOST_OLD_PRICE: i32 = 2_000_000;
/// The most odd sets (groups).
pub const MOST_SETS: u32 = 16;

/// The kind of a graph (kind of a sheet).
#[derive(Clone, Copy, Debug, PartialEq, Eq)]
pub enum Kind {
    /// A bipartite graph (two-sided sheet): row vertices are dams, column
    /// vertices are sires.
    Bipartite,
    /// A general graph (one-sided sheet): each vertex is a family.
    General,
}

/// What the graph reader hands back besides its outputs (kind, rows, columns
/// and count of pairs of a sheet).
#[derive(Clone, Copy, Debug, PartialEq, Eq)]
pub struct Head {
    /// The kind (two-sided or one-sided).
    pub kind: Kind,
    /// The count of row vertices (rows).
    pub rows: u32,
    /// The count of column vertices (columns).
    pub columns: u32,
    /// The count of edges (pairs, m).
    pub edges: u32,
}

/// A graph as lent to a call (sheet). Its numbers may be wrong; the calls test
/// them.
#[derive(Clone, Copy, Debug)]
pub struct Graph<'a> {
    /// The kind (two-sided or one-sided).
    pub kind: Kind,
    /// The count of row vertices (rows).
    pub rows: u32,
    /// The count of column vertices (columns).
    pub columns: u32,
    /// The count of edges (pairs, m).
    pub edges: u32,
    /// The row of each edge (first end of a pair, as in the text).
    pub row: &'a [u32],
    /// The column of each edge (second end of a pair, as in the text).
    pub column: &'a [u32],
    /// The weight of each edge (merit).
    pub weight: &'a [i32],
}

impl Graph<'_> {
    /// The count of vertices as the passed numbers give it (fish, n).
    pub fn vertices(&self) -> u64 {
        match self.kind {
            Kind::Bipartite => u64::from(self.rows) + u64::from(self.columns),
            Kind::General => u64::from(self.rows),
        }
    }

    /// The row, the column and the weight of each edge, in their order.
    pub(crate) fn listed(&self) -> impl Iterator<Item = (u32, u32, i32)> + '_ {
        let ends = self.row.iter().zip(self.column);
        ends.zip(self.weight).map(|((&r, &c), &w)| (r, c, w))
    }

    /// The two ends of an edge as vertex indices from 0 (the two fish of a
    /// pair). For graphs that passed [`test_graph`].
    pub fn ends(&self, edge: usize) -> (usize, usize) {
        let first = self.row[edge] as usize - 1;
        let second = self.column[edge] as usize - 1;
        match self.kind {
            Kind::Bipartite => (first, self.rows as usize + second),
            Kind::General => (first, second),
        }
    }
}

/// A graph that owns its edges (sheet).
#[derive(Clone, Debug, PartialEq, Eq)]
pub struct OwnedGraph {
    /// The kind (two-sided or one-sided).
    pub kind: Kind,
    /// The count of row vertices (rows).
    pub rows: u32,
    /// The count of column vertices (columns).
    pub columns: u32,
    /// The row of each edge (first end).
    pub row: Vec<u32>,
    /// The column of each edge (second end).
    pub column: Vec<u32>,
    /// The weight of each edge (merit).
    pub weight: Vec<i32>,
}

impl OwnedGraph {
    /// The graph of these edges, each a row, a column and a weight.
    pub fn new(kind: Kind, rows: u32, columns: u32, edges: &[(u32, u32, i32)]) -> OwnedGraph {
        OwnedGraph {
            kind,
            rows,
            columns,
            row: edges.iter().map(|edge| edge.0).collect(),
            column: edges.iter().map(|edge| edge.1).collect(),
            weight: edges.iter().map(|edge| edge.2).collect(),
        }
    }

    /// The graph as lent to a call.
    pub fn lend(&self) -> Graph<'_> {
        Graph {
            kind: self.kind,
            rows: self.rows,
            columns: self.columns,
            edges: self.row.len() as u32,
            row: &self.row,
            column: &self.column,
            weight: &self.weight,
        }
    }
}

/// A set of (row, column) pairs within 128 by 128, to find equal ends.
pub(crate) struct PairSet {
    words: [u64; 256],
}

impl PairSet {
    /// The empty set.
    pub(crate) fn new() -> PairSet {
        PairSet { words: [0; 256] }
    }

    /// Puts a pair in; says whether it was not in before.
    pub(crate) fn insert(&mut self, row: u32, column: u32) -> bool {
        let at = (row as usize - 1) * MOST_VERTICES + (column as usize - 1);
        let bit = 1 << (at % 64);
        let new = self.words[at / 64] & bit == 0;
        self.words[at / 64] |= bit;
        new
    }
}

/// Whether a lent slice of this length has the length asked for.
pub(crate) fn has_length(length: usize, asked: u64) -> bool {
    length as u64 == asked
}

/// Whether sizes are within the ranges of their kind (refusal 4).
pub(crate) fn sizes_in_range(kind: Kind, rows: u32, columns: u32, edges: u32) -> bool {
    let sides = match kind {
        Kind::Bipartite => (1..=MOST_SIDE).contains(&rows) && (1..=MOST_SIDE).contains(&columns),
        Kind::General => (1..=MOST_GENERAL).contains(&rows) && rows == columns,
    };
    sides && edges <= MOST_EDGES
}

/// Whether the ends of an edge are in range and on their sides (refusal 6).
pub(crate) fn ends_in_range(kind: Kind, rows: u32, columns: u32, row: u32, column: u32) -> bool {
    let in_range = (1..=rows).contains(&row) && (1..=columns).contains(&column);
    in_range && (kind == Kind::Bipartite || row > column)
}

/// Whether a weight is in range (refusal 7).
pub(crate) fn weight_in_range(weight: i32) -> bool {
    (-MOST_WEIGHT..=MOST_WEIGHT).contains(&weight)
}

/// Whether a bound is in range (refusal 10).
pub(crate) fn bound_in_range(bound: i32) -> bool {
    (0..=MOST_BOUND).contains(&bound)
}

/// Whether a price is from 0 to the largest (refusal 13).
pub(crate) fn price_in_range(price: i32, most: i32) -> bool {
    (0..=most).contains(&price)
}

/// What points are worth in half points. Weights are in points and prices in
/// half points.
pub fn half_points<T: Copy + Add<Output = T>>(points: T) -> T {
    points + points
}

/// Whether the three slices of a graph have its count of edges (refusal 9).
pub(crate) fn graph_lengths_right(graph: &Graph) -> bool {
    let edges = u64::from(graph.edges);
    has_length(graph.row.len(), edges)
        && has_length(graph.column.len(), edges)
        && has_length(graph.weight.len(), edges)
}

/// Refuses with this number at the first item, counted from 1, that does not
/// keep a rule.
pub(crate) fn test_each<T: Copy>(
    items: &[T],
    number: u32,
    keeps: impl Fn(T) -> bool,
) -> Result<(), Refusal> {
    match items.iter().position(|&item| !keeps(item)) {
        Some(at) => Err(Refusal::new(number, at as u64 + 1)),
        None => Ok(()),
    }
}

/// Tests the numbers of a graph whose lengths are right (refusals 4, 6, 7, 8).
pub(crate) fn test_graph(graph: &Graph) -> Result<(), Refusal> {
    let Graph {
        kind,
        rows,
        columns,
        edges,
        ..
    } = *graph;
    if !sizes_in_range(kind, rows, columns, edges) {
        return Err(Refusal::new(4, 0));
    }
    let ends = || graph.row.iter().copied().zip(graph.column.iter().copied());
    for (edge, (row, column)) in ends().enumerate() {
        if !ends_in_range(kind, rows, columns, row, column) {
            return Err(Refusal::new(6, edge as u64 + 1));
        }
    }
    test_each(graph.weight, 7, weight_in_range)?;
    let mut earlier = PairSet::new();
    for (edge, (row, column)) in ends().enumerate() {
        if !earlier.insert(row, column) {
            return Err(Refusal::new(8, edge as u64 + 1));
        }
    }
    Ok(())
}

/// Tests bounds (refusal 10).
pub(crate) fn test_bounds(bound: &[i32]) -> Result<(), Refusal> {
    test_each(bound, 10, bound_in_range)
}

/// Tests chosen marks (refusal 11).
pub(crate) fn test_chosen(chosen: &[u8]) -> Result<(), Refusal> {
    test_each(chosen, 11, |mark| mark <= 1)
}
