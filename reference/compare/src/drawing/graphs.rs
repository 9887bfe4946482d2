//! Graphs as they are lent to the calls on numbers, right and now and then wrong.

use reference::graph::MOST_PRICE;
use reference::{build_index, half_points, index_length, Graph, Kind, OwnedGraph, Random};
use std::cmp::Reverse;
use std::collections::BTreeSet;
use std::ops::RangeInclusive;

/// The numbers of a graph, of which something may be wrong.
#[derive(Clone, Debug)]
pub struct Lent {
    pub kind: Kind,
    pub rows: u32,
    pub columns: u32,
    pub edges: u32,
    pub row: Vec<u32>,
    pub column: Vec<u32>,
    pub weight: Vec<i32>,
}

/// A weight: extreme, small or from the whole range.
pub fn weight(random: &mut Random) -> i32 {
    match random.below(4) {
        0 => random.pick(&[-1_000_000, 1_000_000, 0, -1, 1]),
        1 => random.between(-5, 5),
        _ => random.between(-1_000_000, 1_000_000),
    }
}

/// Two different places of so many, the earlier first. There are at least two.
fn two_places(random: &mut Random, count: usize) -> (usize, usize) {
    let one = random.below(count as u64 - 1) as usize;
    (
        one,
        one + 1 + random.below((count - 1 - one) as u64) as usize,
    )
}

/// Puts items into a drawn order.
fn shuffle<T>(random: &mut Random, items: &mut [T]) {
    for at in (1..items.len()).rev() {
        items.swap(at, random.below(at as u64 + 1) as usize);
    }
}

impl Lent {
    /// The bipartite graph of two vertices, without edges.
    pub fn empty() -> Lent {
        Lent::right(&mut Random::new(0), Kind::Bipartite, 1, 1, 0)
    }

    /// A right graph of a kind with these sizes and at most this many edges, in any order.
    pub fn right(random: &mut Random, kind: Kind, rows: u32, columns: u32, most: usize) -> Lent {
        let mut pairs: Vec<(u32, u32)> = Vec::new();
        for r in 1..=rows {
            for c in 1..=columns {
                if kind == Kind::Bipartite || r > c {
                    pairs.push((r, c));
                }
            }
        }
        shuffle(random, &mut pairs);
        pairs.truncate(most);
        Lent {
            kind,
            rows,
            columns,
            edges: pairs.len() as u32,
            row: pairs.iter().map(|p| p.0).collect(),
            column: pairs.iter().map(|p| p.1).collect(),
            weight: pairs.iter().map(|_| weight(random)).collect(),
        }
    }

    /// A right graph of a kind with these sizes and at most this many edges, in any order, with weights from this range.
    pub fn weighted(
        random: &mut Random,
        kind: Kind,
        rows: u32,
        columns: u32,
        most: usize,
        weights: &RangeInclusive<i32>,
    ) -> Lent {
        let mut lent = Lent::right(random, kind, rows, columns, most);
        lent.weight = numbers(random, lent.weight.len(), weights);
        lent
    }

    /// A graph of a kind with as many vertices as it may have and this many edges: right, unless these are too many.
    pub fn largest(random: &mut Random, kind: Kind, edges: usize) -> Lent {
        let side = match kind {
            Kind::Bipartite => 64,
            Kind::General => 128,
        };
        Lent::right(random, kind, side, side, edges)
    }

    /// The graph of a kind with as many vertices as it may have and 1,024 edges, those with the most bytes by this count of rows and columns.
    pub fn longest(random: &mut Random, kind: Kind, bytes: impl Fn(u32, u32) -> usize) -> Lent {
        let whole = Lent::largest(random, kind, usize::MAX);
        let mut places: Vec<_> = (0..whole.row.len()).collect();
        places.sort_by_key(|&at| usize::MAX - bytes(whole.row[at], whole.column[at]));
        whole.in_order(&places[..1024])
    }

    /// A chain, for bounds of 1: each row but the last has edges to columns i and i + 1, the first worth a little more, and the last row has one to
    /// column 1. The last column may be left out; the row before the last then has one edge, worth next to nothing. One subgraph alone is optimal:
    /// the last row's edge and the second edge of every other row that has two. A solver that serves the rows in their order has each row's first edge chosen
    /// before the last row, and then has to flip every edge. Columns are numbered and edges stand in any order.
    pub fn chain(random: &mut Random, rows: u32, row_end: bool) -> Lent {
        let columns = if row_end { rows - 1 } else { rows };
        let scale = 1 + random.below(997) as i32;
        let mut edges = vec![(rows, 1, 1_000)];
        for r in 1..rows {
            let more = random.between(1, 3);
            if r < columns {
                edges.extend([(r, r, 1_000 + more), (r, r + 1, 1_000)]);
            } else {
                edges.push((r, r, more));
            }
        }
        let mut number: Vec<u32> = (1..=columns).collect();
        shuffle(random, &mut number);
        shuffle(random, &mut edges);
        Lent {
            kind: Kind::Bipartite,
            rows,
            columns,
            edges: edges.len() as u32,
            row: edges.iter().map(|e| e.0).collect(),
            column: edges.iter().map(|e| number[e.1 as usize - 1]).collect(),
            weight: edges.iter().map(|e| scale * e.2).collect(),
        }
    }

    /// A general graph of odd rings beside each other, with at most two vertices in none, and of other edges, with at most so many in all if the rings
    /// have no more. Vertices are numbered and edges stand in any order.
    pub fn rings(random: &mut Random, vertices: u32, most: usize) -> Lent {
        let mut number: Vec<u32> = (1..=vertices).collect();
        shuffle(random, &mut number);
        let mut joined = BTreeSet::new();
        let mut left = &number[..];
        while left.len() > 2 {
            let length = 3 + 2 * random.below((left.len() as u64 - 1) / 2) as usize;
            let (ring, rest) = left.split_at(length);
            for (at, &one) in ring.iter().enumerate() {
                let next = ring[(at + 1) % length];
                joined.insert((one.max(next), one.min(next)));
            }
            left = rest;
        }
        let whole = Lent::right(random, Kind::General, vertices, vertices, usize::MAX);
        let in_ring = |&at: &usize| joined.contains(&(whole.row[at], whole.column[at]));
        let (mut places, mut beside): (Vec<_>, Vec<_>) = (0..whole.row.len()).partition(in_ring);
        beside.truncate(most.saturating_sub(places.len()));
        places.extend(beside);
        whole.in_order(&places).shuffled(random)
    }

    /// The general graph of a bipartite one: its column vertices, and then its row vertices.
    pub fn one_sided(&self) -> Lent {
        let vertices = self.rows + self.columns;
        Lent {
            kind: Kind::General,
            rows: vertices,
            columns: vertices,
            row: self.row.iter().map(|row| self.columns + row).collect(),
            ..self.clone()
        }
    }

    /// A right graph of either kind: small, or now and then full.
    pub fn any(random: &mut Random) -> Lent {
        let kind = random.pick(&[Kind::Bipartite, Kind::General]);
        Lent::any_of(random, kind)
    }

    /// A right graph of a kind: small, or now and then full.
    pub fn any_of(random: &mut Random, kind: Kind) -> Lent {
        let full = random.below(100) == 0;
        let side = match (kind, full) {
            (Kind::Bipartite, true) => 64,
            (Kind::General, true) => 128,
            _ => 6,
        };
        let rows = 1 + random.below(side) as u32;
        let columns = if kind == Kind::General {
            rows
        } else {
            1 + random.below(side) as u32
        };
        let most = if full {
            1024
        } else {
            random.below(13) as usize
        };
        Lent::right(random, kind, rows, columns, most)
    }

    /// Now and then all weights become the same.
    pub fn level(&mut self, random: &mut Random) {
        if random.below(4) == 0 {
            let same = weight(random);
            self.weight.fill(same);
        }
    }

    /// One number or length is made wrong, of which another may be wrong already.
    pub fn spoil(&mut self, random: &mut Random) {
        let far = random.pick(&[0, 65, 129, 1025, u32::MAX, u32::MAX - 3, 1 << 31]);
        let lengths = [self.row.len(), self.column.len(), self.weight.len()];
        let count = lengths.into_iter().min().unwrap_or(0);
        let at = random.below(count.max(1) as u64) as usize;
        match random.below(9) {
            0 => self.rows = far,
            1 => self.columns = far,
            2 => self.edges = far,
            3 => self.row.push(1),
            4 => drop(self.weight.pop()),
            5 if count > 0 => self.row[at] = random.pick(&[0, 7, far]),
            6 if count > 0 => self.column[at] = random.pick(&[0, 7, far]),
            7 if count > 0 => {
                self.weight[at] = random.pick(&[1_000_001, -1_000_001, i32::MIN, i32::MAX])
            }
            8 if count > 1 => {
                let (one, other) = two_places(random, count);
                self.row[other] = self.row[one];
                self.column[other] = self.column[one];
            }
            _ => self.kind = random.pick(&[Kind::Bipartite, Kind::General]),
        }
    }

    /// The edges that stand at these places, in this order.
    pub fn in_order(&self, places: &[usize]) -> Lent {
        Lent {
            edges: places.len() as u32,
            row: places.iter().map(|&at| self.row[at]).collect(),
            column: places.iter().map(|&at| self.column[at]).collect(),
            weight: places.iter().map(|&at| self.weight[at]).collect(),
            ..*self
        }
    }

    /// The same edges in a drawn order.
    pub fn shuffled(&self, random: &mut Random) -> Lent {
        let mut places: Vec<_> = (0..self.row.len()).collect();
        shuffle(random, &mut places);
        self.in_order(&places)
    }

    /// The graph with the ends of two of its edges exchanged, if it has two.
    pub fn exchanged(&self, random: &mut Random) -> Option<Lent> {
        if self.row.len() < 2 {
            return None;
        }
        let (one, other) = two_places(random, self.row.len());
        let mut made = self.clone();
        made.row.swap(one, other);
        made.column.swap(one, other);
        Some(made)
    }

    /// The graph with one edge between other ends, if such are found.
    pub fn moved(&self, random: &mut Random) -> Option<Lent> {
        let count = self.row.len() as u64;
        if count == 0 {
            return None;
        }
        let at = random.below(count) as usize;
        let mut made = self.clone();
        for _ in 0..20 {
            made.row[at] = 1 + random.below(self.rows.into()) as u32;
            made.column[at] = 1 + random.below(self.columns.into()) as u32;
            let on_side = self.kind == Kind::Bipartite || made.row[at] > made.column[at];
            let ends = (made.row[at], made.column[at]);
            let mut pairs = self.row.iter().zip(&self.column);
            if on_side && pairs.all(|(&row, &column)| (row, column) != ends) {
                return Some(made);
            }
        }
        None
    }

    /// The last edge, if there is one, is taken out.
    pub fn lose_last_edge(&mut self) {
        self.row.pop();
        self.column.pop();
        self.weight.pop();
        self.edges = self.row.len() as u32;
    }

    /// The size line and a line for each edge, as a text has them after its header.
    pub fn lines(&self) -> String {
        let mut lines = format!("{} {} {}\n", self.rows, self.columns, self.edges);
        for ((row, column), weight) in self.row.iter().zip(&self.column).zip(&self.weight) {
            lines += &format!("{row} {column} {weight}\n");
        }
        lines
    }

    /// The graph as it is lent.
    pub fn lend(&self) -> Graph<'_> {
        Graph {
            kind: self.kind,
            rows: self.rows,
            columns: self.columns,
            edges: self.edges,
            row: &self.row,
            column: &self.column,
            weight: &self.weight,
        }
    }

    /// The index of a right graph. Of a wrong one it has the length that the numbers give, up to 4,096, and holds 0.
    pub fn index(&self) -> Vec<u32> {
        let g = self.lend();
        let mut index = vec![0; index_length(&g).min(4096) as usize];
        let _ = build_index(&g, &mut index);
        index
    }

    /// Whether a right graph has as many vertices and edges as it may have.
    pub fn is_largest(&self) -> bool {
        self.edges == 1024 && self.vertices() == 128
    }

    /// The number of vertices, where the graph is right.
    pub fn vertices(&self) -> usize {
        self.lend().vertices() as usize
    }
}

impl From<OwnedGraph> for Lent {
    fn from(owned: OwnedGraph) -> Lent {
        Lent {
            kind: owned.kind,
            rows: owned.rows,
            columns: owned.columns,
            edges: owned.row.len() as u32,
            row: owned.row,
            column: owned.column,
            weight: owned.weight,
        }
    }
}

/// Graphs with sizes at the ends of their ranges and beyond them, and with ends beyond their sizes, on the wrong side, or twice.
pub fn extreme_graphs(random: &mut Random) -> Vec<Lent> {
    let sizes = [(64, 64), (65, 1), (1, 65), (0, 2), (2, 0)];
    let two_sided = sizes.map(|(rows, columns)| (Kind::Bipartite, rows, columns));
    let sizes = [(128, 128), (129, 129), (0, 0), (3, 2), (2, 3)];
    let one_sided = sizes.map(|(rows, columns)| (Kind::General, rows, columns));
    let sizes = two_sided.into_iter().chain(one_sided);
    let graphs = sizes.map(|(kind, rows, columns)| Lent::right(random, kind, rows, columns, 6));
    let mut graphs: Vec<_> = graphs.collect();
    let square = Lent::right(random, Kind::Bipartite, 3, 3, 9);
    let triangle = Lent::right(random, Kind::General, 3, 3, 3);
    let mut twice = square.clone();
    (twice.row[8], twice.column[8]) = (twice.row[0], twice.column[0]);
    graphs.extend([
        Lent {
            rows: 2,
            ..square.clone()
        },
        Lent {
            columns: 2,
            ..square.clone()
        },
        Lent {
            kind: Kind::General,
            ..square
        },
        Lent {
            rows: 2,
            columns: 2,
            ..triangle
        },
        twice,
    ]);
    graphs
}

/// How many digits a number has.
pub fn digits(number: u32) -> usize {
    number.to_string().len()
}

/// A lent length: mostly the right one.
pub fn length(random: &mut Random, right: usize) -> usize {
    match random.below(60) {
        0 => right + 1,
        1 => right.saturating_sub(1),
        2 => 0,
        _ => right,
    }
}

/// What a graph shows of which something that is lent has such a length.
pub const WRAPPED: &str = "length that 32 bits do not hold";

/// A lent length: mostly the right one, up to 4,096, and now and then what 32 bits hold of it.
pub fn wide_length(random: &mut Random, right: u64) -> usize {
    let wrapped = right as u32;
    if random.below(2) == 0 && wrapped < 4096 {
        return wrapped as usize;
    }
    length(random, right.min(4096) as usize)
}

/// So many numbers from a range.
pub fn numbers(random: &mut Random, count: usize, range: &RangeInclusive<i32>) -> Vec<i32> {
    let (low, high) = (*range.start(), *range.end());
    (0..count).map(|_| random.between(low, high)).collect()
}

/// Bounds of `count` vertices.
pub fn bounds(random: &mut Random, count: usize) -> Vec<i32> {
    (0..count)
        .map(|_| random.pick(&[0, 1, 1, 2, 3, 64]))
        .collect()
}

/// The marks of a feasible subgraph of a right graph: of the edges at these places, in this order, those that still fit and are wanted.
fn fitting(
    g: &Graph,
    bound: &[i32],
    places: impl IntoIterator<Item = usize>,
    mut wanted: impl FnMut() -> bool,
) -> Vec<u8> {
    let mut room = bound.to_vec();
    let mut chosen = vec![0; g.edges as usize];
    for e in places {
        let (a, b) = g.ends(e);
        if room[a] > 0 && room[b] > 0 && wanted() {
            room[a] -= 1;
            room[b] -= 1;
            chosen[e] = 1;
        }
    }
    chosen
}

/// The marks of a feasible subgraph of a right graph: of the edges that still fit, two in three.
pub fn feasible(random: &mut Random, g: &Graph, bound: &[i32]) -> Vec<u8> {
    fitting(g, bound, 0..g.edges as usize, || random.below(3) > 0)
}

/// The marks of a feasible subgraph of a right graph: of the edges of weight above 0, by falling weight, those that still fit.
pub fn falling(g: &Graph, bound: &[i32]) -> Vec<u8> {
    let gaining = (0..g.edges as usize).filter(|&e| g.weight[e] > 0);
    let mut places: Vec<_> = gaining.collect();
    places.sort_by_key(|&e| Reverse(g.weight[e]));
    fitting(g, bound, places, || true)
}

/// Prices from 0 to `most` half points, or all of them the largest that is taken.
pub fn prices(random: &mut Random, count: usize, most: i32, extreme: bool) -> Vec<i32> {
    let mut price = || match extreme {
        true => MOST_PRICE,
        false => random.between(0, most),
    };
    (0..count).map(|_| price()).collect()
}

/// Raises the prices of the edges of a right graph until every edge is covered.
pub fn cover(g: &Graph, vertex: &[i32], edge: &mut [i32]) {
    for (e, price) in edge.iter_mut().enumerate() {
        let (a, b) = g.ends(e);
        let lacking = half_points(g.weight[e]) - vertex[a] - vertex[b] - *price;
        *price += lacking.max(0);
    }
}
