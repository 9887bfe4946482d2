//! Graphs with bounds that are solved or priced to measure how fast that is.

use crate::drawing::graphs::{numbers, Lent};
use reference::brute::weight_of;
use reference::graph::{MOST_EDGES, MOST_VERTICES, MOST_WEIGHT};
use reference::solve::WORKSPACE;
use reference::{doubled, Graph, Kind, Random, Refusal};
use std::fmt;
use std::hint::black_box;
use std::ops::RangeInclusive;

/// A solver, the proved one or the separately written one.
pub type Solving = fn(
    &Graph,
    &[i32],
    &[u32],
    &mut [u8],
    &mut [i32],
    &mut [i32],
    &mut [i32],
) -> Result<(), Refusal>;

/// All weights that a graph may have.
pub const WHOLE_RANGE: RangeInclusive<i32> = -MOST_WEIGHT..=MOST_WEIGHT;

/// The bounds of document 02's request for speed.
const REQUESTED_BOUNDS: RangeInclusive<i32> = 1..=4;

/// A bipartite graph to be solved, or a general one to be priced.
pub struct Problem {
    pub graph: Lent,
    pub bound: Vec<i32>,
    pub index: Vec<u32>,
}

impl Problem {
    /// A graph and its bounds, with its index.
    pub fn new(graph: Lent, bound: Vec<i32>) -> Problem {
        Problem {
            bound,
            index: graph.index(),
            graph,
        }
    }

    /// The doubled graph of a general one, to be solved.
    pub fn doubled(&self) -> Problem {
        let (twice, bounds) = doubled(&self.graph.lend(), &self.bound);
        Problem::new(twice.into(), bounds)
    }
}

/// What problems have in common: their kind and sizes, and the ranges that weights and bounds are drawn from.
#[derive(Clone, Debug, PartialEq, Eq)]
pub struct Family {
    pub kind: Kind,
    pub rows: u32,
    pub columns: u32,
    pub edges: usize,
    pub weights: RangeInclusive<i32>,
    pub bounds: RangeInclusive<i32>,
}

impl Family {
    /// The bipartite family of these sizes, with weights from their whole range and bounds 1 to 4.
    pub fn new(rows: u32, columns: u32, edges: usize) -> Family {
        Family {
            kind: Kind::Bipartite,
            rows,
            columns,
            edges,
            weights: WHOLE_RANGE,
            bounds: REQUESTED_BOUNDS,
        }
    }

    /// The general family of these sizes, with the same weights and bounds.
    pub fn general(vertices: u32, edges: usize) -> Family {
        Family {
            kind: Kind::General,
            ..Family::new(vertices, vertices, edges)
        }
    }

    /// The same family with other weights.
    pub fn with_weights(&self, weights: RangeInclusive<i32>) -> Family {
        let family = self.clone();
        Family { weights, ..family }
    }

    /// The same family with other bounds.
    pub fn with_bounds(&self, bounds: RangeInclusive<i32>) -> Family {
        let family = self.clone();
        Family { bounds, ..family }
    }

    /// The first problems that a seed gives.
    pub fn problems(&self, seed: u64, count: usize) -> Vec<Problem> {
        let mut random = Random::new(seed);
        (0..count).map(|_| self.draw(&mut random)).collect()
    }

    fn draw(&self, random: &mut Random) -> Problem {
        let (rows, columns, edges) = (self.rows, self.columns, self.edges);
        let weights = &self.weights;
        let graph = Lent::weighted(random, self.kind, rows, columns, edges, weights);
        let bound = numbers(random, graph.vertices(), &self.bounds);
        Problem::new(graph, bound)
    }
}

/// The request's graphs first, then other sizes, and then other weights and bounds.
pub fn families() -> Vec<Family> {
    let sizes = [
        (64, 64, 1024),
        (64, 64, 512),
        (64, 64, 256),
        (64, 64, 128),
        (32, 32, 1024),
        (32, 32, 512),
        (32, 32, 256),
        (16, 16, 256),
        (16, 16, 128),
        (16, 16, 64),
        (16, 64, 1024),
        (64, 16, 1024),
        (8, 64, 512),
        (64, 8, 512),
    ];
    let sizes = sizes.map(|(rows, columns, edges)| Family::new(rows, columns, edges));
    let large = Family::new(64, 64, 1024);
    let ranges = [
        large.with_weights(0..=3),
        large.with_weights(1..=10),
        large.with_weights(1..=1),
        large.with_weights(1..=1_000_000),
        large.with_weights(-1_000_000..=111_111),
        large.with_bounds(1..=1),
        large.with_bounds(64..=64),
        large.with_weights(0..=3).with_bounds(1..=1),
        large.with_weights(1..=1).with_bounds(1..=1),
        large.with_weights(1..=1_000_000).with_bounds(1..=1),
    ];
    sizes.into_iter().chain(ranges).collect()
}

/// General graphs that are priced: the largest first, then other sizes, and then other weights and bounds.
pub fn general_families() -> Vec<Family> {
    let sizes = [(64, 512), (64, 256), (64, 128), (32, 496), (16, 120)];
    let sizes = sizes.map(|(vertices, edges)| Family::general(vertices, edges));
    let large = Family::general(64, 512);
    let ranges = [
        large.with_weights(0..=3),
        large.with_weights(1..=1),
        large.with_weights(1..=1_000_000),
        large.with_weights(-1_000_000..=111_111),
        large.with_bounds(1..=1),
        large.with_bounds(64..=64),
        large.with_weights(1..=1).with_bounds(1..=1),
        large.with_weights(1..=1_000_000).with_bounds(1..=1),
    ];
    sizes.into_iter().chain(ranges).collect()
}

/// The sizes, and the ranges that differ from those of a new family.
impl fmt::Display for Family {
    fn fmt(&self, f: &mut fmt::Formatter) -> fmt::Result {
        let (rows, columns, edges) = (self.rows, self.columns, self.edges);
        let sides = match self.kind {
            Kind::Bipartite => format!("{rows} by {columns}"),
            Kind::General => format!("{rows} vertices"),
        };
        let mut name = format!("{sides}, {edges} edges");
        for (range, usual, what) in [
            (&self.weights, WHOLE_RANGE, "weights"),
            (&self.bounds, REQUESTED_BOUNDS, "bounds"),
        ] {
            let (low, high) = (range.start(), range.end());
            if low == high {
                name += &format!(", all {what} {low}");
            } else if *range != usual {
                name += &format!(", {what} {low} to {high}");
            }
        }
        f.pad(&name)
    }
}

/// What a solver is lent for its answer, as long as the largest graph needs.
pub struct Buffers {
    chosen: Vec<u8>,
    vertex: Vec<i32>,
    edge: Vec<i32>,
    workspace: Vec<i32>,
}

impl Default for Buffers {
    fn default() -> Buffers {
        Buffers {
            chosen: vec![0; MOST_EDGES as usize],
            vertex: vec![0; MOST_VERTICES],
            edge: vec![0; MOST_EDGES as usize],
            workspace: vec![0; WORKSPACE],
        }
    }
}

impl Buffers {
    /// All numbers become 0.
    pub fn clear(&mut self) {
        self.chosen.fill(0);
        self.vertex.fill(0);
        self.edge.fill(0);
        self.workspace.fill(0);
    }

    /// Solves a problem.
    pub fn solve(&mut self, solver: Solving, problem: &Problem) {
        let Problem {
            graph,
            bound,
            index,
        } = problem;
        let (n, m) = (graph.vertices(), graph.row.len());
        let chosen = &mut self.chosen[..m];
        let (vertex, edge) = (&mut self.vertex[..n], &mut self.edge[..m]);
        let workspace = &mut self.workspace;
        let answer = solver(&graph.lend(), bound, index, chosen, vertex, edge, workspace);
        black_box(answer).unwrap();
    }

    /// The total weight of the edges that the last problem's solver chose.
    pub fn total(&self, problem: &Problem) -> i64 {
        weight_of(&problem.graph.lend(), &self.chosen)
    }
}
