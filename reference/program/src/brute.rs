//! Trying every subgraph of a small graph (trying every plan).

use crate::graph::{Graph, MOST_VERTICES};

/// The most edges for which every subgraph is tried.
pub const MOST_TRIED: u32 = 24;

/// All feasible subgraphs of a small graph (valid plans), each one mark for
/// each edge. The first is the empty one.
pub struct FeasibleSubgraphs<'a> {
    graph: Graph<'a>,
    bound: &'a [i32],
    /// The next subgraph to try: bit e is the mark of edge e, counted from 0.
    next: u64,
}

/// All feasible subgraphs of a graph (valid plans), for graphs and bounds in
/// range with at most 24 edges. Panics with more edges.
pub fn feasible_subgraphs<'a>(graph: &Graph<'a>, bound: &'a [i32]) -> FeasibleSubgraphs<'a> {
    assert!(graph.edges <= MOST_TRIED, "too many edges to try them all");
    FeasibleSubgraphs {
        graph: *graph,
        bound,
        next: 0,
    }
}

impl FeasibleSubgraphs<'_> {
    /// Whether no vertex has more chosen edges than its bound.
    fn is_feasible(&self, marks: u64) -> bool {
        let mut left = [0; MOST_VERTICES];
        left[..self.bound.len()].copy_from_slice(self.bound);
        for edge in 0..self.graph.edges as usize {
            if marks >> edge & 1 == 1 {
                let (first, second) = self.graph.ends(edge);
                left[first] -= 1;
                left[second] -= 1;
            }
        }
        left.iter().all(|&left| left >= 0)
    }

    /// The next feasible subgraph as bits.
    fn next_marks(&mut self) -> Option<u64> {
        while self.next < 1 << self.graph.edges {
            let marks = self.next;
            self.next += 1;
            if self.is_feasible(marks) {
                return Some(marks);
            }
        }
        None
    }
}

impl Iterator for FeasibleSubgraphs<'_> {
    type Item = Vec<u8>;

    fn next(&mut self) -> Option<Vec<u8>> {
        let marks = self.next_marks()?;
        let edges = 0..self.graph.edges;
        Some(edges.map(|edge| (marks >> edge & 1) as u8).collect())
    }
}

/// The weight of a subgraph (merit of a plan).
pub fn weight_of(graph: &Graph, chosen: &[u8]) -> i64 {
    let marked = graph.weight.iter().zip(chosen);
    marked
        .map(|(&weight, &mark)| i64::from(weight) * i64::from(mark))
        .sum()
}

/// The largest weight of a feasible subgraph (largest merit), found by trying
/// every one. Panics with more than 24 edges.
pub fn largest_weight(graph: &Graph, bound: &[i32]) -> i64 {
    let mut best = 0;
    let mut all = feasible_subgraphs(graph, bound);
    while let Some(marks) = all.next_marks() {
        let chosen = (0..graph.edges as usize).filter(|edge| marks >> edge & 1 == 1);
        best = best.max(chosen.map(|edge| i64::from(graph.weight[edge])).sum());
    }
    best
}
