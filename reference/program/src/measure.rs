//! Measuring a subgraph against prices.

use crate::graph::{
    graph_lengths_right, half_points, has_length, price_in_range, test_bounds, test_chosen,
    test_graph, Graph, MOST_PRICE, MOST_SETS, MOST_VERTICES,
};
use crate::refusal::Refusal;

/// The words of one odd set's vertices.
pub const VERTEX_WORDS: usize = 2;
/// The words of one odd set's marked edges.
pub const EDGE_WORDS: usize = 16;

/// What the measuring call hands back: the weight in points, all else in half
/// points.
#[derive(Clone, Copy, Debug, PartialEq, Eq)]
pub struct Measures {
    /// The weight of the subgraph (merit of the plan).
    pub weight: i64,
    /// The total of the prices (total).
    pub total: i64,
    /// The slack of the vertices (leftover fish).
    pub vertices: i64,
    /// The slack of the odd sets (leftover groups).
    pub sets: i64,
    /// The slack of the edges (leftover pairs).
    pub edges: i64,
    /// The slack of the cover (leftover cover).
    pub cover: i64,
    /// The gap: total minus what the weight is worth in half points (gap).
    pub gap: i64,
}

/// An odd set (group).
#[derive(Clone, Copy)]
struct OddSet<'a> {
    price: i64,
    vertices: &'a [u64],
    edges: &'a [u64],
}

/// Whether a bit of an odd set's words is 1.
fn bit(words: &[u64], at: usize) -> bool {
    words[at / 64] >> (at % 64) & 1 == 1
}

/// Whether all bits from a count on are 0.
fn none_from(words: &[u64], count: usize) -> bool {
    (count..64 * words.len()).all(|at| !bit(words, at))
}

impl OddSet<'_> {
    /// How many ends of an edge are inside.
    fn ends_inside(&self, graph: &Graph, edge: usize) -> u32 {
        let (first, second) = graph.ends(edge);
        u32::from(bit(self.vertices, first)) + u32::from(bit(self.vertices, second))
    }

    /// Whether the set covers an edge: it marks it or has both its ends.
    fn covers(&self, graph: &Graph, edge: usize) -> bool {
        bit(self.edges, edge) || self.ends_inside(graph, edge) == 2
    }

    /// The bounds of its vertices plus the count of its marked edges.
    fn sum(&self, bound: &[i32]) -> i64 {
        let inside = bound.iter().enumerate();
        let bounds: i64 = inside
            .filter(|&(vertex, _)| bit(self.vertices, vertex))
            .map(|(_, &bound)| i64::from(bound))
            .sum();
        let marked: u32 = self.edges.iter().map(|word| word.count_ones()).sum();
        bounds + i64::from(marked)
    }

    /// The capacity (group limit).
    fn capacity(&self, bound: &[i32]) -> i64 {
        (self.sum(bound) - 1) / 2
    }

    /// Whether it keeps the rules (refusal 14).
    fn keeps_rules(&self, graph: &Graph, bound: &[i32]) -> bool {
        let (n, m) = (bound.len(), graph.row.len());
        none_from(self.vertices, n)
            && none_from(self.edges, m)
            && (0..n).any(|vertex| bit(self.vertices, vertex))
            && (0..m).all(|edge| !bit(self.edges, edge) || self.ends_inside(graph, edge) == 1)
            && self.sum(bound) % 2 == 1
    }
}

/// Measures a subgraph against prices (the call that measures a plan against
/// prices). Prices of every sort are in half points. `sets` is the count of odd
/// sets; each has a price, 2 words of vertices and 16 words of marked edges.
#[allow(clippy::too_many_arguments)]
pub fn measure(
    graph: &Graph,
    bound: &[i32],
    chosen: &[u8],
    vertex_price: &[i32],
    edge_price: &[i32],
    sets: u32,
    set_price: &[i32],
    set_vertices: &[u64],
    set_edges: &[u64],
) -> Result<Measures, Refusal> {
    let n = graph.vertices();
    let m = u64::from(graph.edges);
    let count = u64::from(sets);
    if !graph_lengths_right(graph)
        || !has_length(bound.len(), n)
        || !has_length(chosen.len(), m)
        || !has_length(vertex_price.len(), n)
        || !has_length(edge_price.len(), m)
        || !has_length(set_price.len(), count)
        || !has_length(set_vertices.len(), VERTEX_WORDS as u64 * count)
        || !has_length(set_edges.len(), EDGE_WORDS as u64 * count)
    {
        return Err(Refusal::new(9, 0));
    }
    test_graph(graph)?;
    test_bounds(bound)?;
    test_chosen(chosen)?;

    let mut degree = [0; MOST_VERTICES];
    for (edge, &mark) in chosen.iter().enumerate() {
        let (first, second) = graph.ends(edge);
        degree[first] += i32::from(mark);
        degree[second] += i32::from(mark);
    }
    if let Some(over) = (0..bound.len()).find(|&vertex| degree[vertex] > bound[vertex]) {
        return Err(Refusal::new(12, over as u64 + 1));
    }

    let prices = vertex_price.iter().chain(edge_price).chain(set_price);
    for (position, &price) in prices.enumerate() {
        if !price_in_range(price, MOST_PRICE) {
            return Err(Refusal::new(13, position as u64 + 1));
        }
    }

    let set_price = set_price.iter().map(|&price| i64::from(price));
    let odd_sets = set_price
        .zip(set_vertices.chunks_exact(VERTEX_WORDS))
        .zip(set_edges.chunks_exact(EDGE_WORDS))
        .map(|((price, vertices), edges)| OddSet {
            price,
            vertices,
            edges,
        });
    for (at, set) in odd_sets.clone().take(MOST_SETS as usize).enumerate() {
        if !set.keeps_rules(graph, bound) {
            return Err(Refusal::new(14, at as u64 + 1));
        }
    }
    if sets > MOST_SETS {
        return Err(Refusal::new(14, u64::from(MOST_SETS) + 1));
    }

    // By how much the prices over each edge exceed what its weight is worth.
    let over = |edge: usize| -> i64 {
        let (first, second) = graph.ends(edge);
        let ends = i64::from(vertex_price[first]) + i64::from(vertex_price[second]);
        let sets = odd_sets.clone().filter(|set| set.covers(graph, edge));
        ends + i64::from(edge_price[edge]) + sets.map(|set| set.price).sum::<i64>()
            - half_points(i64::from(graph.weight[edge]))
    };
    let m = graph.row.len();
    if let Some(bare) = (0..m).find(|&edge| over(edge) < 0) {
        return Err(Refusal::new(15, bare as u64 + 1));
    }

    let is_chosen = |edge: &usize| chosen[*edge] == 1;
    let mut weight = 0;
    let mut cover = 0;
    for edge in (0..m).filter(is_chosen) {
        weight += i64::from(graph.weight[edge]);
        cover += over(edge);
    }
    let mut total = 0;
    let mut vertices = 0;
    for vertex in 0..bound.len() {
        let price = i64::from(vertex_price[vertex]);
        total += price * i64::from(bound[vertex]);
        vertices += price * i64::from(bound[vertex] - degree[vertex]);
    }
    let mut edges = 0;
    for edge in 0..m {
        let price = i64::from(edge_price[edge]);
        total += price;
        if chosen[edge] == 0 {
            edges += price;
        }
    }
    let mut sets = 0;
    for set in odd_sets.clone() {
        let capacity = set.capacity(bound);
        let inside = (0..m).filter(is_chosen);
        let covered = inside.filter(|&edge| set.covers(graph, edge)).count() as i64;
        total += set.price * capacity;
        sets += set.price * (capacity - covered);
    }
    Ok(Measures {
        weight,
        total,
        vertices,
        sets,
        edges,
        cover,
        gap: total - half_points(weight),
    })
}
