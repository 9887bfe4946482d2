//! The solver: heaviest paths by Bellman and Ford's method.
//!
//! The edges are arcs of capacity 1 from a row vertex to a column vertex in a
//! flow network; a source feeds each row vertex up to its bound and each column
//! vertex drains into a sink up to its bound. In the residual network an edge
//! not chosen leads from row to column and gains its weight, a chosen one leads
//! back and loses it. The solver augments along a heaviest path from a row with
//! residual bound to a column with residual bound until no path gains anything.
//!
//! Augmenting by heaviest paths keeps the residual network free of gaining
//! cycles. Hence going on from a column that some chosen edge meets to a column
//! with residual bound never gains, for the sink closes that path to a cycle.
//! So the search drops a column that is reached with no more than the best gain
//! found so far, and goes on only from columns without residual bound.

use crate::graph::{
    graph_lengths_right, half_points, has_length, test_bounds, test_graph, Graph, Kind,
};
use crate::index::{index_length, test_numbers};
use crate::refusal::Refusal;

/// The numbers of the lent workspace (scratch).
pub const WORKSPACE: usize = 4_096;

/// The label of a row that no path has reached.
const UNREACHED: i32 = i32::MIN;

/// Solves a bipartite graph (the solver): an optimal subgraph, that is a
/// feasible one of largest weight (valid plan of largest merit), and even
/// prices from 0 to 2,000,000 half points that cover every edge with gap 0. The
/// workspace of 4,096 numbers is 0 afterwards; after a refusal all outputs are 0
/// too. The graph's index is lent and tested; this method makes no use of it.
pub fn solve(
    graph: &Graph,
    bound: &[i32],
    index: &[u32],
    chosen: &mut [u8],
    vertex_price: &mut [i32],
    edge_price: &mut [i32],
    workspace: &mut [i32],
) -> Result<(), Refusal> {
    chosen.fill(0);
    vertex_price.fill(0);
    edge_price.fill(0);
    workspace.fill(0);
    let n = graph.vertices();
    let m = u64::from(graph.edges);
    if !graph_lengths_right(graph)
        || !has_length(bound.len(), n)
        || !has_length(index.len(), index_length(graph))
        || !has_length(chosen.len(), m)
        || !has_length(vertex_price.len(), n)
        || !has_length(edge_price.len(), m)
        || !has_length(workspace.len(), WORKSPACE as u64)
    {
        return Err(Refusal::new(9, 0));
    }
    test_graph(graph)?;
    test_bounds(bound)?;
    if graph.kind != Kind::Bipartite {
        return Err(Refusal::new(16, 0));
    }
    test_numbers(graph, index)?;

    let mut network = Network::new(graph, bound, chosen, workspace);
    while let Some(end) = network.search() {
        network.augment(end);
    }
    let Network {
        chosen, residual, ..
    } = network;
    set_prices(graph, chosen, residual, vertex_price, edge_price);
    workspace.fill(0);
    Ok(())
}

/// The residual network and the state of a search. A vertex is an index from
/// 0, the columns after the rows; an edge is an index from 0. All but the
/// graph and the marks lies in the workspace.
struct Network<'a> {
    graph: Graph<'a>,
    rows: usize,
    chosen: &'a mut [u8],
    /// Where the edges of each vertex begin in `list`, and where those of the
    /// last end. The rows come first.
    start: &'a mut [i32],
    /// For each row all its edges by falling weight. For each column its chosen
    /// edges, in as many places as it has edges.
    list: &'a mut [i32],
    /// Where the first edge not chosen of each row stands in `list`.
    first: &'a mut [i32],
    /// The count of chosen edges of each column, by vertex.
    degree: &'a mut [i32],
    /// The residual bound of each vertex (unused limit).
    residual: &'a mut [i32],
    /// The largest gain found of a path to each vertex. A column's is never
    /// below 0, for a path of no gain is of no use there.
    label: &'a mut [i32],
    /// How that path comes in: to a column by this edge, to a row by the chosen
    /// edge at this place of `list`.
    parent: &'a mut [i32],
    /// A ring of the columns to go on from.
    queue: &'a mut [i32],
    /// Whether a column is in the ring, by vertex.
    queued: &'a mut [i32],
}

impl<'a> Network<'a> {
    /// The network of the empty subgraph. The workspace is all 0.
    fn new(
        graph: &Graph<'a>,
        bound: &[i32],
        chosen: &'a mut [u8],
        workspace: &'a mut [i32],
    ) -> Network<'a> {
        let n = bound.len();
        let m = graph.row.len();
        let mut rest = workspace;
        let mut take = |count: usize| -> &'a mut [i32] {
            let (taken, left) = std::mem::take(&mut rest).split_at_mut(count);
            rest = left;
            taken
        };
        let network = Network {
            graph: *graph,
            rows: graph.rows as usize,
            chosen,
            start: take(n + 1),
            list: take(2 * m),
            first: take(graph.rows as usize),
            degree: take(n),
            residual: take(n),
            label: take(n),
            parent: take(n),
            queue: take(graph.columns as usize),
            queued: take(n),
        };
        network.residual.copy_from_slice(bound);

        // Count the edges of each vertex, then lay out the lists.
        for edge in 0..m {
            let (row, column) = graph.ends(edge);
            network.start[row + 1] += 1;
            network.start[column + 1] += 1;
        }
        for vertex in 0..n {
            network.start[vertex + 1] += network.start[vertex];
        }
        // The labels serve as counts of the edges entered so far.
        for edge in 0..m {
            let (row, _) = graph.ends(edge);
            let place = network.start[row] + network.label[row];
            network.list[place as usize] = edge as i32;
            network.label[row] += 1;
        }
        for row in 0..network.rows {
            let from = network.start[row] as usize;
            let to = network.start[row + 1] as usize;
            network.list[from..to]
                .sort_unstable_by_key(|&edge| std::cmp::Reverse(graph.weight[edge as usize]));
            network.first[row] = network.start[row];
        }
        network
    }

    /// Looks for a heaviest path that gains anything and hands back the column
    /// where it ends.
    fn search(&mut self) -> Option<usize> {
        let n = self.residual.len();
        let mut best = Best { gain: 0, end: None };
        let mut ring = Ring { head: 0, count: 0 };
        for row in 0..self.rows {
            self.label[row] = if self.residual[row] > 0 { 0 } else { UNREACHED };
        }
        self.label[self.rows..n].fill(0);
        for row in 0..self.rows {
            if self.residual[row] > 0 {
                self.scan_row(row, &mut best, &mut ring);
            }
        }
        while ring.count > 0 {
            let column = self.queue[ring.head] as usize;
            ring.head = (ring.head + 1) % self.queue.len();
            ring.count -= 1;
            self.queued[column] = 0;
            let gain = self.label[column];
            if gain <= best.gain {
                continue;
            }
            let from = self.start[column] as usize;
            let to = from + self.degree[column] as usize;
            for place in from..to {
                let edge = self.list[place] as usize;
                let row = self.graph.row[edge] as usize - 1;
                let reached = gain - self.graph.weight[edge];
                if reached > self.label[row] {
                    self.label[row] = reached;
                    self.parent[row] = place as i32;
                    self.scan_row(row, &mut best, &mut ring);
                }
            }
        }
        best.end
    }

    /// Goes on from a row over its edges not chosen.
    fn scan_row(&mut self, row: usize, best: &mut Best, ring: &mut Ring) {
        let gain = self.label[row];
        let from = self.first[row] as usize;
        let to = self.start[row + 1] as usize;
        for &edge in &self.list[from..to] {
            let edge = edge as usize;
            let reached = gain + self.graph.weight[edge];
            if reached <= best.gain {
                break;
            }
            let column = self.rows + self.graph.column[edge] as usize - 1;
            if reached <= self.label[column] || self.chosen[edge] == 1 {
                continue;
            }
            self.label[column] = reached;
            self.parent[column] = edge as i32;
            if self.residual[column] > 0 {
                best.gain = reached;
                best.end = Some(column);
            } else if self.queued[column] == 0 {
                self.queued[column] = 1;
                let at = (ring.head + ring.count) % self.queue.len();
                self.queue[at] = column as i32;
                ring.count += 1;
            }
        }
    }

    /// Augments along the path found that ends in a column.
    fn augment(&mut self, end: usize) {
        // The chosen edges of the end get one more place; of each other column
        // on the path the edge coming in takes the place of the one going out.
        let mut place = (self.start[end] + self.degree[end]) as usize;
        self.degree[end] += 1;
        self.residual[end] -= 1;
        let mut column = end;
        loop {
            let edge = self.parent[column] as usize;
            let row = self.graph.row[edge] as usize - 1;
            self.chosen[edge] = 1;
            self.list[place] = edge as i32;
            if self.residual[row] > 0 {
                self.residual[row] -= 1;
                self.find_first(row);
                return;
            }
            place = self.parent[row] as usize;
            let out = self.list[place] as usize;
            self.chosen[out] = 0;
            self.find_first(row);
            column = self.rows + self.graph.column[out] as usize - 1;
        }
    }

    /// Finds a row's first edge not chosen anew.
    fn find_first(&mut self, row: usize) {
        let from = self.start[row] as usize;
        let to = self.start[row + 1] as usize;
        let edges = self.list[from..to].iter();
        let skipped = edges.take_while(|&&edge| self.chosen[edge as usize] == 1);
        self.first[row] = (from + skipped.count()) as i32;
    }
}

/// The best path of a search: its gain and the column where it ends.
struct Best {
    gain: i32,
    end: Option<usize>,
}

/// The filled part of the ring.
struct Ring {
    head: usize,
    count: usize,
}

/// Sets the prices of an optimal subgraph: the lengths of shortest paths in its
/// residual network, by Bellman and Ford's method. A row's price starts at 0
/// with residual bound and at the largest weight without, and falls; a column's
/// starts at 0 and rises. They stop where each edge not chosen is covered by its
/// ends' prices and no chosen edge's weight is exceeded by them. No vertex with
/// residual bound gets a price above 0, since no path gains. All this is in
/// points; the prices are handed out in half points.
fn set_prices(
    graph: &Graph,
    chosen: &[u8],
    residual: &[i32],
    vertex_price: &mut [i32],
    edge_price: &mut [i32],
) {
    let top = graph.weight.iter().copied().fold(0, i32::max);
    for row in 0..graph.rows as usize {
        vertex_price[row] = if residual[row] > 0 { 0 } else { top };
    }
    let mut changed = true;
    while changed {
        changed = false;
        for (edge, &weight) in graph.weight.iter().enumerate() {
            let (row, column) = graph.ends(edge);
            let lack = weight - vertex_price[row] - vertex_price[column];
            if chosen[edge] == 0 && lack > 0 {
                vertex_price[column] += lack;
                changed = true;
            } else if chosen[edge] == 1 && lack < 0 {
                vertex_price[row] += lack;
                changed = true;
            }
        }
    }
    for (edge, &mark) in chosen.iter().enumerate() {
        if mark == 1 {
            let (row, column) = graph.ends(edge);
            edge_price[edge] = graph.weight[edge] - vertex_price[row] - vertex_price[column];
        }
    }
    for price in vertex_price.iter_mut().chain(edge_price) {
        *price = half_points(*price);
    }
}
