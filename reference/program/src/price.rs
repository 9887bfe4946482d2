//! Prices of a general graph (document 02: a price sheet for the tanks), by way
//! of its doubled graph.

use crate::graph::{
    graph_lengths_right, has_length, test_bounds, test_graph, Graph, Kind, OwnedGraph, MOST_SIDE,
};
use crate::index::{build_index, index_length};
use crate::refusal::Refusal;
use crate::solve::{solve, WORKSPACE};

/// The most edges of a graph that can be doubled (pairs).
pub const MOST_DOUBLED_EDGES: u32 = 512;
/// The largest price that a vertex or an edge gets here, in half points.
pub const MOST_GENERAL_PRICE: i32 = 2_000_000;

/// The doubled graph of a general graph, and its bounds: vertex i is row vertex i
/// and column vertex i, both with its bound, and each edge stands there once in
/// each direction, one after the other.
pub fn doubled(graph: &Graph, bound: &[i32]) -> (OwnedGraph, Vec<i32>) {
    let edges = graph.listed();
    let edges = edges.flat_map(|(row, column, weight)| {
        [(row, column), (column, row)].map(|(row, column)| (row, column, weight))
    });
    let edges: Vec<_> = edges.collect();
    let doubled = OwnedGraph::new(Kind::Bipartite, graph.rows, graph.rows, &edges);
    (doubled, [bound, bound].concat())
}

/// Prices a general graph: each vertex and each edge gets, in half points, the
/// sum of its two prices in points in the doubled graph. They are from 0 to
/// 2,000,000 and cover every edge, and their total is, as a number, the largest
/// weight of the doubled graph. After a refusal both outputs are 0.
pub fn price_general(
    graph: &Graph,
    bound: &[i32],
    vertex_price: &mut [i32],
    edge_price: &mut [i32],
) -> Result<(), Refusal> {
    vertex_price.fill(0);
    edge_price.fill(0);
    let n = graph.vertices();
    let m = u64::from(graph.edges);
    if !graph_lengths_right(graph)
        || !has_length(bound.len(), n)
        || !has_length(vertex_price.len(), n)
        || !has_length(edge_price.len(), m)
    {
        return Err(Refusal::new(9, 0));
    }
    test_graph(graph)?;
    test_bounds(bound)?;
    if graph.kind != Kind::General || graph.rows > MOST_SIDE || graph.edges > MOST_DOUBLED_EDGES {
        return Err(Refusal::new(24, 0));
    }

    // The doubled graph passes the tests, so that nothing here is refused.
    let (twice, bounds) = doubled(graph, bound);
    let twice = twice.lend();
    let edges = twice.row.len();
    let mut index = vec![0; index_length(&twice) as usize];
    build_index(&twice, &mut index)?;
    let (mut vertex, mut edge) = (vec![0; bounds.len()], vec![0; edges]);
    solve(
        &twice,
        &bounds,
        &index,
        &mut vec![0; edges],
        &mut vertex,
        &mut edge,
        &mut [0; WORKSPACE],
    )?;
    // The prices of the doubled graph are even half points, so half of two of
    // them is their sum in points.
    let (rows, columns) = vertex.split_at(bound.len());
    for (price, (row, column)) in vertex_price.iter_mut().zip(rows.iter().zip(columns)) {
        *price = (row + column) / 2;
    }
    for (price, both) in edge_price.iter_mut().zip(edge.chunks_exact(2)) {
        *price = (both[0] + both[1]) / 2;
    }
    Ok(())
}
