//! What the tests share: each call lends slices that hold other numbers than 0 and
//! tests what must hold of them whatever the result.
#![allow(dead_code)]

use reference::*;

/// A refusal.
pub fn refusal(number: u32, place: u64) -> Refusal {
    Refusal { number, place }
}

/// A sheet's text: its header and these lines.
pub fn sheet(last_word: &str, lines: &str) -> Vec<u8> {
    format!("%%MatrixMarket matrix coordinate integer {last_word}\n{lines}").into_bytes()
}

/// A plan's text: its header and these lines.
pub fn plan(last_word: &str, lines: &str) -> Vec<u8> {
    format!("%%MatrixMarket matrix coordinate pattern {last_word}\n{lines}").into_bytes()
}

/// A number text: its header and these lines.
pub fn numbers(lines: &str) -> Vec<u8> {
    format!("%%MatrixMarket matrix array integer general\n{lines}").into_bytes()
}

/// The sheet of case 2.
pub fn case_2() -> OwnedGraph {
    let edges = [(1, 1, 5), (1, 2, 4), (2, 1, 4), (2, 2, 1)];
    OwnedGraph::new(Kind::Bipartite, 2, 2, &edges)
}

/// Three families and all pairs of weight 1 (case 6).
pub fn triangle() -> OwnedGraph {
    let edges = [(2, 1, 1), (3, 1, 1), (3, 2, 1)];
    OwnedGraph::new(Kind::General, 3, 3, &edges)
}

/// A graph with one row vertex of these edge weights.
pub fn star(weights: &[i32]) -> OwnedGraph {
    let edges: Vec<_> = (1..).zip(weights).map(|(c, &w)| (1, c, w)).collect();
    OwnedGraph::new(Kind::Bipartite, 1, weights.len() as u32, &edges)
}

/// The graph reader, with outputs of 1,024 numbers.
pub fn graph_of(text: &[u8]) -> Result<OwnedGraph, Refusal> {
    graph_by(|row, column, weight| read_graph(text, row, column, weight))
}

/// A reader of graphs, with three outputs of 1,024 numbers.
fn graph_by(
    read: impl FnOnce(&mut [u32], &mut [u32], &mut [i32]) -> Result<Head, Refusal>,
) -> Result<OwnedGraph, Refusal> {
    let (mut row, mut column, mut weight) = ([7; 1024], [7; 1024], [7; 1024]);
    match read(&mut row, &mut column, &mut weight) {
        Ok(head) => {
            let m = head.edges as usize;
            assert!(row[m..].iter().chain(&column[m..]).all(|&x| x == 0));
            assert!(weight[m..].iter().all(|&x| x == 0));
            Ok(OwnedGraph {
                kind: head.kind,
                rows: head.rows,
                columns: head.columns,
                row: row[..m].to_vec(),
                column: column[..m].to_vec(),
                weight: weight[..m].to_vec(),
            })
        }
        Err(refusal) => {
            assert_eq!((row, column, weight), ([0; 1024], [0; 1024], [0; 1024]));
            Err(refusal)
        }
    }
}

/// The number reader, with an output of the count passed.
pub fn numbers_of(text: &[u8], count: u32, what: What) -> Result<Vec<i32>, Refusal> {
    let mut out = vec![7; count as usize];
    match read_numbers(text, count, what, &mut out) {
        Ok(()) => Ok(out),
        Err(refusal) => {
            assert!(out.iter().all(|&x| x == 0));
            Err(refusal)
        }
    }
}

/// The subgraph reader, with as many marks as the graph has edges.
pub fn subgraph_of(text: &[u8], graph: &Graph) -> Result<Vec<u8>, Refusal> {
    let mut chosen = vec![7; graph.edges as usize];
    match read_subgraph(text, graph, &mut chosen) {
        Ok(count) => {
            assert!(chosen.iter().all(|&mark| mark <= 1));
            assert_eq!(chosen.iter().filter(|&&x| x == 1).count(), count as usize);
            Ok(chosen)
        }
        Err(refusal) => {
            assert!(chosen.iter().all(|&x| x == 0));
            Err(refusal)
        }
    }
}

/// A writer, with an output of this many bytes.
fn text_of(
    bytes: usize,
    write: impl FnOnce(&mut [u8]) -> Result<usize, Refusal>,
) -> Result<Vec<u8>, Refusal> {
    let mut out = vec![7; bytes];
    match write(&mut out) {
        Ok(length) => {
            assert!(out[length..].iter().all(|&x| x == 0));
            out.truncate(length);
            Ok(out)
        }
        Err(refusal) => {
            assert!(out.iter().all(|&x| x == 0));
            Err(refusal)
        }
    }
}

/// The subgraph writer, with an output of 16,384 bytes.
pub fn written(graph: &Graph, chosen: &[u8]) -> Result<Vec<u8>, Refusal> {
    text_of(16_384, |out| write_subgraph(graph, chosen, out))
}

/// The tidy text of a graph, with an output of 32,768 bytes.
pub fn tidied(graph: &Graph) -> Result<Vec<u8>, Refusal> {
    text_of(32_768, |out| tidy_graph(graph, out))
}

/// The assignment writer, with an output of 32,768 bytes.
pub fn assigned(graph: &Graph, bound: &[i32]) -> Result<Vec<u8>, Refusal> {
    text_of(32_768, |out| write_assignment(graph, bound, out))
}

/// The assignment reader, with three outputs of 1,024 numbers and one of 128.
pub fn assignment_of(text: &[u8]) -> Result<OwnedGraph, Refusal> {
    let mut bound = [7; 128];
    let graph =
        graph_by(|row, column, weight| read_assignment(text, row, column, weight, &mut bound));
    let n = graph.as_ref().map_or(0, |graph| vertices(&graph.lend()));
    assert!(bound[..n].iter().all(|&x| x == 1));
    assert!(bound[n..].iter().all(|&x| x == 0));
    graph
}

/// Building an index, with an output of the length that the numbers passed give.
pub fn built(graph: &Graph) -> Result<Vec<u32>, Refusal> {
    let mut index = vec![7; vertices(graph) + 1 + 2 * graph.edges as usize];
    match build_index(graph, &mut index) {
        Ok(()) => Ok(index),
        Err(refusal) => {
            assert!(index.iter().all(|&x| x == 0));
            Err(refusal)
        }
    }
}

/// The graph's index, or as many numbers where it has none.
pub fn index_or_zeros(graph: &Graph) -> Vec<u32> {
    let length = vertices(graph) + 1 + 2 * graph.edges as usize;
    built(graph).unwrap_or(vec![0; length])
}

/// What the solver hands out.
#[derive(Clone, Debug, PartialEq, Eq)]
pub struct Solved {
    pub chosen: Vec<u8>,
    pub vertex_price: Vec<i32>,
    pub edge_price: Vec<i32>,
}

/// The solver, with the graph's index and with outputs of the lengths that the
/// numbers passed give.
pub fn solved(graph: &Graph, bound: &[i32]) -> Result<Solved, Refusal> {
    solved_with(graph, bound, &index_or_zeros(graph))
}

/// The solver, with an index that may be wrong.
pub fn solved_with(graph: &Graph, bound: &[i32], index: &[u32]) -> Result<Solved, Refusal> {
    let (n, m) = (vertices(graph), graph.edges as usize);
    let mut out = Solved {
        chosen: vec![7; m],
        vertex_price: vec![7; n],
        edge_price: vec![7; m],
    };
    let mut workspace = [7; 4096];
    let result = solve(
        graph,
        bound,
        index,
        &mut out.chosen,
        &mut out.vertex_price,
        &mut out.edge_price,
        &mut workspace,
    );
    assert_eq!(workspace, [0; 4096]);
    match result {
        Ok(()) => Ok(out),
        Err(refusal) => {
            assert!(out.chosen.iter().all(|&x| x == 0));
            assert!(out.vertex_price.iter().all(|&x| x == 0));
            assert!(out.edge_price.iter().all(|&x| x == 0));
            Err(refusal)
        }
    }
}

/// The vertex and the edge prices of a general graph, with outputs of the lengths
/// that the numbers passed give.
pub fn priced(graph: &Graph, bound: &[i32]) -> Result<(Vec<i32>, Vec<i32>), Refusal> {
    priced_with(graph, bound, vertices(graph), graph.edges as usize)
}

/// The same, with outputs of these lengths.
pub fn priced_with(
    graph: &Graph,
    bound: &[i32],
    vertices: usize,
    edges: usize,
) -> Result<(Vec<i32>, Vec<i32>), Refusal> {
    let (mut vertex_price, mut edge_price) = (vec![7; vertices], vec![7; edges]);
    match price_general(graph, bound, &mut vertex_price, &mut edge_price) {
        Ok(()) => Ok((vertex_price, edge_price)),
        Err(refusal) => {
            assert!(vertex_price.iter().chain(&edge_price).all(|&x| x == 0));
            Err(refusal)
        }
    }
}

/// The count of vertices that the numbers passed give.
pub fn vertices(graph: &Graph) -> usize {
    match graph.kind {
        Kind::Bipartite => graph.rows as usize + graph.columns as usize,
        Kind::General => graph.rows as usize,
    }
}

/// Odd sets as lent to the measuring call.
#[derive(Clone, Debug, Default)]
pub struct Sets {
    pub price: Vec<i32>,
    pub vertices: Vec<u64>,
    pub edges: Vec<u64>,
}

impl Sets {
    /// No odd set.
    pub fn none() -> Sets {
        Sets::default()
    }

    /// One more odd set, of vertices and marked edges counted from 1.
    pub fn and(mut self, price: i32, vertices: &[usize], edges: &[usize]) -> Sets {
        let (mut vertex_words, mut edge_words) = ([0u64; 2], [0u64; 16]);
        for vertex in vertices {
            vertex_words[(vertex - 1) / 64] |= 1 << ((vertex - 1) % 64);
        }
        for edge in edges {
            edge_words[(edge - 1) / 64] |= 1 << ((edge - 1) % 64);
        }
        self.price.push(price);
        self.vertices.extend(vertex_words);
        self.edges.extend(edge_words);
        self
    }
}

/// The measuring call.
pub fn measured(
    graph: &Graph,
    bound: &[i32],
    chosen: &[u8],
    vertex_price: &[i32],
    edge_price: &[i32],
    sets: &Sets,
) -> Result<Measures, Refusal> {
    measure(
        graph,
        bound,
        chosen,
        vertex_price,
        edge_price,
        sets.price.len() as u32,
        &sets.price,
        &sets.vertices,
        &sets.edges,
    )
}

/// The measures of these numbers, in the order of `mark`'s line.
pub fn measures(line: [i64; 7]) -> Measures {
    let [weight, total, vertices, sets, edges, cover, gap] = line;
    Measures {
        weight,
        total,
        vertices,
        sets,
        edges,
        cover,
        gap,
    }
}

/// Tests that every call that takes a graph refuses it so, given other numbers
/// of right lengths.
pub fn all_refuse(graph: &Graph, expected: Refusal) {
    let (n, m) = (vertices(graph), graph.edges as usize);
    let (bound, chosen) = (vec![1; n], vec![0; m]);
    let (vertex_price, edge_price) = (vec![0; n], vec![0; m]);
    assert_eq!(subgraph_of(b"", graph), Err(expected));
    assert_eq!(written(graph, &chosen), Err(expected));
    assert_eq!(tidied(graph), Err(expected));
    assert_eq!(assigned(graph, &bound), Err(expected));
    assert_eq!(built(graph), Err(expected));
    let index = index_or_zeros(graph);
    assert_eq!(test_index(graph, &index), Err(expected));
    assert_eq!(solved(graph, &bound), Err(expected));
    assert_eq!(priced(graph, &bound), Err(expected));
    let found = measured(
        graph,
        &bound,
        &chosen,
        &vertex_price,
        &edge_price,
        &Sets::none(),
    );
    assert_eq!(found, Err(expected));
}
