//! The numbers by which the separately written program refuses, each by an input that it refuses so.

use reference::measure::{EDGE_WORDS, VERTEX_WORDS};
use reference::text::MOST_TEXT;
use reference::tidy::SHEET_TEXT;
use reference::write::PLAN_TEXT;
use reference::{index_length, measure, read_assignment, read_graph, read_numbers, read_subgraph};
use reference::{price_general, test_index, write_assignment, write_subgraph};
use reference::{Kind, OwnedGraph, Refusal, What};

/// The number of a refusal; 0 is a result.
fn number<T>(answer: Result<T, Refusal>) -> u32 {
    answer.map_or_else(|refusal| refusal.number, |_| 0)
}

/// Reads a graph of these lines after the header.
fn graph(lines: &str) -> u32 {
    let text = format!("%%MatrixMarket matrix coordinate integer general\n{lines}");
    graph_text(text.as_bytes(), 1024)
}

/// Reads a graph with an output of rows of this length.
fn graph_text(text: &[u8], rows: usize) -> u32 {
    let (mut row, mut column, mut weight) = (vec![0; rows], [0; 1024], [0; 1024]);
    number(read_graph(text, &mut row, &mut column, &mut weight))
}

/// Reads one bound or price.
fn one_number(what: What, value: i32) -> u32 {
    let text = format!("%%MatrixMarket matrix array integer general\n1 1\n{value}\n");
    number(read_numbers(text.as_bytes(), 1, what, &mut [0]))
}

/// A graph of one edge, of weight 1.
fn one_edge(kind: Kind) -> OwnedGraph {
    match kind {
        Kind::Bipartite => OwnedGraph::new(kind, 1, 1, &[(1, 1, 1)]),
        Kind::General => OwnedGraph::new(kind, 2, 2, &[(2, 1, 1)]),
    }
}

/// Reads a subgraph with this size line as one of the graph of one edge.
fn subgraph(sizes: &str) -> u32 {
    let text = format!("%%MatrixMarket matrix coordinate pattern general\n{sizes}\n");
    let graph = one_edge(Kind::Bipartite);
    number(read_subgraph(text.as_bytes(), &graph.lend(), &mut [0]))
}

/// Writes the subgraph with this mark.
fn written(mark: u8) -> u32 {
    let graph = one_edge(Kind::Bipartite);
    number(write_subgraph(&graph.lend(), &[mark], &mut [0; PLAN_TEXT]))
}

/// Measures the subgraph of the one edge: the bound and the price of both vertices, and the vertices of an odd set, if there is one.
fn measured(bound: i32, price: i32, set: Option<u64>) -> u32 {
    let graph = one_edge(Kind::Bipartite);
    let sets = usize::from(set.is_some());
    let mut vertices = vec![0; VERTEX_WORDS * sets];
    vertices[..sets].fill(set.unwrap_or(0));
    number(measure(
        &graph.lend(),
        &[bound; 2],
        &[1],
        &[price; 2],
        &[0],
        sets as u32,
        &vec![0; sets],
        &vertices,
        &vec![0; EDGE_WORDS * sets],
    ))
}

/// Writes an assignment of a graph of one edge, with bounds of this size.
fn assignment(kind: Kind, bound: i32) -> u32 {
    let graph = one_edge(kind);
    number(write_assignment(
        &graph.lend(),
        &[bound; 2],
        &mut [0; SHEET_TEXT],
    ))
}

/// Reads an assignment.
fn assignment_text(text: &str) -> u32 {
    let (mut row, mut column, mut weight) = ([0; 1024], [0; 1024], [0; 1024]);
    let bytes = text.as_bytes();
    number(read_assignment(
        bytes,
        &mut row,
        &mut column,
        &mut weight,
        &mut [0; 128],
    ))
}

/// Tests an index of zeros for the graph of one edge.
fn zeros_as_index() -> u32 {
    let graph = one_edge(Kind::Bipartite);
    let zeros = vec![0; index_length(&graph.lend()) as usize];
    number(test_index(&graph.lend(), &zeros))
}

/// Prices a graph of one edge.
fn priced(kind: Kind) -> u32 {
    let graph = one_edge(kind);
    number(price_general(&graph.lend(), &[1; 2], &mut [0; 2], &mut [0]))
}

/// The number of a result and of each refusal, by the header's names.
pub fn numbers() -> Vec<(&'static str, u32)> {
    let long = vec![b' '; MOST_TEXT + 1];
    vec![
        ("OK", graph("1 1 1\n1 1 1\n")),
        ("TEXT_LENGTH", graph_text(&long, 1024)),
        ("HEADER", graph_text(b"", 1024)),
        ("SIZE_LINE", graph("")),
        ("SIZES", graph("1 65 0\n")),
        ("LATER_LINE", graph("1 1 1\n")),
        ("ENDS", graph("1 1 1\n2 1 1\n")),
        ("WEIGHT", graph("1 1 1\n1 1 1000001\n")),
        ("SAME_ENDS", graph("2 1 2\n1 1 1\n1 1 1\n")),
        ("LENT_LENGTH", graph_text(b"", 1023)),
        ("BOUND", one_number(What::Bounds, 65)),
        ("MARK", written(2)),
        ("DEGREE", measured(0, 2, None)),
        ("PRICE", one_number(What::Prices, -1)),
        ("ODD_SET", measured(1, 2, Some(0))),
        ("UNCOVERED", measured(1, 0, None)),
        ("NOT_BIPARTITE", assignment(Kind::General, 1)),
        ("DISAGREEMENT", subgraph("2 1 0")),
        ("INDEX", zeros_as_index()),
        ("BOUND_NOT_ONE", assignment(Kind::Bipartite, 2)),
        ("ASSIGNMENT_LINE", assignment_text("")),
        ("SOURCES", assignment_text("p asn 2 0\nn 2\n")),
        ("NOT_DOUBLED", priced(Kind::Bipartite)),
    ]
}

/// What is right of each sort is not refused, so that each refusal is that of what was made wrong.
#[test]
fn the_right_ones_are_not_refused() {
    assert_eq!(one_number(What::Bounds, 64), 0);
    assert_eq!(one_number(What::Prices, 0), 0);
    assert_eq!(subgraph("1 1 0"), 0);
    assert_eq!(written(1), 0);
    assert_eq!(measured(1, 2, None), 0);
    assert_eq!(measured(1, 2, Some(1)), 0);
    assert_eq!(assignment(Kind::Bipartite, 1), 0);
    assert_eq!(assignment_text("p asn 2 1\nn 1\na 1 2 5\n"), 0);
    assert_eq!(priced(Kind::General), 0);
}
