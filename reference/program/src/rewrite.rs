//! What the program `rewrite` prints.

use crate::graph::{OwnedGraph, MOST_EDGES};
use crate::read::{read_graph_by, read_numbers_by, read_subgraph_by, What, MOST_NUMBERS};
use crate::text::{is_blank, Header, Lines, Rules};

/// What is printed for a text that the old rules refuse as every sort of text.
pub const CANNOT_READ: &[u8] = b"cannot read\n";

/// What `rewrite` prints for the text of old.mtx; an absent file is an empty
/// text. If the old rules take the text, its numbers are written in the one way
/// and all other bytes are copied.
pub fn rewrite(text: &[u8]) -> Vec<u8> {
    if !is_graph(text) && !is_numbers(text) && !is_subgraph(text) {
        return CANNOT_READ.to_vec();
    }
    let mut out = Vec::with_capacity(text.len());
    for line in text.split_inclusive(|&byte| byte == b'\n') {
        // The header and the comments; every other line has only numbers.
        if line.starts_with(b"%") {
            out.extend(line);
        } else {
            rewrite_line(line, &mut out);
        }
    }
    out
}

/// Appends a line of numbers, each in the one way, and of blanks as they are.
fn rewrite_line(line: &[u8], out: &mut Vec<u8>) {
    let between = |byte: u8| is_blank(byte) || byte == b'\n';
    for part in line.chunk_by(|&a, &b| between(a) == between(b)) {
        match Rules::Old.integer(part) {
            Some(value) => out.extend(value.to_string().as_bytes()),
            None => out.extend(part),
        }
    }
}

/// Whether the old rules take a text as a graph (sheet).
fn is_graph(text: &[u8]) -> bool {
    let most = MOST_EDGES as usize;
    let (mut row, mut column, mut weight) = (vec![0; most], vec![0; most], vec![0; most]);
    read_graph_by(Rules::Old, text, &mut row, &mut column, &mut weight).is_ok()
}

/// Whether the old rules take a text as bounds or as prices (limits, prices) of
/// some count.
fn is_numbers(text: &[u8]) -> bool {
    let mut out = vec![0; MOST_NUMBERS as usize];
    (1..=MOST_NUMBERS).any(|count| {
        [What::Bounds, What::Prices].iter().any(|&what| {
            let out = &mut out[..count as usize];
            read_numbers_by(Rules::Old, text, count, what, out).is_ok()
        })
    })
}

/// Whether the old rules take a text as a subgraph of some graph (plan of some
/// sheet). A graph that takes it has the text's edges among its own, so the
/// graph of just these edges takes it too.
fn is_subgraph(text: &[u8]) -> bool {
    let Some(graph) = own_graph(text) else {
        return false;
    };
    let mut chosen = vec![0; graph.row.len()];
    read_subgraph_by(Rules::Old, text, &graph.lend(), &mut chosen).is_ok()
}

/// The graph with the kind and sizes of a subgraph's text and with the edges
/// that the text names by the old rules, each of weight 0; nothing if the text
/// has no such header or size line. Its numbers may be wrong.
pub fn own_graph(text: &[u8]) -> Option<OwnedGraph> {
    let mut lines = Lines::new(text, Rules::Old);
    let Header::Subgraph(kind) = lines.header().ok()? else {
        return None;
    };
    let [rows, columns, _] = lines.sizes().ok()?;
    let mut edges = Vec::new();
    while let Some([row, column]) = lines.entry().ok().and_then(|x| Rules::Old.naturals(x)) {
        edges.push((row, column, 0));
    }
    Some(OwnedGraph::new(kind, rows, columns, &edges))
}
