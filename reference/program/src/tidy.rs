//! The tidy text of a graph (document 02: the tidy sheet).

use crate::graph::{graph_lengths_right, has_length, test_graph, Graph};
use crate::refusal::Refusal;
use crate::write::Text;

/// The bytes lent for a graph's text.
pub const SHEET_TEXT: usize = 32_768;

/// Writes a graph in its tidy form, its edges by rising row and then column,
/// and hands back the length of its text. The output has 32,768 bytes, 0 after
/// the text's end and after a refusal.
pub fn tidy_graph(graph: &Graph, out: &mut [u8]) -> Result<usize, Refusal> {
    out.fill(0);
    if !graph_lengths_right(graph) || !has_length(out.len(), SHEET_TEXT as u64) {
        return Err(Refusal::new(9, 0));
    }
    test_graph(graph)?;

    // No two edges have the same ends, so the weight never decides the order.
    let mut edges: Vec<_> = graph.listed().collect();
    edges.sort_unstable();

    // The longest text, of 1,024 lines of 17 bytes and less than 100 bytes
    // before them, fits.
    let mut text = Text { out, length: 0 };
    text.graph(graph, edges.into_iter());
    Ok(text.length)
}
