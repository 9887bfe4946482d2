//! The subgraph writer, the text of numbers, and the text that a writer appends
//! to.

use crate::graph::{graph_lengths_right, has_length, test_chosen, test_graph, Graph, Kind};
use crate::refusal::Refusal;

/// The bytes lent for a subgraph's text.
pub const PLAN_TEXT: usize = 16_384;

/// Writes a subgraph (plan writer) and hands back the length of its text. The
/// output has 16,384 bytes, 0 after the text's end and after a refusal.
pub fn write_subgraph(graph: &Graph, chosen: &[u8], out: &mut [u8]) -> Result<usize, Refusal> {
    out.fill(0);
    if !graph_lengths_right(graph)
        || !has_length(chosen.len(), u64::from(graph.edges))
        || !has_length(out.len(), PLAN_TEXT as u64)
    {
        return Err(Refusal::new(9, 0));
    }
    test_graph(graph)?;
    test_chosen(chosen)?;

    // The longest text, of 1,024 lines of 8 bytes and less than 100 bytes
    // before them, fits.
    let mut text = Text { out, length: 0 };
    text.header(["coordinate", "pattern", last_word(graph.kind)]);
    let count = chosen.iter().filter(|&&mark| mark == 1).count() as u32;
    text.line([graph.rows, graph.columns, count]);
    for (edge, &mark) in chosen.iter().enumerate() {
        if mark == 1 {
            text.line([graph.row[edge], graph.column[edge]]);
        }
    }
    Ok(text.length)
}

/// The text of bounds or prices (limits, prices): a number a line.
pub fn number_text(numbers: &[i32]) -> Vec<u8> {
    // Less than 100 bytes before the numbers, and lines of at most 12.
    let mut out = vec![0; 100 + 12 * numbers.len()];
    let mut text = Text {
        out: &mut out,
        length: 0,
    };
    text.header(["array", "integer", "general"]);
    text.line([numbers.len() as u32, 1]);
    for &number in numbers {
        text.line([number]);
    }
    let length = text.length;
    out.truncate(length);
    out
}

/// The last word of the header of a text of coordinates.
fn last_word(kind: Kind) -> &'static str {
    match kind {
        Kind::Bipartite => "general",
        Kind::General => "symmetric",
    }
}

/// A text growing in lent bytes that have room for all of it.
pub(crate) struct Text<'a> {
    pub(crate) out: &'a mut [u8],
    /// The length of the text so far.
    pub(crate) length: usize,
}

impl Text<'_> {
    /// Appends bytes.
    fn bytes(&mut self, bytes: &[u8]) {
        self.out[self.length..self.length + bytes.len()].copy_from_slice(bytes);
        self.length += bytes.len();
    }

    /// Appends a header with these words after the first two.
    fn header(&mut self, words: [&str; 3]) {
        self.bytes(b"%%MatrixMarket matrix");
        for word in words {
            self.bytes(b" ");
            self.bytes(word.as_bytes());
        }
        self.bytes(b"\n");
    }

    /// Appends a graph's text: its head, and its edges in this order.
    pub(crate) fn graph(&mut self, graph: &Graph, edges: impl Iterator<Item = (u32, u32, i32)>) {
        self.header(["coordinate", "integer", last_word(graph.kind)]);
        self.line([graph.rows, graph.columns, graph.edges]);
        for (row, column, weight) in edges {
            self.line([i64::from(row), i64::from(column), i64::from(weight)]);
        }
    }

    /// Appends a line of words, with a space after each, and of numbers.
    pub(crate) fn words<T: Into<i64>, const COUNT: usize>(
        &mut self,
        words: &str,
        numbers: [T; COUNT],
    ) {
        self.bytes(words.as_bytes());
        self.line(numbers);
    }

    /// Appends a line of numbers with one space between them.
    pub(crate) fn line<T: Into<i64>, const COUNT: usize>(&mut self, numbers: [T; COUNT]) {
        for (at, number) in numbers.into_iter().enumerate() {
            if at > 0 {
                self.bytes(b" ");
            }
            self.number(number.into());
        }
        self.bytes(b"\n");
    }

    /// Appends a number: a - if it is below 0, and its digits without leading
    /// zeros.
    fn number(&mut self, number: i64) {
        if number < 0 {
            self.bytes(b"-");
        }
        let mut digits = [0; 20];
        let mut first = digits.len();
        let mut left = number.unsigned_abs();
        loop {
            first -= 1;
            digits[first] = b'0' + (left % 10) as u8;
            left /= 10;
            if left == 0 {
                break;
            }
        }
        self.bytes(&digits[first..]);
    }
}
