//! The readers of graphs, numbers and subgraphs.

use crate::graph::{
    bound_in_range, ends_in_range, graph_lengths_right, has_length, price_in_range, sizes_in_range,
    test_graph, weight_in_range, Graph, Head, PairSet, MOST_EDGES, MOST_VERTICES,
};
use crate::refusal::Refusal;
use crate::text::{Header, Lines, Rules, MOST_TEXT};

/// The most numbers of a number text: those of 128 vertices and 1,024 edges.
pub const MOST_NUMBERS: u32 = 1_152;

/// What the number reader reads.
#[derive(Clone, Copy, Debug, PartialEq, Eq)]
pub enum What {
    /// Bounds (limits), refusal 10.
    Bounds,
    /// Vertex and edge prices (fish and pair prices), refusal 13.
    Prices,
}

/// The lines of a text that is not too long (refusal 1).
pub(crate) fn lines_of(text: &[u8], rules: Rules) -> Result<Lines<'_>, Refusal> {
    if text.len() > MOST_TEXT {
        return Err(Refusal::new(1, 0));
    }
    Ok(Lines::new(text, rules))
}

/// Reads a graph (sheet reader). The outputs have 1,024 numbers each; those
/// after the last edge become 0. After a refusal all of them are 0.
pub fn read_graph(
    text: &[u8],
    row: &mut [u32],
    column: &mut [u32],
    weight: &mut [i32],
) -> Result<Head, Refusal> {
    read_graph_by(Rules::New, text, row, column, weight)
}

/// Reads a graph by these rules.
pub fn read_graph_by(
    rules: Rules,
    text: &[u8],
    row: &mut [u32],
    column: &mut [u32],
    weight: &mut [i32],
) -> Result<Head, Refusal> {
    row.fill(0);
    column.fill(0);
    weight.fill(0);
    let read = read_graph_into(rules, text, row, column, weight);
    if read.is_err() {
        row.fill(0);
        column.fill(0);
        weight.fill(0);
    }
    read
}

/// Reads a graph into outputs that hold only 0.
fn read_graph_into(
    rules: Rules,
    text: &[u8],
    row: &mut [u32],
    column: &mut [u32],
    weight: &mut [i32],
) -> Result<Head, Refusal> {
    let lent = u64::from(MOST_EDGES);
    if !has_length(row.len(), lent)
        || !has_length(column.len(), lent)
        || !has_length(weight.len(), lent)
    {
        return Err(Refusal::new(9, 0));
    }
    let mut lines = lines_of(text, rules)?;
    let Header::Graph(kind) = lines.header()? else {
        return Err(lines.refuse(2));
    };
    let [rows, columns, edges] = lines.sizes()?;
    if !sizes_in_range(kind, rows, columns, edges) {
        return Err(lines.refuse(4));
    }
    let mut earlier = PairSet::new();
    for edge in 0..edges as usize {
        let [first, second, third] = lines.entry()?;
        let ends = rules.naturals([first, second]);
        let (Some([r, c]), Some(w)) = (ends, rules.integer(third)) else {
            return Err(lines.refuse(5));
        };
        if !ends_in_range(kind, rows, columns, r, c) {
            return Err(lines.refuse(6));
        }
        if !weight_in_range(w) {
            return Err(lines.refuse(7));
        }
        if !earlier.insert(r, c) {
            return Err(lines.refuse(8));
        }
        row[edge] = r;
        column[edge] = c;
        weight[edge] = w;
    }
    lines.end()?;
    Ok(Head {
        kind,
        rows,
        columns,
        edges,
    })
}

/// Reads bounds or prices (number reader, told the count). The output has the
/// count passed; after a refusal it is all 0.
pub fn read_numbers(text: &[u8], count: u32, what: What, out: &mut [i32]) -> Result<(), Refusal> {
    read_numbers_by(Rules::New, text, count, what, out)
}

/// Reads bounds or prices by these rules.
pub fn read_numbers_by(
    rules: Rules,
    text: &[u8],
    count: u32,
    what: What,
    out: &mut [i32],
) -> Result<(), Refusal> {
    let read = read_numbers_into(rules, text, count, what, out);
    if read.is_err() {
        out.fill(0);
    }
    read
}

/// Reads bounds or prices; after a refusal the output holds anything.
fn read_numbers_into(
    rules: Rules,
    text: &[u8],
    count: u32,
    what: What,
    out: &mut [i32],
) -> Result<(), Refusal> {
    if !has_length(out.len(), u64::from(count)) {
        return Err(Refusal::new(9, 0));
    }
    if !(1..=MOST_NUMBERS).contains(&count) {
        return Err(Refusal::new(4, 0));
    }
    let mut lines = lines_of(text, rules)?;
    let Header::Numbers = lines.header()? else {
        return Err(lines.refuse(2));
    };
    if lines.sizes()? != [count, 1] {
        return Err(lines.refuse(4));
    }
    for number in out.iter_mut() {
        let [word] = lines.entry()?;
        let Some(value) = rules.integer(word) else {
            return Err(lines.refuse(5));
        };
        match what {
            What::Bounds if !bound_in_range(value) => return Err(lines.refuse(10)),
            What::Prices if !price_in_range(value, rules.most_price()) => {
                return Err(lines.refuse(13))
            }
            _ => *number = value,
        }
    }
    lines.end()
}

/// Reads a subgraph (plan reader) and hands back its count of chosen edges.
/// There is one mark for each edge of the graph; after a refusal all are 0.
pub fn read_subgraph(text: &[u8], graph: &Graph, chosen: &mut [u8]) -> Result<u32, Refusal> {
    read_subgraph_by(Rules::New, text, graph, chosen)
}

/// Reads a subgraph by these rules.
pub fn read_subgraph_by(
    rules: Rules,
    text: &[u8],
    graph: &Graph,
    chosen: &mut [u8],
) -> Result<u32, Refusal> {
    chosen.fill(0);
    let read = read_subgraph_into(rules, text, graph, chosen);
    if read.is_err() {
        chosen.fill(0);
    }
    read
}

/// Reads a subgraph into marks that are all 0.
fn read_subgraph_into(
    rules: Rules,
    text: &[u8],
    graph: &Graph,
    chosen: &mut [u8],
) -> Result<u32, Refusal> {
    if !graph_lengths_right(graph) || !has_length(chosen.len(), u64::from(graph.edges)) {
        return Err(Refusal::new(9, 0));
    }
    test_graph(graph)?;
    let mut lines = lines_of(text, rules)?;
    let Header::Subgraph(kind) = lines.header()? else {
        return Err(lines.refuse(2));
    };
    if kind != graph.kind {
        return Err(lines.refuse(17));
    }
    let [rows, columns, count] = lines.sizes()?;
    if !sizes_in_range(kind, rows, columns, count) {
        return Err(lines.refuse(4));
    }
    if rows != graph.rows || columns != graph.columns || count > graph.edges {
        return Err(lines.refuse(17));
    }
    let edge_of = EdgeTable::new(graph);
    for _ in 0..count {
        let Some([r, c]) = rules.naturals(lines.entry()?) else {
            return Err(lines.refuse(5));
        };
        if !ends_in_range(kind, rows, columns, r, c) {
            return Err(lines.refuse(6));
        }
        let Some(edge) = edge_of.find(r, c) else {
            return Err(lines.refuse(17));
        };
        if chosen[edge] == 1 {
            return Err(lines.refuse(8));
        }
        chosen[edge] = 1;
    }
    lines.end()?;
    Ok(count)
}

/// The number of the edge at each row and column, 0 where there is none.
struct EdgeTable {
    number: [u16; MOST_VERTICES * MOST_VERTICES],
}

impl EdgeTable {
    /// The table of a graph whose numbers are tested.
    fn new(graph: &Graph) -> EdgeTable {
        let mut number = [0; MOST_VERTICES * MOST_VERTICES];
        for edge in 0..graph.row.len() {
            number[EdgeTable::at(graph.row[edge], graph.column[edge])] = edge as u16 + 1;
        }
        EdgeTable { number }
    }

    /// Where the table holds a row and column, both within 1 to 128.
    fn at(row: u32, column: u32) -> usize {
        (row as usize - 1) * MOST_VERTICES + (column as usize - 1)
    }

    /// The index from 0 of the edge at a row and column.
    fn find(&self, row: u32, column: u32) -> Option<usize> {
        match self.number[EdgeTable::at(row, column)] {
            0 => None,
            number => Some(usize::from(number) - 1),
        }
    }
}
