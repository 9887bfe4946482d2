//! Assignments (document 02: DIMACS assignment files): bipartite graphs whose
//! bounds are all 1, as texts in the DIMACS assignment layout.
//!
//! Row vertex i is source node i, and column vertex j is node rows + j. An arc
//! is an edge, and its cost is the negated weight.

use crate::graph::{
    ends_in_range, graph_lengths_right, has_length, sizes_in_range, test_bounds, test_each,
    test_graph, weight_in_range, Graph, Head, Kind, PairSet, MOST_EDGES, MOST_VERTICES,
};
use crate::read::lines_of;
use crate::refusal::Refusal;
use crate::text::{is_blank_line, words, Lines, Rules, MOST_LINE};
use crate::write::Text;

/// The bytes lent for an assignment's text.
pub const ASSIGNMENT_TEXT: usize = 32_768;
/// The length of the assignment reader's output of bounds.
pub const ASSIGNMENT_BOUNDS: usize = MOST_VERTICES;

/// Writes a bipartite graph whose bounds are all 1 (sheet and limits) as an
/// assignment, its edges in their order, and hands back the length of its text.
/// The output has 32,768 bytes, 0 after the text's end and after a refusal.
pub fn write_assignment(graph: &Graph, bound: &[i32], out: &mut [u8]) -> Result<usize, Refusal> {
    out.fill(0);
    if !graph_lengths_right(graph)
        || !has_length(bound.len(), graph.vertices())
        || !has_length(out.len(), ASSIGNMENT_TEXT as u64)
    {
        return Err(Refusal::new(9, 0));
    }
    test_graph(graph)?;
    test_bounds(bound)?;
    if graph.kind == Kind::General {
        return Err(Refusal::new(16, 0));
    }
    test_each(bound, 19, |bound| bound == 1)?;

    // The longest text, of 1,024 lines of 18 bytes and less than 400 bytes
    // before them, fits.
    let mut text = Text { out, length: 0 };
    text.words("p asn ", [graph.rows + graph.columns, graph.edges]);
    for source in 1..=graph.rows {
        text.words("n ", [source]);
    }
    for (edge, &weight) in graph.weight.iter().enumerate() {
        let (source, target) = (graph.row[edge], graph.rows + graph.column[edge]);
        let arc = [source.into(), target.into(), -i64::from(weight)];
        text.words("a ", arc);
    }
    Ok(text.length)
}

/// Reads an assignment as a bipartite graph and its bounds, all 1. The first
/// three outputs have 1,024 numbers each and that of the bounds has 128; those
/// after the last edge or vertex become 0. After a refusal all of them are 0.
pub fn read_assignment(
    text: &[u8],
    row: &mut [u32],
    column: &mut [u32],
    weight: &mut [i32],
    bound: &mut [i32],
) -> Result<Head, Refusal> {
    let lent = u64::from(MOST_EDGES);
    let lengths_right = has_length(row.len(), lent)
        && has_length(column.len(), lent)
        && has_length(weight.len(), lent)
        && has_length(bound.len(), ASSIGNMENT_BOUNDS as u64);
    row.fill(0);
    column.fill(0);
    weight.fill(0);
    bound.fill(0);
    if !lengths_right {
        return Err(Refusal::new(9, 0));
    }
    let assignment = Assignment::read(text)?;
    for (edge, (source, target, cost)) in assignment.arcs.iter().enumerate() {
        row[edge] = *source;
        column[edge] = target - assignment.rows;
        weight[edge] = -cost;
    }
    bound[..(assignment.rows + assignment.columns) as usize].fill(1);
    Ok(Head {
        kind: Kind::Bipartite,
        rows: assignment.rows,
        columns: assignment.columns,
        edges: assignment.arcs.len() as u32,
    })
}

/// A line of an assignment's text that is no comment and not blank.
#[derive(Clone, Copy, Debug, PartialEq, Eq)]
enum Line {
    /// The count of nodes and of arcs.
    Problem(u32, u32),
    /// A source node.
    Source(u32),
    /// The source, the target and the cost of an arc.
    Arc(u32, u32, i32),
}

impl Line {
    /// What a line says, unless it is malformed.
    fn parse(line: &[u8]) -> Option<Line> {
        let rules = Rules::New;
        match line.first()? {
            b'p' => match words(line)? {
                [b"p", b"asn", nodes, arcs] => {
                    Some(Line::Problem(rules.natural(nodes)?, rules.natural(arcs)?))
                }
                _ => None,
            },
            b'n' => match words(line)? {
                [b"n", node] => Some(Line::Source(rules.natural(node)?)),
                _ => None,
            },
            b'a' => match words(line)? {
                [b"a", source, target, cost] => {
                    let [source, target] = rules.naturals([source, target])?;
                    Some(Line::Arc(source, target, rules.integer(cost)?))
                }
                _ => None,
            },
            _ => None,
        }
    }

    /// The next line that is no comment and not blank, or nothing after the
    /// last (refusal 20).
    fn next(lines: &mut Lines) -> Result<Option<Line>, Refusal> {
        while let Some(line) = lines.next_line() {
            if line.len() > MOST_LINE {
                return Err(lines.refuse(20));
            }
            if !is_blank_line(line) && !line.starts_with(b"c") {
                return Line::parse(line).map(Some).ok_or(lines.refuse(20));
            }
        }
        Ok(None)
    }
}

/// What a text says, its arcs as they stand there.
struct Assignment {
    rows: u32,
    columns: u32,
    arcs: Vec<(u32, u32, i32)>,
}

impl Assignment {
    /// Reads a text (refusals 1, 20, 21, 4, 6, 7, 8).
    fn read(text: &[u8]) -> Result<Assignment, Refusal> {
        let mut lines = lines_of(text, Rules::New)?;
        let (nodes, count) = match Line::next(&mut lines)? {
            Some(Line::Problem(nodes, arcs)) => (nodes, arcs),
            Some(_) => return Err(lines.refuse(20)),
            None => return Err(lines.refuse_missing(20)),
        };
        let wrong_sizes = lines.refuse(4);
        let (rows, first) = read_sources(&mut lines)?;
        // An arc that is not surplus, or the end, has the sizes judged.
        match first {
            Some(Line::Arc(..)) if count > 0 => {}
            Some(_) => return Err(lines.refuse(20)),
            None => {}
        }
        let columns = nodes.saturating_sub(rows);
        if !sizes_in_range(Kind::Bipartite, rows, columns, count) {
            return Err(wrong_sizes);
        }
        let mut assignment = Assignment {
            rows,
            columns,
            arcs: Vec::new(),
        };
        assignment.read_arcs(&mut lines, first, count)?;
        Ok(assignment)
    }

    /// Reads so many arcs, the first from a line that is read already, and
    /// tests that nothing follows (refusals 20, 6, 7, 8).
    fn read_arcs(
        &mut self,
        lines: &mut Lines,
        first: Option<Line>,
        count: u32,
    ) -> Result<(), Refusal> {
        let mut earlier = PairSet::new();
        let mut line = first;
        for _ in 0..count {
            let (source, target, cost) = match line {
                Some(Line::Arc(source, target, cost)) => (source, target, cost),
                Some(_) => return Err(lines.refuse(20)),
                None => return Err(lines.refuse_missing(20)),
            };
            let column = target.saturating_sub(self.rows);
            if !ends_in_range(Kind::Bipartite, self.rows, self.columns, source, column) {
                return Err(lines.refuse(6));
            }
            if !weight_in_range(-cost) {
                return Err(lines.refuse(7));
            }
            if !earlier.insert(source, column) {
                return Err(lines.refuse(8));
            }
            self.arcs.push((source, target, cost));
            line = Line::next(lines)?;
        }
        match line {
            Some(_) => Err(lines.refuse(20)),
            None => Ok(()),
        }
    }
}

/// Reads the source nodes, which must be 1 up to their count (refusal 21), and
/// hands back their count and the line after them.
fn read_sources(lines: &mut Lines) -> Result<(u32, Option<Line>), Refusal> {
    let mut count = 0;
    loop {
        match Line::next(lines)? {
            Some(Line::Source(node)) => {
                count += 1;
                if node != count {
                    return Err(lines.refuse(21));
                }
            }
            other => return Ok((count, other)),
        }
    }
}
