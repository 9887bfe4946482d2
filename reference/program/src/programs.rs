//! What the programs `solve`, `mark`, `tidy`, `to_dimacs`, `from_dimacs` and
//! `price_tanks` print.

use crate::assignment::{read_assignment, write_assignment, ASSIGNMENT_BOUNDS, ASSIGNMENT_TEXT};
use crate::graph::{Graph, Head, OwnedGraph, MOST_EDGES};
use crate::index::{build_index, index_length};
use crate::measure::measure;
use crate::price::price_general;
use crate::read::{read_graph, read_numbers, read_subgraph, What};
use crate::refusal::Refusal;
use crate::solve::{solve, WORKSPACE};
use crate::tidy::{tidy_graph, SHEET_TEXT};
use crate::write::{number_text, write_subgraph, Text, PLAN_TEXT};

/// The files of the programs on a graph; an absent one is `None`.
#[derive(Clone, Copy, Debug, Default)]
pub struct Files<'a> {
    /// The graph (sheet.mtx), all that `tidy` reads.
    pub graph: Option<&'a [u8]>,
    /// The bounds (limits.mtx), with the graph all that `solve`, `to_dimacs` and
    /// `price_tanks` read.
    pub bounds: Option<&'a [u8]>,
    /// The subgraph (plan.mtx), read by `mark`.
    pub subgraph: Option<&'a [u8]>,
    /// The prices in half points (prices.mtx), read by `mark`.
    pub prices: Option<&'a [u8]>,
}

/// A refusal and where it comes from.
#[derive(Clone, Copy, Debug, PartialEq, Eq)]
pub struct Refused {
    /// The refusal.
    pub refusal: Refusal,
    /// The name of the file whose reader refuses, or `input`.
    pub from: &'static str,
}

/// Names where a refusal comes from.
fn from(from: &'static str) -> impl Fn(Refusal) -> Refused {
    move |refusal| Refused { refusal, from }
}

/// The bytes to print: a result or the line of a refusal.
pub fn printed(result: &Result<Vec<u8>, Refused>) -> Vec<u8> {
    match result {
        Ok(bytes) => bytes.clone(),
        Err(Refused {
            refusal: Refusal { number, place },
            from,
        }) => format!("refused {number} at {place} in {from}\n").into_bytes(),
    }
}

/// The graph that a reader puts into three outputs of 1,024 numbers.
fn graph_by(
    read: impl FnOnce(&mut [u32], &mut [u32], &mut [i32]) -> Result<Head, Refusal>,
) -> Result<OwnedGraph, Refusal> {
    let lent = MOST_EDGES as usize;
    let (mut row, mut column, mut weight) = (vec![0; lent], vec![0; lent], vec![0; lent]);
    let head = read(&mut row, &mut column, &mut weight)?;
    let m = head.edges as usize;
    row.truncate(m);
    column.truncate(m);
    weight.truncate(m);
    Ok(OwnedGraph {
        kind: head.kind,
        rows: head.rows,
        columns: head.columns,
        row,
        column,
        weight,
    })
}

/// Reads sheet.mtx.
fn read_sheet(files: &Files) -> Result<OwnedGraph, Refused> {
    let text = files.graph.unwrap_or_default();
    let graph = graph_by(|row, column, weight| read_graph(text, row, column, weight));
    graph.map_err(from("sheet.mtx"))
}

/// A graph and its bounds.
pub struct Input {
    graph: OwnedGraph,
    bound: Vec<i32>,
}

impl Input {
    /// Reads sheet.mtx and limits.mtx.
    pub fn read(files: &Files) -> Result<Input, Refused> {
        let graph = read_sheet(files)?;
        let count = graph.lend().vertices() as u32;
        let mut bound = vec![0; count as usize];
        let text = files.bounds.unwrap_or_default();
        read_numbers(text, count, What::Bounds, &mut bound).map_err(from("limits.mtx"))?;
        Ok(Input { graph, bound })
    }

    /// The graph as lent to a call.
    pub fn graph(&self) -> Graph<'_> {
        self.graph.lend()
    }

    /// The bounds (limits).
    pub fn bound(&self) -> &[i32] {
        &self.bound
    }
}

/// What `solve` prints.
pub fn solve_output(files: &Files) -> Vec<u8> {
    printed(&solve_files(files))
}

/// What `mark` prints.
pub fn mark_output(files: &Files) -> Vec<u8> {
    printed(&mark_files(files))
}

/// What `tidy` prints.
pub fn tidy_output(files: &Files) -> Vec<u8> {
    printed(&tidy_files(files))
}

/// What `to_dimacs` prints.
pub fn to_dimacs_output(files: &Files) -> Vec<u8> {
    printed(&to_dimacs_files(files))
}

/// What `price_tanks` prints.
pub fn price_tanks_output(files: &Files) -> Vec<u8> {
    printed(&price_tanks_files(files))
}

/// What `from_dimacs` prints for the text of crosses.asn; an absent file is an
/// empty text.
pub fn from_dimacs_output(text: &[u8]) -> Vec<u8> {
    printed(&from_dimacs_file(text))
}

/// The plan that `solve` prints, or its refusal.
pub fn solve_files(files: &Files) -> Result<Vec<u8>, Refused> {
    let input = Input::read(files)?;
    let graph = input.graph();
    let (n, m) = (input.bound.len(), graph.row.len());
    let mut index = vec![0; index_length(&graph) as usize];
    build_index(&graph, &mut index).map_err(from("input"))?;
    let mut chosen = vec![0; m];
    let (mut vertex_price, mut edge_price) = (vec![0; n], vec![0; m]);
    let mut workspace = vec![0; WORKSPACE];
    solve(
        &graph,
        &input.bound,
        &index,
        &mut chosen,
        &mut vertex_price,
        &mut edge_price,
        &mut workspace,
    )
    .map_err(from("input"))?;
    let mut out = vec![0; PLAN_TEXT];
    let length = write_subgraph(&graph, &chosen, &mut out).map_err(from("input"))?;
    out.truncate(length);
    Ok(out)
}

/// The line that `mark` prints, its merit in points and all else in half points,
/// or its refusal.
pub fn mark_files(files: &Files) -> Result<Vec<u8>, Refused> {
    let input = Input::read(files)?;
    let graph = input.graph();
    let (n, m) = (input.bound.len(), graph.row.len());
    let mut chosen = vec![0; m];
    let text = files.subgraph.unwrap_or_default();
    read_subgraph(text, &graph, &mut chosen).map_err(from("plan.mtx"))?;
    let mut price = vec![0; n + m];
    let text = files.prices.unwrap_or_default();
    read_numbers(text, (n + m) as u32, What::Prices, &mut price).map_err(from("prices.mtx"))?;
    let (vertex_price, edge_price) = price.split_at(n);
    let found = measure(
        &graph,
        &input.bound,
        &chosen,
        vertex_price,
        edge_price,
        0,
        &[],
        &[],
        &[],
    )
    .map_err(from("input"))?;
    let line = format!(
        "merit {} total {} fish {} groups {} pairs {} cover {} gap {}\n",
        found.weight, found.total, found.vertices, found.sets, found.edges, found.cover, found.gap
    );
    Ok(line.into_bytes())
}

/// The tidy text that `tidy` prints, or its refusal.
pub fn tidy_files(files: &Files) -> Result<Vec<u8>, Refused> {
    let graph = read_sheet(files)?;
    let mut out = vec![0; SHEET_TEXT];
    let length = tidy_graph(&graph.lend(), &mut out).map_err(from("input"))?;
    out.truncate(length);
    Ok(out)
}

/// The DIMACS text that `to_dimacs` prints, or its refusal.
pub fn to_dimacs_files(files: &Files) -> Result<Vec<u8>, Refused> {
    let input = Input::read(files)?;
    let mut out = vec![0; ASSIGNMENT_TEXT];
    let length = write_assignment(&input.graph(), &input.bound, &mut out).map_err(from("input"))?;
    out.truncate(length);
    Ok(out)
}

/// The text of prices that `price_tanks` prints, those of the vertices first and
/// then those of the edges, or its refusal.
pub fn price_tanks_files(files: &Files) -> Result<Vec<u8>, Refused> {
    let input = Input::read(files)?;
    let graph = input.graph();
    let n = input.bound.len();
    let mut price = vec![0; n + graph.row.len()];
    let (vertex_price, edge_price) = price.split_at_mut(n);
    price_general(&graph, &input.bound, vertex_price, edge_price).map_err(from("input"))?;
    Ok(number_text(&price))
}

/// The graph's text that `from_dimacs` prints, its edges in the order of the
/// arcs, or its refusal.
pub fn from_dimacs_file(text: &[u8]) -> Result<Vec<u8>, Refused> {
    let mut bound = [0; ASSIGNMENT_BOUNDS];
    let graph =
        graph_by(|row, column, weight| read_assignment(text, row, column, weight, &mut bound))
            .map_err(from("crosses.asn"))?;
    let mut out = vec![0; SHEET_TEXT];
    let mut text = Text {
        out: &mut out,
        length: 0,
    };
    text.graph(&graph.lend(), graph.lend().listed());
    let length = text.length;
    out.truncate(length);
    Ok(out)
}
