//! The proved calls, declared in include/jangoripu.rs, as Rust functions with
//! the separately written program's types. Nothing is tested here that the
//! calls test themselves.

use crate::harness::layer::calls::*;
use reference::{Graph, Head, Kind, Measures, Refusal, What};

fn is_general(kind: Kind) -> bool {
    kind == Kind::General
}

fn answered<T>(number: u32, place: u64, result: T) -> Result<T, Refusal> {
    if number == 0 {
        assert_eq!(place, 0, "a result has place 0");
        Ok(result)
    } else {
        Err(Refusal::new(number, place))
    }
}

/// What a writer answers: a length, or a refusal and no length.
fn written(number: u32, [place, length]: [u64; 2]) -> Result<usize, Refusal> {
    if number != 0 {
        assert_eq!(length, 0, "after a refusal no length is told");
    }
    answered(number, place, length as usize)
}

/// What a reader of graphs answers: a graph's head, or a refusal and nothing else.
fn head_told(number: u32, answer: [u64; 5]) -> Result<Head, Refusal> {
    let kind = match answer[1] {
        0 => Kind::Bipartite,
        1 => Kind::General,
        other => panic!("a kind of {other}"),
    };
    if number != 0 {
        assert_eq!(answer[1..], [0; 4], "after a refusal nothing is told");
    }
    let head = Head {
        kind,
        rows: answer[2] as u32,
        columns: answer[3] as u32,
        edges: answer[4] as u32,
    };
    answered(number, answer[0], head)
}

/// The graph reader.
pub fn read_graph(
    text: &[u8],
    row: &mut [u32],
    column: &mut [u32],
    weight: &mut [i32],
) -> Result<Head, Refusal> {
    let mut answer = [7u64; 5];
    let number = unsafe {
        jangoripu_read_graph(
            text.as_ptr(),
            text.len(),
            row.as_mut_ptr(),
            row.len(),
            column.as_mut_ptr(),
            column.len(),
            weight.as_mut_ptr(),
            weight.len(),
            &mut answer,
        )
    };
    head_told(number, answer)
}

/// The assignment reader.
pub fn read_assignment(
    text: &[u8],
    row: &mut [u32],
    column: &mut [u32],
    weight: &mut [i32],
    bound: &mut [i32],
) -> Result<Head, Refusal> {
    let mut answer = [7u64; 5];
    let number = unsafe {
        jangoripu_read_assignment(
            text.as_ptr(),
            text.len(),
            row.as_mut_ptr(),
            row.len(),
            column.as_mut_ptr(),
            column.len(),
            weight.as_mut_ptr(),
            weight.len(),
            bound.as_mut_ptr(),
            bound.len(),
            &mut answer,
        )
    };
    head_told(number, answer)
}

/// The number reader.
pub fn read_numbers(text: &[u8], count: u32, what: What, out: &mut [i32]) -> Result<(), Refusal> {
    let mut place = 7;
    let number = unsafe {
        jangoripu_read_numbers(
            text.as_ptr(),
            text.len(),
            what == What::Prices,
            count,
            out.as_mut_ptr(),
            out.len(),
            &mut place,
        )
    };
    answered(number, place, ())
}

/// The subgraph reader.
pub fn read_subgraph(text: &[u8], graph: &Graph, chosen: &mut [u8]) -> Result<(), Refusal> {
    let mut place = 7;
    let number = unsafe {
        jangoripu_read_subgraph(
            text.as_ptr(),
            text.len(),
            is_general(graph.kind),
            graph.rows,
            graph.columns,
            graph.edges,
            graph.row.as_ptr(),
            graph.row.len(),
            graph.column.as_ptr(),
            graph.column.len(),
            graph.weight.as_ptr(),
            graph.weight.len(),
            chosen.as_mut_ptr(),
            chosen.len(),
            &mut place,
        )
    };
    answered(number, place, ())
}

/// The subgraph writer.
pub fn write_subgraph(graph: &Graph, chosen: &[u8], out: &mut [u8]) -> Result<usize, Refusal> {
    let mut answer = [7u64; 2];
    let number = unsafe {
        jangoripu_write_subgraph(
            is_general(graph.kind),
            graph.rows,
            graph.columns,
            graph.edges,
            graph.row.as_ptr(),
            graph.row.len(),
            graph.column.as_ptr(),
            graph.column.len(),
            graph.weight.as_ptr(),
            graph.weight.len(),
            chosen.as_ptr(),
            chosen.len(),
            out.as_mut_ptr(),
            out.len(),
            &mut answer,
        )
    };
    written(number, answer)
}

/// The tidy text of a graph.
pub fn tidy_graph(graph: &Graph, out: &mut [u8]) -> Result<usize, Refusal> {
    let mut answer = [7u64; 2];
    let number = unsafe {
        jangoripu_tidy_graph(
            is_general(graph.kind),
            graph.rows,
            graph.columns,
            graph.edges,
            graph.row.as_ptr(),
            graph.row.len(),
            graph.column.as_ptr(),
            graph.column.len(),
            graph.weight.as_ptr(),
            graph.weight.len(),
            out.as_mut_ptr(),
            out.len(),
            &mut answer,
        )
    };
    written(number, answer)
}

/// The assignment writer.
pub fn write_assignment(graph: &Graph, bound: &[i32], out: &mut [u8]) -> Result<usize, Refusal> {
    let mut answer = [7u64; 2];
    let number = unsafe {
        jangoripu_write_assignment(
            is_general(graph.kind),
            graph.rows,
            graph.columns,
            graph.edges,
            graph.row.as_ptr(),
            graph.row.len(),
            graph.column.as_ptr(),
            graph.column.len(),
            graph.weight.as_ptr(),
            graph.weight.len(),
            bound.as_ptr(),
            bound.len(),
            out.as_mut_ptr(),
            out.len(),
            &mut answer,
        )
    };
    written(number, answer)
}

/// Building an index.
pub fn build_index(graph: &Graph, index: &mut [u32]) -> Result<(), Refusal> {
    let mut place = 7;
    let number = unsafe {
        jangoripu_build_index(
            is_general(graph.kind),
            graph.rows,
            graph.columns,
            graph.edges,
            graph.row.as_ptr(),
            graph.row.len(),
            graph.column.as_ptr(),
            graph.column.len(),
            graph.weight.as_ptr(),
            graph.weight.len(),
            index.as_mut_ptr(),
            index.len(),
            &mut place,
        )
    };
    answered(number, place, ())
}

/// Testing an index.
pub fn test_index(graph: &Graph, index: &[u32]) -> Result<(), Refusal> {
    let mut place = 7;
    let number = unsafe {
        jangoripu_test_index(
            is_general(graph.kind),
            graph.rows,
            graph.columns,
            graph.edges,
            graph.row.as_ptr(),
            graph.row.len(),
            graph.column.as_ptr(),
            graph.column.len(),
            graph.weight.as_ptr(),
            graph.weight.len(),
            index.as_ptr(),
            index.len(),
            &mut place,
        )
    };
    answered(number, place, ())
}

/// The solver.
pub fn solve(
    graph: &Graph,
    bound: &[i32],
    index: &[u32],
    chosen: &mut [u8],
    vertex_price: &mut [i32],
    edge_price: &mut [i32],
    workspace: &mut [i32],
) -> Result<(), Refusal> {
    let mut place = 7;
    let number = unsafe {
        jangoripu_solve(
            is_general(graph.kind),
            graph.rows,
            graph.columns,
            graph.edges,
            graph.row.as_ptr(),
            graph.row.len(),
            graph.column.as_ptr(),
            graph.column.len(),
            graph.weight.as_ptr(),
            graph.weight.len(),
            bound.as_ptr(),
            bound.len(),
            index.as_ptr(),
            index.len(),
            chosen.as_mut_ptr(),
            chosen.len(),
            vertex_price.as_mut_ptr(),
            vertex_price.len(),
            edge_price.as_mut_ptr(),
            edge_price.len(),
            workspace.as_mut_ptr(),
            workspace.len(),
            &mut place,
        )
    };
    answered(number, place, ())
}

/// The prices of a general graph.
pub fn price_general(
    graph: &Graph,
    bound: &[i32],
    vertex_price: &mut [i32],
    edge_price: &mut [i32],
) -> Result<(), Refusal> {
    let mut place = 7;
    let number = unsafe {
        jangoripu_price_general(
            is_general(graph.kind),
            graph.rows,
            graph.columns,
            graph.edges,
            graph.row.as_ptr(),
            graph.row.len(),
            graph.column.as_ptr(),
            graph.column.len(),
            graph.weight.as_ptr(),
            graph.weight.len(),
            bound.as_ptr(),
            bound.len(),
            vertex_price.as_mut_ptr(),
            vertex_price.len(),
            edge_price.as_mut_ptr(),
            edge_price.len(),
            &mut place,
        )
    };
    answered(number, place, ())
}

/// The measuring call.
#[allow(clippy::too_many_arguments)]
pub fn measure(
    graph: &Graph,
    bound: &[i32],
    chosen: &[u8],
    vertex_price: &[i32],
    edge_price: &[i32],
    sets: u32,
    set_price: &[i32],
    set_vertices: &[u64],
    set_edges: &[u64],
) -> Result<Measures, Refusal> {
    let mut place = 7;
    let mut numbers = [7i64; 7];
    let number = unsafe {
        jangoripu_measure(
            is_general(graph.kind),
            graph.rows,
            graph.columns,
            graph.edges,
            graph.row.as_ptr(),
            graph.row.len(),
            graph.column.as_ptr(),
            graph.column.len(),
            graph.weight.as_ptr(),
            graph.weight.len(),
            bound.as_ptr(),
            bound.len(),
            chosen.as_ptr(),
            chosen.len(),
            vertex_price.as_ptr(),
            vertex_price.len(),
            edge_price.as_ptr(),
            edge_price.len(),
            sets,
            set_price.as_ptr(),
            set_price.len(),
            set_vertices.as_ptr(),
            set_vertices.len(),
            set_edges.as_ptr(),
            set_edges.len(),
            &mut numbers,
            &mut place,
        )
    };
    if number != 0 {
        assert_eq!(numbers, [0; 7], "after a refusal no number is told");
    }
    let [weight, total, vertices, sets, edges, cover, gap] = numbers;
    let measures = Measures {
        weight,
        total,
        vertices,
        sets,
        edges,
        cover,
        gap,
    };
    answered(number, place, measures)
}
