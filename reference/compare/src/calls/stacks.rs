//! How much stack each exported call takes, on accepted inputs of full size.

use crate::calls::tidies::tidy;
use crate::drawing::graphs::Lent;
use crate::drawing::problems::{families, general_families, Buffers, Problem};
use crate::harness::proved;
use crate::harness::stack::depth;
use reference::assignment::{ASSIGNMENT_BOUNDS, ASSIGNMENT_TEXT};
use reference::graph::{MOST_BOUND, MOST_EDGES, MOST_PRICE, MOST_SETS};
use reference::measure::{EDGE_WORDS, VERTEX_WORDS};
use reference::read::MOST_NUMBERS;
use reference::tidy::SHEET_TEXT;
use reference::write::PLAN_TEXT;
use reference::{number_text, Kind, Random, Refusal, What};

/// The length of a reader's outputs of edges.
const EDGES: usize = MOST_EDGES as usize;

/// The bytes of stack that a call takes, which must have a result.
fn taken<T>(mut call: impl FnMut() -> Result<T, Refusal>) -> usize {
    let mut answer = None;
    let bytes = depth(|| answer = Some(call()));
    assert!(matches!(answer, Some(Ok(_))), "it is refused");
    bytes
}

/// The most bytes that are taken on some inputs.
fn most<T>(inputs: &[T], taken: impl Fn(&T) -> usize) -> usize {
    inputs.iter().map(taken).max().expect("an input")
}

/// A graph of a kind with as many vertices and edges as there can be, and the longest weights.
fn largest(random: &mut Random, kind: Kind) -> Lent {
    let mut lent = Lent::largest(random, kind, EDGES);
    lent.weight.fill(-1_000_000);
    lent
}

/// Bipartite graphs to be solved: some of each family, and chains whose walk back passes every vertex.
fn problems(random: &mut Random) -> Vec<Problem> {
    let families = families();
    let drawn = families.iter().flat_map(|family| family.problems(1, 2));
    let mut problems: Vec<_> = drawn.collect();
    for row_end in [false, true] {
        let chain = Lent::chain(random, 64, row_end);
        let ones = vec![1; chain.vertices()];
        problems.push(Problem::new(chain, ones));
    }
    problems
}

fn read_graph(lent: &Lent) -> usize {
    let text = tidy(lent).expect("a right graph");
    let (mut row, mut column, mut weight) = ([0; EDGES], [0; EDGES], [0; EDGES]);
    taken(|| proved::read_graph(&text, &mut row, &mut column, &mut weight))
}

fn read_numbers(&(what, number): &(What, i32)) -> usize {
    let mut out = [0; MOST_NUMBERS as usize];
    let text = number_text(&[number; MOST_NUMBERS as usize]);
    taken(|| proved::read_numbers(&text, MOST_NUMBERS, what, &mut out))
}

fn read_subgraph(lent: &Lent) -> usize {
    let mut text = vec![0; PLAN_TEXT];
    let length = proved::write_subgraph(&lent.lend(), &[1; EDGES], &mut text);
    text.truncate(length.expect("a right graph"));
    let mut chosen = [0; EDGES];
    taken(|| proved::read_subgraph(&text, &lent.lend(), &mut chosen))
}

fn write_subgraph(lent: &Lent) -> usize {
    let mut out = vec![0; PLAN_TEXT];
    taken(|| proved::write_subgraph(&lent.lend(), &[1; EDGES], &mut out))
}

fn tidy_graph(lent: &Lent) -> usize {
    let mut out = vec![0; SHEET_TEXT];
    taken(|| proved::tidy_graph(&lent.lend(), &mut out))
}

fn write_assignment(lent: &Lent) -> usize {
    let ones = vec![1; lent.vertices()];
    let mut out = vec![0; ASSIGNMENT_TEXT];
    taken(|| proved::write_assignment(&lent.lend(), &ones, &mut out))
}

fn read_assignment(lent: &Lent) -> usize {
    let ones = vec![1; lent.vertices()];
    let mut text = vec![0; ASSIGNMENT_TEXT];
    let length = proved::write_assignment(&lent.lend(), &ones, &mut text);
    text.truncate(length.expect("a right graph"));
    let (mut row, mut column, mut weight) = ([0; EDGES], [0; EDGES], [0; EDGES]);
    let mut bound = [0; ASSIGNMENT_BOUNDS];
    taken(|| proved::read_assignment(&text, &mut row, &mut column, &mut weight, &mut bound))
}

fn build_index(lent: &Lent) -> usize {
    let mut index = lent.index();
    taken(|| proved::build_index(&lent.lend(), &mut index))
}

fn test_index(lent: &Lent) -> usize {
    let index = lent.index();
    taken(|| proved::test_index(&lent.lend(), &index))
}

fn solve(problem: &Problem) -> usize {
    let mut buffers = Buffers::default();
    depth(|| buffers.solve(proved::solve, problem))
}

fn price_general(Problem { graph, bound, .. }: &Problem) -> usize {
    let (mut vertex, mut edge) = (vec![0; bound.len()], vec![0; graph.row.len()]);
    taken(|| proved::price_general(&graph.lend(), bound, &mut vertex, &mut edge))
}

/// Measures the empty subgraph against the largest prices, with as many odd sets as there can be, each of one vertex.
fn measure(lent: &Lent) -> usize {
    let (n, sets) = (lent.vertices(), MOST_SETS as usize);
    let mut bound = vec![MOST_BOUND; n];
    bound[0] = 1;
    let mut set_vertices = vec![0; VERTEX_WORDS * sets];
    set_vertices
        .iter_mut()
        .step_by(VERTEX_WORDS)
        .for_each(|word| *word = 1);
    let (vertex, edge) = (vec![MOST_PRICE; n], vec![MOST_PRICE; EDGES]);
    let set_price = vec![MOST_PRICE; sets];
    let set_edges = vec![0; EDGE_WORDS * sets];
    taken(|| {
        proved::measure(
            &lent.lend(),
            &bound,
            &[0; EDGES],
            &vertex,
            &edge,
            MOST_SETS,
            &set_price,
            &set_vertices,
            &set_edges,
        )
    })
}

/// The name of each exported call, and the most bytes of stack that it takes.
pub fn measured() -> Vec<(&'static str, usize)> {
    let mut random = Random::new(1);
    let graphs = [Kind::Bipartite, Kind::General].map(|kind| largest(&mut random, kind));
    let bipartite = &graphs[..1];
    let numbers = [(What::Bounds, MOST_BOUND), (What::Prices, MOST_PRICE)];
    let general = general_families();
    let general: Vec<_> = general
        .iter()
        .flat_map(|family| family.problems(1, 2))
        .collect();
    vec![
        ("jangoripu_read_graph", most(&graphs, read_graph)),
        ("jangoripu_read_numbers", most(&numbers, read_numbers)),
        ("jangoripu_read_subgraph", most(&graphs, read_subgraph)),
        ("jangoripu_write_subgraph", most(&graphs, write_subgraph)),
        ("jangoripu_tidy_graph", most(&graphs, tidy_graph)),
        (
            "jangoripu_write_assignment",
            most(bipartite, write_assignment),
        ),
        (
            "jangoripu_read_assignment",
            most(bipartite, read_assignment),
        ),
        ("jangoripu_build_index", most(&graphs, build_index)),
        ("jangoripu_test_index", most(&graphs, test_index)),
        ("jangoripu_solve", most(&problems(&mut random), solve)),
        ("jangoripu_price_general", most(&general, price_general)),
        ("jangoripu_measure", most(&graphs, measure)),
    ]
}
