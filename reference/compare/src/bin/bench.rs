//! Times the proved calls beside the separately written program, in one run. Buffers are cleared before each call.

use compare::calls::assignments::{Reading, Writing};
use compare::calls::indexes::{Building, Testing};
use compare::calls::measures::Measuring;
use compare::calls::prices::Pricing;
use compare::calls::readings::{ReadingNumbers, ReadingSubgraph};
use compare::calls::tidies::Tidying;
use compare::drawing::graphs::Lent;
use compare::drawing::problems::{general_families, Buffers, Family};
use compare::drawing::problems::{Problem, Solving, WHOLE_RANGE};
use compare::harness::proved;
use compare::harness::timing::{self, microseconds};
use reference::graph::MOST_SIDE;
use reference::price::MOST_DOUBLED_EDGES;
use reference::{number_text, Kind, Random, What};
use std::hint::black_box;

/// The median time of a call in microseconds, over the inputs.
fn median<T>(inputs: &[T], mut call: impl FnMut(&T)) -> f64 {
    let times = inputs.iter().map(|input| microseconds(|| call(input)));
    timing::median(times)
}

/// How often calls take turns that are timed beside each other.
const TURNS: usize = 5;

/// The median times of some calls over the inputs. They take turns, since the machine may change its pace.
fn medians<T, const CALLS: usize>(
    inputs: &[T],
    mut calls: [&mut dyn FnMut(&T); CALLS],
) -> [f64; CALLS] {
    let mut times = [(); CALLS].map(|_| Vec::new());
    for _ in 0..TURNS {
        for (call, times) in calls.iter_mut().zip(&mut times) {
            times.extend(inputs.iter().map(|input| microseconds(|| call(input))));
        }
    }
    times.map(timing::median)
}

/// The line of a call's time beside the separately written program's.
fn line(name: &str, ours: f64, theirs: f64) -> String {
    let ratio = ours / theirs;
    format!("{name:<66} proved {ours:9.1} us   separate {theirs:9.1} us   ratio {ratio:5.2}")
}

fn show(name: &str, ours: f64, theirs: f64) {
    println!("{}", line(name, ours, theirs));
}

/// Bipartite graphs, 64 by 64, with weights from their whole range, and bounds 1 to 4.
fn problems(seed: u64, edges: usize) -> Vec<Problem> {
    Family::new(64, 64, edges).problems(seed, 101)
}

fn text(lent: &Lent) -> Vec<u8> {
    let header = "%%MatrixMarket matrix coordinate integer general";
    format!("{header}\n{}", lent.lines()).into_bytes()
}

/// The text of all edges of a bipartite graph.
fn subgraph_text(lent: &Lent) -> Vec<u8> {
    let header = "%%MatrixMarket matrix coordinate pattern general";
    let (rows, columns, edges) = (lent.rows, lent.columns, lent.edges);
    let mut text = format!("{header}\n{rows} {columns} {edges}\n");
    for e in 0..lent.row.len() {
        text += &format!("{} {}\n", lent.row[e], lent.column[e]);
    }
    text.into_bytes()
}

fn graph_readers() {
    for edges in [128, 256, 512, 1024] {
        let problems = problems(1, edges).into_iter();
        let texts: Vec<_> = problems.map(|problem| text(&problem.graph)).collect();
        let mut out = (vec![0u32; 1024], vec![0u32; 1024], vec![0i32; 1024]);
        let ours = median(&texts, |t| {
            black_box(proved::read_graph(t, &mut out.0, &mut out.1, &mut out.2)).unwrap();
        });
        let theirs = median(&texts, |t| {
            black_box(reference::read_graph(t, &mut out.0, &mut out.1, &mut out.2)).unwrap();
        });
        show(&format!("read a graph, {edges} edges"), ours, theirs);
    }
}

fn number_readers() {
    for (what, name, count, most) in [
        (What::Bounds, "bounds", 128, 64),
        (What::Prices, "prices", 1152, 4_000_000),
    ] {
        let mut random = Random::new(5);
        let mut numbers = || {
            (0..count)
                .map(|_| random.between(0, most))
                .collect::<Vec<_>>()
        };
        let texts: Vec<_> = (0..101).map(|_| number_text(&numbers())).collect();
        let mut out = vec![0i32; count];
        let [ours, theirs] = [
            proved::read_numbers,
            reference::read_numbers as ReadingNumbers,
        ]
        .map(|read| {
            median(&texts, |text| {
                out.fill(0);
                black_box(read(text, count as u32, what, &mut out)).unwrap();
            })
        });
        show(&format!("read {count} {name}"), ours, theirs);
    }
}

fn subgraph_readers() {
    for edges in [256, 1024] {
        let graphs = problems(6, edges).into_iter().map(|problem| problem.graph);
        let inputs: Vec<_> = graphs.map(|lent| (subgraph_text(&lent), lent)).collect();
        let mut out = vec![0u8; edges];
        let reference: ReadingSubgraph =
            |text, g, out| reference::read_subgraph(text, g, out).map(|_| ());
        let [ours, theirs] = [proved::read_subgraph, reference].map(|read| {
            median(&inputs, |(text, lent)| {
                out.fill(0);
                black_box(read(text, &lent.lend(), &mut out)).unwrap();
            })
        });
        show(
            &format!("read a subgraph, {edges} of {edges} edges"),
            ours,
            theirs,
        );
    }
}

fn measures() {
    for (edges, sets) in [(256, 16), (1024, 0), (1024, 4), (1024, 16)] {
        let inputs = problems(2, edges);
        let vertex = vec![2_000_000; 128];
        let edge = vec![0; 1024];
        let price = vec![2; sets];
        let mut set_vertices = vec![0u64; 2 * sets];
        let set_edges = vec![0u64; 16 * sets];
        for s in 0..sets {
            set_vertices[2 * s] = 1;
        }
        let count = sets as u32;
        let [ours, theirs] = [proved::measure, reference::measure as Measuring].map(|measure| {
            median(&inputs, |problem| {
                let mut bound = problem.bound.clone();
                bound[0] = 1;
                let (graph, m) = (problem.graph.lend(), edges);
                let chosen = vec![0u8; m];
                let (vertices, edges) = (&set_vertices, &set_edges);
                let edge = &edge[..m];
                let numbers = measure(
                    &graph, &bound, &chosen, &vertex, edge, count, &price, vertices, edges,
                );
                black_box(numbers).unwrap();
            })
        });
        show(
            &format!("measure, {edges} edges, {sets} sets"),
            ours,
            theirs,
        );
    }
}

fn tidies() {
    for (kind, side, edges) in [
        (Kind::Bipartite, 64, 128),
        (Kind::Bipartite, 64, 256),
        (Kind::Bipartite, 64, 512),
        (Kind::Bipartite, 64, 1024),
        (Kind::General, 128, 1024),
    ] {
        let mut random = Random::new(7);
        let mut graph = || Lent::weighted(&mut random, kind, side, side, edges, &WHOLE_RANGE);
        let inputs: Vec<_> = (0..101).map(|_| graph()).collect();
        let mut out = vec![0u8; 32_768];
        let [ours, theirs] = [proved::tidy_graph, reference::tidy_graph as Tidying].map(|tidy| {
            median(&inputs, |lent| {
                out.fill(0);
                black_box(tidy(&lent.lend(), &mut out)).unwrap();
            })
        });
        let sides = match kind {
            Kind::Bipartite => format!("{side} by {side}"),
            Kind::General => format!("{side} vertices"),
        };
        let name = format!("tidy a graph, {sides}, {edges} edges");
        show(&name, ours, theirs);
    }
}

fn assignments() {
    for edges in [128, 256, 512, 1024] {
        let inputs = problems(8, edges);
        let ones = [1; 128];
        let mut text = vec![0u8; 32_768];
        let [ours, theirs] = [
            proved::write_assignment,
            reference::write_assignment as Writing,
        ]
        .map(|write| {
            median(&inputs, |problem| {
                text.fill(0);
                black_box(write(&problem.graph.lend(), &ones, &mut text)).unwrap();
            })
        });
        show(&format!("write an assignment, {edges} arcs"), ours, theirs);
        let texts = inputs.iter().map(|problem| {
            let length = reference::write_assignment(&problem.graph.lend(), &ones, &mut text);
            text[..length.unwrap()].to_vec()
        });
        let texts: Vec<_> = texts.collect();
        let mut out = (vec![0u32; 1024], vec![0u32; 1024], vec![0i32; 1024]);
        let mut bound = vec![0; 128];
        let [ours, theirs] = [
            proved::read_assignment,
            reference::read_assignment as Reading,
        ]
        .map(|read| {
            median(&texts, |text| {
                let (row, column, weight) = (&mut out.0, &mut out.1, &mut out.2);
                black_box(read(text, row, column, weight, &mut bound)).unwrap();
            })
        });
        show(&format!("read an assignment, {edges} arcs"), ours, theirs);
    }
}

fn indexes() {
    for edges in [256, 512, 1024] {
        let inputs = problems(4, edges);
        let mut out = vec![0u32; 2177];
        let [ours, theirs] =
            [proved::build_index, reference::build_index as Building].map(|build| {
                median(&inputs, |problem| {
                    let out = &mut out[..problem.index.len()];
                    out.fill(0);
                    black_box(build(&problem.graph.lend(), out)).unwrap();
                })
            });
        show(&format!("build the index, {edges} edges"), ours, theirs);
        let [ours, theirs] = [proved::test_index, reference::test_index as Testing].map(|test| {
            median(&inputs, |problem| {
                black_box(test(&problem.graph.lend(), &problem.index)).unwrap();
            })
        });
        show(&format!("test the index, {edges} edges"), ours, theirs);
    }
}

fn solvers() {
    for (side, edges) in [
        (16, 64),
        (16, 128),
        (16, 256),
        (32, 256),
        (32, 512),
        (32, 1024),
        (64, 128),
        (64, 256),
        (64, 512),
        (64, 1024),
    ] {
        let family = Family::new(side, side, edges);
        let inputs = family.problems(3, 100);
        let mut buffers = Buffers::default();
        let [ours, theirs] = [proved::solve, reference::solve as Solving].map(|solve| {
            median(&inputs, |problem| {
                buffers.clear();
                buffers.solve(solve, problem);
            })
        });
        show(&format!("solve, {family}, bounds 1 to 4"), ours, theirs);
    }
}

/// A graph to be priced, and its doubled graph to be solved, with its index.
type Case = (Problem, Problem);

/// Prices the first.
fn pricing(price: Pricing) -> impl FnMut(&Case) {
    let mut vertex = [0; MOST_SIDE as usize];
    let mut edge = [0; MOST_DOUBLED_EDGES as usize];
    move |(Problem { graph, bound, .. }, _)| {
        let vertex = &mut vertex[..graph.vertices()];
        let edge = &mut edge[..graph.row.len()];
        vertex.fill(0);
        edge.fill(0);
        black_box(price(&graph.lend(), bound, vertex, edge)).unwrap();
    }
}

/// Prices beside the separately written program, and beside the proved solver on the doubled graph.
fn prices() {
    for family in general_families() {
        let problems = family.problems(9, 101).into_iter();
        let cases = problems.map(|problem| {
            let doubled = problem.doubled();
            (problem, doubled)
        });
        let mut buffers = Buffers::default();
        let [ours, theirs, solved] = medians(
            &cases.collect::<Vec<_>>(),
            [
                &mut pricing(proved::price_general),
                &mut pricing(reference::price_general),
                &mut |(_, doubled)| {
                    buffers.clear();
                    buffers.solve(proved::solve, doubled);
                },
            ],
        );
        let line = line(&format!("price, {family}"), ours, theirs);
        let ratio = ours / solved;
        println!("{line}   doubled and solved {solved:9.1} us   ratio {ratio:5.2}");
    }
}

fn main() {
    graph_readers();
    number_readers();
    subgraph_readers();
    tidies();
    assignments();
    measures();
    indexes();
    solvers();
    prices();
}
