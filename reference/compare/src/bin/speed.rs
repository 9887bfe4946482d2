//! Times the proved solver beside the separately written one, which goes by Bellman and Ford's method, and beside LEMON's network simplex, on
//! families of graphs from a fixed seed: `speed [--plain] [LEMON_PROGRAM [--all]]`. Totals of weight that differ end it with status 1.
//!
//! Of the first two the whole call is timed, with its tests of what is lent; its buffers are cleared and the index is made before. Of LEMON's,
//! building a network from the edges and running the simplex is timed, and the run by itself; no input is tested and no subgraph read out.
//! The table has the faster of LEMON's two networks; reference/lemon/simplex.cpp says what they are.
//!
//! A round goes over all families, since the machine may change its pace. In it every graph of a family is solved once untimed and then once
//! timed, by the first two in turn, and then so by LEMON's program; between a graph's two solvings the family's others are solved. A graph's
//! time is the median of its rounds, and a family's the median of its graphs.
//!
//! With `--plain` each line is a family and then, after tabs, the times of the first two, and of each network whole and run.

use compare::drawing::problems::{families, Buffers, Family, Problem, Solving};
use compare::harness::lemon::{self, NETWORKS};
use compare::harness::proved;
use compare::harness::timing::{median, microseconds};
use std::process::exit;

/// The graphs of a family.
const GRAPHS: usize = 100;

/// The seed of every family.
const SEED: u64 = 3;

/// How often each graph is timed.
const ROUNDS: usize = 11;

/// The width of the families' names in the table.
const NAMES: usize = 56;

/// The calls that are timed.
const CALLS: [(&str, Solving); 2] = [
    ("the proved solver", proved::solve),
    ("the Bellman-Ford program", reference::solve),
];

/// What is timed: the calls, and each network whole and run.
const TIMED: usize = CALLS.len() + 2 * NETWORKS.len();

/// A family's graphs, and what is known of each.
struct Measuring<'a> {
    family: &'a Family,
    problems: Vec<Problem>,
    /// The total weight that was found first for each graph.
    totals: Vec<Option<i64>>,
    /// For each that is timed, and for each graph, the times of all rounds.
    times: [Vec<Vec<f64>>; TIMED],
}

impl Measuring<'_> {
    fn new(family: &Family) -> Measuring<'_> {
        Measuring {
            family,
            problems: family.problems(SEED, GRAPHS),
            totals: vec![None; GRAPHS],
            times: [(); TIMED].map(|_| vec![Vec::new(); GRAPHS]),
        }
    }

    /// Compares a total weight with the one that was found first.
    fn compare(&mut self, graph: usize, total: i64, solver: &str) -> Result<(), String> {
        let first = *self.totals[graph].get_or_insert(total);
        if total == first {
            return Ok(());
        }
        let (family, number) = (self.family, graph + 1);
        Err(format!(
            "{family}, graph {number}: the total is {total} by {solver}, and {first} before"
        ))
    }

    /// Solves each graph by both calls, every other graph by the second one first, and hands back the times.
    fn call(&mut self, round: usize, buffers: &mut Buffers) -> Result<Vec<[f64; 2]>, String> {
        let mut all = vec![[0.0; 2]; GRAPHS];
        for (graph, times) in all.iter_mut().enumerate() {
            for turn in 0..2 {
                let timed = (round + graph + turn) % 2;
                let (name, solver) = CALLS[timed];
                let problem = &self.problems[graph];
                buffers.clear();
                times[timed] = microseconds(|| buffers.solve(solver, problem));
                self.compare(graph, buffers.total(problem), name)?;
            }
        }
        Ok(all)
    }

    /// Solves each graph by LEMON's program.
    fn run(&mut self, command: &[String]) -> Result<(), String> {
        let solved = lemon::solve(command, &self.problems);
        let solved = solved.map_err(|error| format!("{}: {error}", command[0]))?;
        for (graph, networks) in solved.into_iter().enumerate() {
            for (at, simplex) in networks.into_iter().enumerate() {
                self.compare(graph, simplex.total, &format!("LEMON's {}", NETWORKS[at]))?;
                let timed = CALLS.len() + 2 * at;
                self.times[timed][graph].push(simplex.whole);
                self.times[timed + 1][graph].push(simplex.run);
            }
        }
        Ok(())
    }

    fn round(&mut self, round: usize, command: &[String]) -> Result<(), String> {
        let mut buffers = Buffers::default();
        self.call(round, &mut buffers)?;
        for (graph, times) in self.call(round, &mut buffers)?.into_iter().enumerate() {
            for (timed, time) in times.into_iter().enumerate() {
                self.times[timed][graph].push(time);
            }
        }
        if command.is_empty() {
            return Ok(());
        }
        self.run(command)
    }

    /// The family's times.
    fn medians(self) -> Vec<f64> {
        let timed = self.times.into_iter().filter(|of| !of[0].is_empty());
        timed.map(|of| median(of.into_iter().map(median))).collect()
    }
}

/// The times of each family: those of the calls, and with LEMON's program all.
fn measure(families: &[Family], command: &[String]) -> Result<Vec<Vec<f64>>, String> {
    let mut all: Vec<_> = families.iter().map(Measuring::new).collect();
    for round in 0..ROUNDS {
        for measuring in &mut all {
            measuring.round(round, command)?;
        }
    }
    Ok(all.into_iter().map(Measuring::medians).collect())
}

/// What the table's numbers are.
fn legend() -> String {
    format!(
        "\
Times are medians of {GRAPHS} graphs in microseconds, each graph's the median of {ROUNDS} rounds; behind a time stands the proved solver's ratio to it.
Weights are from -1000000 to 1000000 and bounds from 1 to 4 where no others are named.
proved, Bellman-Ford: the whole call, with its tests; the buffers are cleared and the index is made before.
LEMON: building the network of the edges of positive weight, with --all of all edges, and running the simplex; its run: without the building.
"
    )
}

/// The first line of the table.
fn head(with_lemon: bool) -> String {
    let calls = format!("{:<NAMES$}{:>8}{:>14}", "", "proved", "Bellman-Ford");
    let lemon = format!("{:>14}{:>14}  network", "LEMON", "its run");
    calls + if with_lemon { &lemon } else { "" }
}

/// A line of the table, with the faster of LEMON's networks.
fn line(family: &Family, times: &[f64]) -> String {
    let (calls, networks) = times.split_at(CALLS.len());
    let proved = calls[0];
    let beside = |time: f64| format!("{time:8.1} {:5.2}", proved / time);
    let line = format!("{family:<NAMES$}{proved:8.1}{}", beside(calls[1]));
    let networks = networks.chunks(2).zip(NETWORKS);
    match networks.min_by(|one, other| one.0[0].total_cmp(&other.0[0])) {
        Some((times, name)) => line + &beside(times[0]) + &beside(times[1]) + "  " + name,
        None => line,
    }
}

/// A line to be read by a program.
fn plain_line(family: &Family, times: &[f64]) -> String {
    let times: String = times.iter().map(|time| format!("\t{time:.2}")).collect();
    format!("{family}{times}")
}

fn show_all(plain: bool, command: &[String]) -> Result<(), String> {
    let families = families();
    let times = measure(&families, command)?;
    if !plain {
        println!("{}\n{}", legend(), head(!command.is_empty()));
    }
    let line = if plain { plain_line } else { line };
    for (family, times) in families.iter().zip(&times) {
        println!("{}", line(family, times));
    }
    if !plain {
        println!("\nThe totals of weight are equal on every graph.");
    }
    Ok(())
}

fn main() {
    let arguments: Vec<String> = std::env::args().skip(1).collect();
    let (plain, command) = match arguments.split_first() {
        Some((word, command)) if word == "--plain" => (true, command),
        _ => (false, arguments.as_slice()),
    };
    if command.first().is_some_and(|word| word.starts_with("--")) {
        eprintln!("speed [--plain] [LEMON_PROGRAM [--all]]");
        exit(2);
    }
    if let Err(fault) = show_all(plain, command) {
        eprintln!("{fault}");
        exit(1);
    }
}
