//! LEMON's network simplex, a program of its own: reference/lemon/simplex.cpp.

use crate::drawing::problems::Problem;
use std::io::{self, Write};
use std::process::{Command, Stdio};

/// The networks that the program makes of a problem.
pub const NETWORKS: [&str; 2] = ["circulation", "supplies"];

/// What the program says of one of a problem's networks.
#[derive(Clone, Copy, Debug, PartialEq)]
pub struct Simplex {
    /// The total weight of the edges that it chose.
    pub total: i64,
    /// The microseconds that building the network and running the simplex took.
    pub whole: f64,
    /// The microseconds of the run by itself.
    pub run: f64,
}

/// The problems as the program reads them, one after the other: rows, columns and edges, then row, column and weight of each edge, then the bounds.
fn text(problems: &[Problem]) -> String {
    let mut text = String::new();
    for Problem { graph, bound, .. } in problems {
        text += &graph.lines();
        for bound in bound {
            text += &format!("{bound}\n");
        }
    }
    text
}

/// What a line of the program says.
fn read(line: &str) -> Option<[Simplex; NETWORKS.len()]> {
    let words: Vec<_> = line.split(' ').collect();
    let simplexes = words.chunks(3).map(|words| match words {
        [total, whole, run] => Some(Simplex {
            total: total.parse().ok()?,
            whole: whole.parse().ok()?,
            run: run.parse().ok()?,
        }),
        _ => None,
    });
    let simplexes: Option<Vec<_>> = simplexes.collect();
    simplexes?.try_into().ok()
}

/// Has the program, which is lent with its arguments, solve the problems. It reads them all before it writes anything.
pub fn solve(
    command: &[String],
    problems: &[Problem],
) -> io::Result<Vec<[Simplex; NETWORKS.len()]>> {
    let mut child = Command::new(&command[0])
        .args(&command[1..])
        .stdin(Stdio::piped())
        .stdout(Stdio::piped())
        .spawn()?;
    let mut input = child.stdin.take().expect("it is piped");
    input.write_all(text(problems).as_bytes())?;
    drop(input);
    let output = child.wait_with_output()?;
    let lines = String::from_utf8_lossy(&output.stdout);
    let solved: Option<Vec<_>> = lines.lines().map(read).collect();
    match solved {
        Some(solved) if output.status.success() && solved.len() == problems.len() => Ok(solved),
        _ => Err(io::Error::other("it did not solve every graph")),
    }
}
