//! The built programs `solve` and `mark`, in many folders, beside the separately written program.

use crate::drawing::folders;
use crate::drawing::solved::Solved;
use crate::harness::files::Folder;
use crate::harness::runs::{Built, Printed, Program};
use crate::harness::tally::{pick, Note, Tallies};
use crate::programs::situations::{demanded, notes, Best};
use reference::brute::weight_of;
use reference::programs::{printed, Input, Refused};
use reference::{feasible_subgraphs, largest_weight, Files, Graph};
use std::io;

/// The most edges with which every subgraph is tried here.
const MOST_TRIED: u32 = 16;

/// The number of runs under valgrind.
const UNDER_VALGRIND: usize = 300;

/// How many subgraphs are optimal, found by trying every one.
fn count_best(g: &Graph, bound: &[i32]) -> Best {
    if g.edges > MOST_TRIED {
        return Best::Untried;
    }
    let largest = largest_weight(g, bound);
    let best = feasible_subgraphs(g, bound).filter(|x| weight_of(g, x) == largest);
    match best.take(2).count() {
        1 => Best::One,
        _ => Best::Several,
    }
}

/// Whether a subgraph is feasible and has the largest weight, the separately written solver's, and on a small graph also that of trying every subgraph; if not, why.
fn judge_weight(g: &Graph, bound: &[i32], best: &Solved, chosen: &[u8]) -> Result<(), String> {
    let (vertex, edge) = (&best.vertex, &best.edge);
    let measured = reference::measure(g, bound, chosen, vertex, edge, 0, &[], &[], &[])
        .map_err(|refusal| format!("the plan is not valid: {refusal:?}"))?;
    let largest = weight_of(g, &best.chosen);
    if measured.weight != largest || measured.gap != 0 {
        return Err(format!("merit {}, largest {largest}", measured.weight));
    }
    if g.edges <= MOST_TRIED && largest != largest_weight(g, bound) {
        return Err("a plan that was tried has more merit".into());
    }
    Ok(())
}

/// Whether a text is a valid plan of largest merit in the layout of the separately written writer; if not, why.
fn judge_plan(files: &Files, text: &[u8]) -> Result<(), String> {
    let input = Input::read(files).map_err(|refused| format!("{refused:?}"))?;
    let (g, bound) = (input.graph(), input.bound());
    let mut chosen = vec![0; g.edges as usize];
    reference::read_subgraph(text, &g, &mut chosen)
        .map_err(|refusal| format!("the plan does not read back: {refusal:?}"))?;
    let best = Solved::of(&g, bound).map_err(|refusal| format!("{refusal:?}"))?;
    judge_weight(&g, bound, &best, &chosen)?;
    let mut out = vec![0; 16_384];
    let length = reference::write_subgraph(&g, &chosen, &mut out);
    if length.map(|length| &out[..length]) != Ok(text) {
        return Err("the plan is not laid out as it must be".into());
    }
    Ok(())
}

/// A run of a program in a folder, and what is expected of it.
pub struct Run<'a> {
    program: Program,
    folder: &'a Folder,
    expected: Result<Vec<u8>, Refused>,
    /// How many plans are best, if a plan is expected.
    best: Option<Best>,
    notes: Vec<Note>,
}

impl<'a> Run<'a> {
    /// What is expected of a program in a folder.
    pub fn new(program: Program, folder: &'a Folder) -> Run<'a> {
        let files = folder.lend();
        let expected = program.expected(&files);
        let best = match (program, &expected, Input::read(&files)) {
            (Program::Solve, Ok(_), Ok(input)) => Some(count_best(&input.graph(), input.bound())),
            _ => None,
        };
        let notes = notes(program, folder, &expected, best);
        Run {
            program,
            folder,
            expected,
            best,
            notes,
        }
    }

    /// Whether a run left behind what it must; if not, why.
    pub fn judge(&self, left: &Printed) -> Result<(), String> {
        left.ended_well()?;
        if self.best.is_some() {
            judge_plan(&self.folder.lend(), &left.out)?;
        }
        let is_free = matches!(self.best, Some(Best::Several | Best::Untried));
        let expected = printed(&self.expected);
        if !is_free && left.out != expected {
            let expected = String::from_utf8_lossy(&expected);
            return Err(format!("expected {expected:?}"));
        }
        Ok(())
    }

    /// Counts a run in every comparison that it belongs to.
    fn count(&self, left: &Printed, tallies: &mut Tallies) {
        let fault = self.judge(left).err();
        tallies.note(&self.notes, fault.is_none(), || {
            let (program, fault) = (self.program.name(), fault.clone().unwrap_or_default());
            let (out, folder) = (left.shown(), self.folder.shown());
            format!("{program}: {fault}, printed {out}, {folder}")
        });
    }
}

/// Compares `solve` and `mark` in the examples and in many other folders, of which `count` are drawn; under valgrind, only some of these runs. True for each comparison that saw all it must see and in which nothing was wrong.
pub fn compare(seed: u64, count: usize, built: &Built) -> io::Result<Vec<bool>> {
    let folders = folders::all(seed, count);
    let both = [Program::Solve, Program::Mark];
    let runs = folders
        .iter()
        .flat_map(|folder| both.map(|program| Run::new(program, folder)));
    let mut runs: Vec<_> = runs.collect();
    if built.valgrind {
        let notes: Vec<_> = runs.iter().map(|run| run.notes.as_slice()).collect();
        let mut picked = pick(&notes, UNDER_VALGRIND).into_iter();
        runs.retain(|_| picked.next() == Some(true));
    }
    let starts = runs.iter();
    let starts = starts.map(|run| (run.program.name(), run.folder.named()));
    let left = built.run_all(&starts.collect::<Vec<_>>())?;
    let mut tallies = Tallies::default();
    for (run, left) in runs.iter().zip(&left) {
        run.count(left, &mut tallies);
    }
    Ok(tallies.report(&demanded()))
}
