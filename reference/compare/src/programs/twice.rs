//! The built programs that write a text: each is run, and then it, or another one, is run on what it wrote.

use crate::harness::files::{named, Held, Named};
use crate::harness::runs::{Built, Printed};
use crate::harness::tally::{pick, Note, Tallies};
use std::io;

/// The number of runs under valgrind.
const UNDER_VALGRIND: usize = 80;

/// A run, and what is expected of it.
pub trait Twice {
    /// The name of the built program.
    const PROGRAM: &'static str;
    /// The name of the one that is run on what it wrote.
    const AGAIN: &'static str = Self::PROGRAM;

    /// What its folder is called where it is shown.
    fn name(&self) -> &str;

    /// What stands in its folder.
    fn files(&self) -> Named<'_>;

    /// What stands in the folder of the run on what it wrote.
    fn files_again(&self, written: Vec<u8>) -> Held;

    /// What the run shows.
    fn notes(&self) -> &[Note];

    /// Whether it, and the run on what it wrote, wrote what they must; if not, why.
    fn judge_output(&self, left: &Printed, again: &Printed) -> Result<(), String>;

    /// Whether the two runs left behind what they must; if not, why.
    fn judge(&self, left: &Printed, again: &Printed) -> Result<(), String> {
        left.ended_well()?;
        again.ended_well()?;
        self.judge_output(left, again)
    }

    /// Counts the two runs in every comparison that they belong to.
    fn count(&self, left: &Printed, again: &Printed, tallies: &mut Tallies) {
        let fault = self.judge(left, again).err();
        tallies.note(self.notes(), fault.is_none(), || {
            let fault = fault.clone().unwrap_or_default();
            let (program, name) = (Self::PROGRAM, self.name());
            let files = self.files().into_iter();
            let files = files.map(|(file, entry)| format!("\n  {file}: {}", entry.shown()));
            let (out, files) = (left.shown(), files.collect::<String>());
            format!("{program}: {fault}, printed {out}, {name}:{files}")
        });
    }
}

/// Compares these runs; under valgrind, only some of them, and those on what was written without it. True for each comparison that saw all it must see and in which nothing was wrong.
pub fn compare<R: Twice>(
    mut runs: Vec<R>,
    demanded: &[Note],
    built: &Built,
) -> io::Result<Vec<bool>> {
    if built.valgrind {
        let notes: Vec<_> = runs.iter().map(R::notes).collect();
        let mut picked = pick(&notes, UNDER_VALGRIND).into_iter();
        runs.retain(|_| picked.next() == Some(true));
    }
    let starts: Vec<_> = runs.iter().map(|run| (R::PROGRAM, run.files())).collect();
    let left = built.run_all(&starts)?;
    let held = runs.iter().zip(&left);
    let held: Vec<_> = held
        .map(|(run, left)| run.files_again(left.out.clone()))
        .collect();
    let starts: Vec<_> = held.iter().map(|held| (R::AGAIN, named(held))).collect();
    let again = built.without_valgrind().run_all(&starts)?;
    let mut tallies = Tallies::default();
    for (run, (left, again)) in runs.iter().zip(left.iter().zip(&again)) {
        run.count(left, again, &mut tallies);
    }
    Ok(tallies.report(demanded))
}
