//! Running the built programs.

use crate::harness::files::{write_folder, Named, NAMES, PROBLEM};
use reference::programs::{mark_files, solve_files, Refused};
use reference::Files;
use std::fmt::Display;
use std::fs;
use std::io;
use std::path::{Path, PathBuf};
use std::process::{self, Command, Stdio};
use std::sync::atomic::{AtomicUsize, Ordering};
use std::thread;

/// How many programs run at a time.
const THREADS: usize = 2;

/// The name of the program that writes the numbers of an old text in the one way.
pub const REWRITE: &str = "rewrite";

/// The name of the program that writes the tidy text of a sheet.
pub const TIDY: &str = "tidy";

/// The name of the program that writes a sheet as an assignment.
pub const TO_DIMACS: &str = "to_dimacs";

/// The name of the program that writes an assignment as a sheet.
pub const FROM_DIMACS: &str = "from_dimacs";

/// The name of the program that writes prices of a one-sided sheet.
pub const PRICE_TANKS: &str = "price_tanks";

/// The name of the program that measures a plan against prices.
pub const MARK: &str = "mark";

/// The names of all programs.
const PROGRAMS: &[&str] = &[
    "solve",
    MARK,
    REWRITE,
    TIDY,
    TO_DIMACS,
    FROM_DIMACS,
    PRICE_TANKS,
];

/// A program on a graph and its bounds that is run once.
#[derive(Clone, Copy, Debug, PartialEq, Eq)]
pub enum Program {
    Solve,
    Mark,
}

impl Program {
    /// The name of the built program.
    pub fn name(self) -> &'static str {
        match self {
            Program::Solve => "solve",
            Program::Mark => MARK,
        }
    }

    /// The names of the files that it reads, in order.
    pub fn reads(self) -> &'static [&'static str] {
        match self {
            Program::Solve => &PROBLEM,
            Program::Mark => &NAMES,
        }
    }

    /// What the separately written program gives.
    pub fn expected(self, files: &Files) -> Result<Vec<u8>, Refused> {
        match self {
            Program::Solve => solve_files(files),
            Program::Mark => mark_files(files),
        }
    }
}

/// What a run left behind.
#[derive(Clone, Debug, PartialEq, Eq)]
pub struct Printed {
    /// Standard output.
    pub out: Vec<u8>,
    /// Standard error.
    pub err: Vec<u8>,
    /// The exit status; none if the run was ended by a signal.
    pub status: Option<i32>,
}

impl Printed {
    /// Whether the run ended as it must, without a word on standard error; if not, how.
    pub fn ended_well(&self) -> Result<(), String> {
        if self.status == Some(0) && self.err.is_empty() {
            return Ok(());
        }
        let error = String::from_utf8_lossy(&self.err);
        Err(format!("status {:?}, error {error:?}", self.status))
    }

    /// The beginning of standard output, to be shown.
    pub fn shown(&self) -> String {
        let beginning = &self.out[..self.out.len().min(300)];
        format!("{:?}", String::from_utf8_lossy(beginning))
    }
}

/// The name of a program, and what stands in the folder in which it is to run.
pub type Start<'a> = (&'static str, Named<'a>);

/// An error that says what it is about.
fn about(what: impl Display, error: io::Error) -> io::Error {
    io::Error::new(error.kind(), format!("{what}: {error}"))
}

/// A temporary folder, removed in the end.
struct Room(PathBuf);

impl Room {
    fn new() -> io::Result<Room> {
        let name = format!("jangoripu-programs-{}", process::id());
        let room = Room(std::env::temp_dir().join(name));
        fs::create_dir(&room.0)?;
        Ok(room)
    }
}

impl Drop for Room {
    fn drop(&mut self) {
        if let Err(error) = fs::remove_dir_all(&self.0) {
            eprintln!("{} is left: {error}", self.0.display());
        }
    }
}

/// The built programs, run as they are or under valgrind.
pub struct Built {
    folder: PathBuf,
    /// Whether they are run under valgrind.
    pub valgrind: bool,
}

impl Built {
    /// The programs in a folder; an error if one is not there.
    pub fn new(folder: &Path, valgrind: bool) -> io::Result<Built> {
        for program in PROGRAMS {
            let path = folder.join(program);
            fs::metadata(&path).map_err(|error| about(path.display(), error))?;
        }
        Ok(Built {
            folder: folder.canonicalize()?,
            valgrind,
        })
    }

    /// The same programs, run as they are.
    pub fn without_valgrind(&self) -> Built {
        Built {
            folder: self.folder.clone(),
            valgrind: false,
        }
    }

    fn command(&self, program: &str) -> Command {
        let path = self.folder.join(program);
        if !self.valgrind {
            return Command::new(path);
        }
        let mut command = Command::new("valgrind");
        command.args(["--error-exitcode=99", "-q"]).arg(path);
        command
    }

    /// Runs a program in a folder made for it.
    fn run(&self, (program, files): &Start, path: &Path) -> io::Result<Printed> {
        write_folder(path, files)?;
        let mut command = self.command(program);
        command.current_dir(path).stdin(Stdio::null());
        let output = command
            .output()
            .map_err(|error| about(format!("{command:?}"), error))?;
        Ok(Printed {
            out: output.stdout,
            err: output.stderr,
            status: output.status.code(),
        })
    }

    /// Runs each program in its folder, some at a time; what they leave behind is in the same order.
    pub fn run_all(&self, runs: &[Start]) -> io::Result<Vec<Printed>> {
        let room = Room::new()?;
        let next = AtomicUsize::new(0);
        let work = |path: PathBuf| -> io::Result<Vec<(usize, Printed)>> {
            let mut done = Vec::new();
            loop {
                let at = next.fetch_add(1, Ordering::Relaxed);
                let Some(start) = runs.get(at) else {
                    return Ok(done);
                };
                done.push((at, self.run(start, &path)?));
            }
        };
        let mut done = Vec::new();
        thread::scope(|scope| -> io::Result<()> {
            let paths = (0..THREADS).map(|thread| room.0.join(thread.to_string()));
            let threads: Vec<_> = paths.map(|path| scope.spawn(|| work(path))).collect();
            for thread in threads {
                done.extend(thread.join().expect("a thread that ends")?);
            }
            Ok(())
        })?;
        done.sort_by_key(|&(at, _)| at);
        Ok(done.into_iter().map(|(_, printed)| printed).collect())
    }
}
