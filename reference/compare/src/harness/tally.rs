//! Counting what was compared.

use reference::{Kind, Refusal};
use std::collections::BTreeMap;
use std::fmt;

/// What one comparison showed.
#[derive(Clone, Debug, PartialEq, Eq, PartialOrd, Ord)]
pub enum Seen {
    /// A result.
    Result,
    /// The refusal of this number.
    Refusal(u32),
    /// Something else, in words.
    Other(String),
}

impl Seen {
    /// What an answer shows.
    pub fn of<T>(answer: &Result<T, Refusal>) -> Seen {
        match answer {
            Ok(_) => Seen::Result,
            Err(refusal) => Seen::Refusal(refusal.number),
        }
    }
}

impl fmt::Display for Seen {
    fn fmt(&self, f: &mut fmt::Formatter) -> fmt::Result {
        match self {
            Seen::Result => write!(f, "results"),
            Seen::Refusal(number) => write!(f, "refusal {number}"),
            Seen::Other(words) => write!(f, "{words}"),
        }
    }
}

/// Something that is seen, in words.
pub fn other(words: impl Into<String>) -> Seen {
    Seen::Other(words.into())
}

/// The size and the kind of a graph, in words.
pub fn sort_of_graph(kind: Kind, full: bool) -> Seen {
    let size = if full { "full" } else { "small" };
    other(match kind {
        Kind::Bipartite => format!("{size} bipartite graphs"),
        Kind::General => format!("{size} general graphs"),
    })
}

/// How often each thing was seen, and how often the two programs disagreed.
pub struct Tally {
    name: String,
    compared: u64,
    seen: BTreeMap<Seen, u64>,
    disagreed: u64,
}

impl Tally {
    /// Nothing counted yet of a call or a situation.
    pub fn new(name: impl Into<String>) -> Tally {
        Tally {
            name: name.into(),
            compared: 0,
            seen: BTreeMap::new(),
            disagreed: 0,
        }
    }

    /// Counts one comparison that showed all of these; `show` describes its input if the two disagree.
    pub fn note(&mut self, seen: &[Seen], agreed: bool, show: impl FnOnce() -> String) {
        self.compared += 1;
        for one in seen {
            *self.seen.entry(one.clone()).or_default() += 1;
        }
        if !agreed {
            self.disagreed += 1;
            if self.disagreed <= 5 {
                println!("{}: disagreed on {}", self.name, show());
            }
        }
    }

    /// Counts one comparison of a call.
    pub fn count<T>(
        &mut self,
        expected: &Result<T, Refusal>,
        agreed: bool,
        show: impl FnOnce() -> String,
    ) {
        self.note(&[Seen::of(expected)], agreed, show);
    }

    /// Prints the counts; true if the two always agreed, at least `least`
    /// inputs were compared, and everything of `demanded` was seen.
    pub fn report_all(&self, least: u64, demanded: &[Seen]) -> bool {
        print!("{}: {} compared", self.name, self.compared);
        for (one, times) in &self.seen {
            print!(", {one}: {times}");
        }
        println!(", {} disagreed", self.disagreed);
        let missing = demanded.iter().filter(|&one| !self.seen.contains_key(one));
        let missing: Vec<_> = missing.map(Seen::to_string).collect();
        if !missing.is_empty() {
            println!("{}: never seen: {}", self.name, missing.join(", "));
        }
        self.disagreed == 0 && self.compared >= least && missing.is_empty()
    }

    /// The report of a call, of which a result and the refusals of these numbers are demanded.
    pub fn report(&self, least: u64, refusals: &[u32]) -> bool {
        let mut demanded = vec![Seen::Result];
        demanded.extend(refusals.iter().map(|&number| Seen::Refusal(number)));
        self.report_all(least, &demanded)
    }
}

/// The name of a comparison, and what is seen in it.
pub type Note = (String, Vec<Seen>);

/// Several comparisons, by their names.
#[derive(Default)]
pub struct Tallies {
    tallies: BTreeMap<String, Tally>,
}

impl Tallies {
    fn tally(&mut self, name: &str) -> &mut Tally {
        let tally = self.tallies.entry(name.into());
        tally.or_insert_with(|| Tally::new(name))
    }

    /// Counts something in every comparison that it belongs to; `show` describes it if it is not as it must be.
    pub fn note(&mut self, notes: &[Note], agreed: bool, show: impl Fn() -> String) {
        for (name, seen) in notes {
            self.tally(name).note(seen, agreed, &show);
        }
    }

    /// The reports of the comparisons, of which all these must be seen.
    pub fn report(&mut self, demanded: &[Note]) -> Vec<bool> {
        let reports = demanded.iter();
        let reports = reports.map(|(name, seen)| self.tally(name).report_all(1, seen));
        reports.collect()
    }
}

/// Everything that a run shows.
fn shown(notes: &[Note]) -> impl Iterator<Item = (&str, &Seen)> {
    let notes = notes.iter();
    notes.flat_map(|(name, seen)| seen.iter().map(move |one| (name.as_str(), one)))
}

/// Picks runs by their notes, at most so many, until everything that a run shows is shown by two.
fn pick_rare(runs: &[&[Note]], most: usize) -> Vec<bool> {
    let mut times: BTreeMap<(&str, &Seen), usize> = BTreeMap::new();
    let mut picked = vec![false; runs.len()];
    let mut count = 0;
    for enough in [1, 2] {
        for (run, is_picked) in runs.iter().zip(&mut picked) {
            let is_rare = |one| times.get(&one).copied().unwrap_or(0) < enough;
            if count < most && !*is_picked && shown(run).any(is_rare) {
                *is_picked = true;
                count += 1;
                for one in shown(run) {
                    *times.entry(one).or_default() += 1;
                }
            }
        }
    }
    picked
}

/// Whether each run is among `most` picked ones: those that show something rare, and others at even distances.
pub fn pick(runs: &[&[Note]], most: usize) -> Vec<bool> {
    let mut picked = pick_rare(runs, most);
    let others: Vec<_> = (0..runs.len()).filter(|&at| !picked[at]).collect();
    let wanted = most - (runs.len() - others.len());
    for number in 0..wanted.min(others.len()) {
        picked[others[number * others.len() / wanted]] = true;
    }
    picked
}

/// Ends a program of comparisons: prints how many were as they must be, and exits with status 1 if one was not.
pub fn finish(results: &[bool]) {
    let failed = results.iter().filter(|&&agreed| !agreed).count();
    println!("{} passed, {failed} failed", results.len() - failed);
    if failed > 0 {
        std::process::exit(1);
    }
}
