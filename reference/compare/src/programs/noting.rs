//! What the runs of a program that writes a text show, by the names of the comparisons, and what must be seen of them.

use crate::drawing::examples::{self, is_example};
use crate::harness::files::{Entry, Folder};
use crate::harness::runs::Printed;
use crate::harness::tally::{other, Note, Seen};
use crate::programs::situations::{unusual, UNUSUAL};
use reference::programs::Refused;

/// The name of a comparison of a program.
fn name_of(program: &str, what: &str) -> String {
    format!("{program}, {what}")
}

/// The comparison of the texts that a program writes, with what they show.
pub fn texts(program: &str, seen: Vec<Seen>) -> Note {
    (name_of(program, "texts"), seen)
}

/// The comparison of the examples of a program.
pub fn examples(program: &str, names: impl Iterator<Item = impl Into<String>>) -> Note {
    (name_of(program, "the examples"), names.map(other).collect())
}

/// The comparison of a folder that is an example.
pub fn example(program: &str, folder: &Folder) -> Option<Note> {
    let name = is_example(&folder.name).then_some(&folder.name);
    name.map(|name| examples(program, [name].into_iter()))
}

/// The examples for programs that read a sheet.
pub fn all_examples(program: &str) -> Note {
    examples(program, examples::names().into_iter())
}

/// The comparison of what a program refuses with these numbers, by where that comes from.
pub fn refusals(program: &str, from: &str, numbers: &[u32]) -> Note {
    let numbers = numbers.iter().map(|&number| Seen::Refusal(number));
    let name = name_of(program, &format!("refused in {from}"));
    (name, numbers.collect())
}

/// What a text, of which this is shown, or a refusal shows.
pub fn outcome(
    program: &str,
    out: &Result<Vec<u8>, Refused>,
    shown: impl FnOnce() -> Vec<Seen>,
) -> Note {
    match out {
        Ok(_) => texts(program, shown()),
        Err(refused) => refusals(program, refused.from, &[refused.refusal.number]),
    }
}

/// The comparison of unusual files of a program.
fn of_files(program: &str, seen: Vec<Seen>) -> Note {
    (name_of(program, "unusual files"), seen)
}

/// Something unusual in a file's place.
fn in_place_of(file: &str, thing: &str) -> Seen {
    other(format!("{file}: {thing}"))
}

/// What is unusual about the files that a program reads, up to the one that it refuses.
pub fn unusual_files<'a>(
    program: &str,
    files: impl Iterator<Item = (&'static str, &'a Entry)>,
    out: &Result<Vec<u8>, Refused>,
) -> Option<Note> {
    let mut seen = Vec::new();
    for (file, entry) in files {
        let taken = !matches!(out, Err(refused) if refused.from == file);
        seen.extend(unusual(entry, taken).map(|thing| in_place_of(file, thing)));
        if !taken {
            break;
        }
    }
    (!seen.is_empty()).then(|| of_files(program, seen))
}

/// Unusual things that must be seen in the places of files.
pub fn things(program: &str, files: &[&str]) -> Note {
    let things = files.iter();
    let things = things.flat_map(|file| UNUSUAL.map(|thing| in_place_of(file, thing)));
    of_files(program, things.collect())
}

/// A text that a program must print; if it is another, why.
pub fn judge_text(left: &Printed, expected: &[u8], when: &str) -> Result<(), String> {
    if left.out == expected {
        return Ok(());
    }
    let expected = String::from_utf8_lossy(expected);
    Err(format!("{when}expected {expected:?}, not {}", left.shown()))
}
