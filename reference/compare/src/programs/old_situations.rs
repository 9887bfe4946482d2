//! The situations in which `rewrite` is compared, and those that must be seen.

use crate::calls::readings::Readings;
use crate::drawing::examples::{self, file_name};
use crate::drawing::forms::Form;
use crate::drawing::noise::{besides_numbers, words, BESIDES};
use crate::drawing::old_texts::OldText;
use crate::drawing::sorts::{Content, Sort};
use crate::harness::tally::{other, sort_of_graph, Note, Seen};
use crate::programs::situations::{unusual, UNUSUAL};
use reference::rewrite::CANNOT_READ;
use reference::Kind;

const UNCHANGED: &str = "nothing to rewrite";
const OTHERWISE: &str = "taken, but as prices or of another graph";
const BEYOND_OLD: &str = "cannot read, but the number reader takes it";

const ONE_FORM: &str = "rewrite, one number in each form";

const FORMS: &str = "rewrite, numbers written anew";
const ZEROS: &str = "leading zeros";
const PLUS: &str = "+";
const MINUS_ZERO: &str = "-0";
const MINUS_ZEROS: &str = "- and leading zeros";

const COPIED: &str = "rewrite, bytes that are copied";

const FILES: &str = "rewrite, unusual files";
const TOO_LONG_LINE: &str = "lines of 1,025 bytes, refused";
const EXAMPLES: &str = "rewrite, the examples";

/// The comparison of the texts of a sort.
fn name_of(sort: Sort) -> String {
    format!("rewrite, {}", sort.words())
}

/// What a text of a sort shows. `old` and `new` say how the old and the new rules read it.
fn of_sort(content: &Content, [old, new]: [&Readings; 2], taken: bool, unchanged: bool) -> Note {
    let drawn = old.seen(content.sort);
    let mut seen = Vec::new();
    if taken && drawn == Seen::Result {
        let graph = &content.graph;
        seen.push(sort_of_graph(graph.kind, graph.is_largest()));
        seen.push(drawn);
        if unchanged {
            seen.push(other(UNCHANGED));
        }
    } else if taken {
        seen.push(other(OTHERWISE));
    } else {
        seen.push(drawn);
        if new.seen(content.sort) == Seen::Result {
            seen.push(other(BEYOND_OLD));
        }
    }
    (name_of(content.sort), seen)
}

/// What one number in a form led to.
fn of_form(form: Form, taken: bool) -> Seen {
    let led_to = if taken { "taken" } else { "cannot read" };
    other(format!("{}: {led_to}", form.words()))
}

/// Whether the old rules take some numbers in a form, and whether they refuse some.
fn taken_and_refused(form: Form) -> [bool; 2] {
    match form {
        Form::Plain | Form::Zeros => [true, false],
        Form::Plus | Form::PlusZeros | Form::PlusZero => [true, true],
        Form::Minus | Form::MinusZeros | Form::MinusZero => [true, true],
        Form::TooManyZeros | Form::TenDigits | Form::SignAlone | Form::TwoSigns => [false, true],
        Form::SignAfter | Form::OtherByte | Form::LeftOut => [false, true],
    }
}

/// The form of a number that is rewritten.
fn form(word: &[u8]) -> &'static str {
    match word {
        [b'+', ..] => PLUS,
        [b'-', digits @ ..] if digits.iter().all(|&digit| digit == b'0') => MINUS_ZERO,
        [b'-', ..] => MINUS_ZEROS,
        _ => ZEROS,
    }
}

fn on_line(form: &str, is_size_line: bool) -> Seen {
    other(match is_size_line {
        true => format!("{form} on size lines"),
        false => format!("{form} on later lines"),
    })
}

/// The forms of the numbers that are rewritten.
fn forms(text: &[u8], rewritten: &[u8]) -> Vec<Seen> {
    let lines = |text| <[u8]>::split(text, |&byte| byte == b'\n');
    let numeric = lines(text).zip(lines(rewritten));
    let numeric = numeric.filter(|(line, _)| !line.starts_with(b"%") && words(line).count() > 0);
    let mut seen = Vec::new();
    for (at, (old, new)) in numeric.enumerate() {
        let changed = words(old).zip(words(new)).filter(|(old, new)| old != new);
        seen.extend(changed.map(|(old, _)| on_line(form(old), at == 0)));
    }
    seen.sort();
    seen.dedup();
    seen
}

/// What a text shows, by how the old and the new rules read it and by what is printed for it.
pub fn notes(one: &OldText, readings: [&Readings; 2], rewritten: &[u8]) -> Vec<Note> {
    let text = one.text();
    let taken = rewritten != CANNOT_READ;
    let mut notes = Vec::new();
    match &one.content {
        Some(content) => notes.push(of_sort(content, readings, taken, text == rewritten)),
        None => notes.push((EXAMPLES.into(), vec![other(file_name(&one.name))])),
    }
    if let Some(form) = one.form {
        notes.push((ONE_FORM.into(), vec![of_form(form, taken)]));
    }
    if taken && text != rewritten {
        notes.push((FORMS.into(), forms(text, rewritten)));
        notes.push((COPIED.into(), besides_numbers(text)));
    }
    if let Some(thing) = unusual(&one.entry, taken) {
        notes.push((FILES.into(), vec![other(thing)]));
    }
    let mut lines = text.split(|&byte| byte == b'\n');
    if !taken && text.len() <= 32_768 && lines.any(|line| line.len() == 1025) {
        notes.push((FILES.into(), vec![other(TOO_LONG_LINE)]));
    }
    notes
}

/// What must be seen of a sort of text.
fn demanded_of(sort: Sort) -> Vec<Seen> {
    let refusals: &[u32] = match sort {
        Sort::Graph => &[1, 2, 3, 4, 5, 6, 7, 8],
        Sort::Bounds => &[1, 2, 3, 4, 5, 10],
        Sort::Prices => &[1, 2, 3, 4, 5, 13],
        Sort::Subgraph => &[1, 2, 3, 4, 5, 6, 8],
    };
    let mut seen = vec![Seen::Result, other(UNCHANGED)];
    seen.extend(refusals.iter().map(|&number| Seen::Refusal(number)));
    for kind in [Kind::Bipartite, Kind::General] {
        seen.extend([false, true].map(|full| sort_of_graph(kind, full)));
    }
    if matches!(sort, Sort::Bounds | Sort::Subgraph) {
        seen.push(other(OTHERWISE));
    }
    if sort == Sort::Prices {
        seen.push(other(BEYOND_OLD));
    }
    seen
}

/// All that must be seen, by the names of the comparisons.
pub fn demanded() -> Vec<Note> {
    let sorts = Sort::ALL.into_iter();
    let mut demanded: Vec<_> = sorts
        .map(|sort| (name_of(sort), demanded_of(sort)))
        .collect();
    let forms = Form::ALL.into_iter().flat_map(|form| {
        let [taken, refused] = taken_and_refused(form);
        let taken = taken.then(|| of_form(form, true));
        taken
            .into_iter()
            .chain(refused.then(|| of_form(form, false)))
    });
    demanded.push((ONE_FORM.into(), forms.collect()));
    let mut forms = vec![on_line(ZEROS, true)];
    forms.extend([ZEROS, PLUS, MINUS_ZERO, MINUS_ZEROS].map(|form| on_line(form, false)));
    demanded.push((FORMS.into(), forms));
    demanded.push((COPIED.into(), BESIDES.map(other).into()));
    let mut files: Vec<_> = UNUSUAL.map(other).into();
    files.push(other(TOO_LONG_LINE));
    demanded.push((FILES.into(), files));
    let examples = examples::texts().into_iter();
    let examples = examples.map(|(name, _)| other(file_name(&name)));
    demanded.push((EXAMPLES.into(), examples.collect()));
    demanded
}
