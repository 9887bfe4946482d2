//! The readers of graphs, numbers and subgraphs on small texts in which one number has each form, and several have any.

use crate::calls::readers::{read_graphs, read_numbers, read_subgraphs, Read};
use crate::drawing::forms::{Form, Role};
use crate::drawing::sorts::{Content, Sort};
use crate::drawing::texts::joined;
use crate::harness::tally::{Seen, Tally};
use reference::{Random, What};
use std::fmt::Debug;

/// A form, and what it led to.
fn seen(form: Form, led_to: &Seen) -> Seen {
    Seen::Other(format!("{}: {led_to}", form.words()))
}

/// What a form of one number of a role must lead to; - alone, if the number is not 0.
fn demanded(sort: Sort, role: Role, form: Form) -> Seen {
    let led_to = match (form, role, sort) {
        (Form::Plain, _, _) => Seen::Result,
        (Form::Minus, Role::Signed, Sort::Bounds) => Seen::Refusal(10),
        (Form::Minus, Role::Signed, Sort::Prices) => Seen::Refusal(13),
        (Form::Minus, Role::Signed, _) => Seen::Result,
        (_, Role::Size, _) => Seen::Refusal(3),
        (_, Role::Index | Role::Signed, _) => Seen::Refusal(5),
    };
    seen(form, &led_to)
}

fn note<T: Debug>(tally: &mut Tally, form: Option<Form>, read: &Read<T>, text: &[u8]) {
    let led_to = Seen::of(&read.expected);
    let all = match form {
        Some(form) => seen(form, &led_to),
        None => led_to,
    };
    tally.note(&[all], read.agreed, || read.shown(text));
}

/// Compares the readings of a text; `form` is that of its only number that need not be plain.
fn compare_one(random: &mut Random, content: &Content, form: Option<Form>, tally: &mut Tally) {
    let lines = content.draft.lines(random);
    let text = joined(random, &lines);
    let (g, count) = (content.graph.lend(), content.count);
    let numbers = |what| read_numbers(&text, count, what, count as usize);
    match content.sort {
        Sort::Graph => note(tally, form, &read_graphs(&text, [1024; 3]), &text),
        Sort::Bounds => note(tally, form, &numbers(What::Bounds), &text),
        Sort::Prices => note(tally, form, &numbers(What::Prices), &text),
        Sort::Subgraph => {
            let read = read_subgraphs(&text, &g, g.edges as usize);
            note(tally, form, &read, &text);
        }
    }
}

/// Texts in which one number of a role has a form, `times` for each form.
fn compare_forms(random: &mut Random, sort: Sort, role: Role, times: u64) -> bool {
    let name = format!("forms of {} in {}", role.words(), sort.words());
    let mut tally = Tally::new(name);
    for form in Form::ALL {
        for _ in 0..times {
            let content = Content::in_form(random, sort, role, form);
            compare_one(random, &content, Some(form), &mut tally);
        }
    }
    let all = Form::ALL.map(|form| demanded(sort, role, form));
    tally.report_all(times, &all)
}

/// Texts in which one to three numbers have any form, or many have forms of the old rules.
fn compare_several(random: &mut Random, sort: Sort, times: u64) -> bool {
    let mut tally = Tally::new(format!("several forms in {}", sort.words()));
    for at in 0..times {
        let mut content = Content::small(random, sort);
        let draft = content.draft;
        content.draft = match at % 2 {
            0 => draft.with_other_forms(random, 1),
            _ => draft.in_old_forms(random, 6),
        };
        compare_one(random, &content, None, &mut tally);
    }
    tally.report(times, &[3, 5])
}

/// Compares `times` texts for each form of each role in each sort of text, and ten times as many of each sort with several forms; true for each comparison in which the two programs agreed.
pub fn compare(seed: u64, times: u64) -> Vec<bool> {
    let mut random = Random::new(seed);
    let mut results = Vec::new();
    for sort in Sort::ALL {
        for &role in sort.roles() {
            results.push(compare_forms(&mut random, sort, role, times));
        }
        results.push(compare_several(&mut random, sort, 10 * times));
    }
    results
}
