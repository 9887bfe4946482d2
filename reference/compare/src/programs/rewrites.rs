//! The built program `rewrite`, on many texts, beside the separately written program; what it wrote is rewritten again, and read by the proved readers.

use crate::calls::readings::{Readings, NEW_RULES, OLD_RULES, PROVED};
use crate::drawing::old_texts::{all, OldText};
use crate::harness::files::{Entry, Held, Named, OLD};
use crate::harness::runs::{Built, Printed, REWRITE};
use crate::harness::tally::Note;
use crate::programs::old_situations::{demanded, notes};
use crate::programs::twice::{self, Twice};
use reference::graph::MOST_OLD_PRICE;
use reference::read::MOST_NUMBERS;
use reference::rewrite::{own_graph, CANNOT_READ};
use reference::{read_numbers_by, rewrite, Graph, OwnedGraph, Rules, What};
use std::io;

/// The count with which the old or the new rules take a text as prices, and so the only one with which they may take it as bounds.
fn count_of(text: &[u8]) -> Option<u32> {
    let mut out = vec![0; MOST_NUMBERS as usize];
    (1..=MOST_NUMBERS).find(|&count| {
        let out = &mut out[..count as usize];
        let mut taken = |rules| read_numbers_by(rules, text, count, What::Prices, out).is_ok();
        taken(Rules::Old) || taken(Rules::New)
    })
}

/// A run of `rewrite` on a text, and what is expected of it.
pub struct Rewriting<'a> {
    old: &'a OldText,
    /// The graph that the text names, if it is a subgraph's.
    own: Option<OwnedGraph>,
    /// The counts with which the text is read as bounds and as prices.
    counts: Vec<u32>,
    expected: Vec<u8>,
    /// What the old rules give for the text.
    readings: Readings,
    notes: Vec<Note>,
}

impl<'a> Rewriting<'a> {
    /// What is expected for a text.
    pub fn new(old: &'a OldText) -> Rewriting<'a> {
        let text = old.text();
        let own = own_graph(text).filter(|own| own.row.len() <= 1024);
        let drawn = old.content.iter().map(|content| content.count.max(1));
        let counts: Vec<_> = drawn.chain(count_of(text)).collect();
        let read = |readers| Readings::of(readers, text, &counts, &graphs(old, &own));
        let readings = read(&OLD_RULES);
        let expected = rewrite(text);
        let notes = notes(old, [&readings, &read(&NEW_RULES)], &expected);
        Rewriting {
            old,
            own,
            counts,
            expected,
            readings,
            notes,
        }
    }

    /// What the proved readers give for a text, read as this one is.
    fn proved_readings(&self, text: &[u8]) -> Readings {
        Readings::of(&PROVED, text, &self.counts, &graphs(self.old, &self.own))
    }
}

impl Twice for Rewriting<'_> {
    const PROGRAM: &'static str = REWRITE;

    fn name(&self) -> &str {
        &self.old.name
    }

    fn files(&self) -> Named<'_> {
        vec![(OLD, &self.old.entry)]
    }

    fn files_again(&self, written: Vec<u8>) -> Held {
        vec![(OLD, Entry::Text(written))]
    }

    fn notes(&self) -> &[Note] {
        &self.notes
    }

    fn judge_output(&self, left: &Printed, again: &Printed) -> Result<(), String> {
        if left.out != self.expected {
            let expected = String::from_utf8_lossy(&self.expected);
            return Err(format!("expected {expected:?}"));
        }
        if again.out != left.out {
            return Err(format!("rewritten again: {}", again.shown()));
        }
        let taken = left.out != CANNOT_READ;
        if taken != self.readings.any_taken() {
            return Err(format!("by the old rules: {:?}", self.readings));
        }
        if taken && self.proved_readings(&left.out) != self.readings {
            return Err("it reads otherwise than before".into());
        }
        let as_it_stands = self.proved_readings(self.old.text());
        if as_it_stands.has_price_above(MOST_OLD_PRICE) {
            return match taken {
                true => Err("it has a price that the old rules refuse".into()),
                false => Ok(()),
            };
        }
        if left.out != self.old.text() && as_it_stands.any_taken() {
            return Err("it was taken as it stood".into());
        }
        Ok(())
    }
}

/// The graphs with which a text is read as a subgraph.
fn graphs<'a>(old: &'a OldText, own: &'a Option<OwnedGraph>) -> Vec<Graph<'a>> {
    let drawn = old.content.iter().map(|content| content.graph.lend());
    drawn.chain(own.iter().map(OwnedGraph::lend)).collect()
}

/// Compares `rewrite` on the texts of the examples and on many others, of which `count` are drawn. True for each comparison that saw all it must see and in which nothing was wrong.
pub fn compare(seed: u64, count: usize, built: &Built) -> io::Result<Vec<bool>> {
    let texts = all(seed, count);
    let runs = texts.iter().map(Rewriting::new).collect();
    twice::compare(runs, &demanded(), built)
}
