//! Tidying a graph, on graphs of both kinds in any order; and what a tidy text says, by the proved calls joined.

use crate::calls::readers::subgraph_text;
use crate::drawing::graphs::{digits, weight, Lent};
use crate::harness::lending::{
    lengths, lent_of, wrong_length, wrong_outputs, wrong_slices, Written, SORTS,
};
use crate::harness::proved;
use crate::harness::tally::{other, sort_of_graph, Seen, Tally};
use reference::tidy::SHEET_TEXT;
use reference::{Graph, Kind, Random, Refusal};
use std::collections::{BTreeMap, BTreeSet};

/// A call that tidies a graph, the proved one or the separately written one.
pub type Tidying = fn(&Graph, &mut [u8]) -> Result<usize, Refusal>;

/// The graph of 1,024 edges with the longest text, of a kind.
fn longest(random: &mut Random, kind: Kind) -> Lent {
    let mut lent = Lent::longest(random, kind, |row, column| digits(row) + digits(column));
    lent.weight.fill(-1_000_000);
    lent
}

/// A right graph of either kind: small, or now and then one with 128 vertices and 1,024 edges.
fn any(random: &mut Random) -> Lent {
    let kind = random.pick(&[Kind::Bipartite, Kind::General]);
    let mut lent = match random.below(200) {
        0 => return longest(random, kind),
        1 | 2 => Lent::largest(random, kind, 1024),
        _ => Lent::any(random),
    };
    lent.level(random);
    lent
}

const LONGEST: &str = "longest text";

/// What a right graph shows, with the length of its tidy text.
pub fn sorts_of(lent: &Lent, length: usize) -> Vec<Seen> {
    let mut seen = vec![sort_of_graph(lent.kind, lent.is_largest())];
    // 406 edges of six digits, and 618 of five.
    if length == 51 + 13 + 406 * 17 + 618 * 16 {
        seen.push(other(LONGEST));
    }
    seen
}

/// Tidies by both programs.
fn compare_one(random: &mut Random, tally: &mut Tally) {
    let sort = random.pick(&SORTS);
    let right = any(random);
    let (lent, long) = lent_of(random, sort, right);
    let g = lent.lend();
    let written = Written::by(&g, long, reference::tidy_graph, proved::tidy_graph);
    let mut seen = vec![Seen::of(&written.expected)];
    seen.extend(wrong_length(&lengths(&lent, long)));
    if let Ok(length) = written.expected {
        seen.extend(sorts_of(&lent, length));
    }
    tally.note(&seen, written.agreed, || {
        format!("{written:?} {sort:?} {lent:?} {long}")
    });
}

/// What a graph says, whatever the order of its edges: its kind and sizes, and the weight at each pair of ends.
#[derive(Clone, Debug, PartialEq, Eq)]
pub struct Said {
    kind: Kind,
    sizes: [u32; 3],
    weights: BTreeMap<(u32, u32), i32>,
}

impl Said {
    fn by(g: &Graph) -> Said {
        let ends = g.row.iter().copied().zip(g.column.iter().copied());
        Said {
            kind: g.kind,
            sizes: [g.rows, g.columns, g.edges],
            weights: ends.zip(g.weight.iter().copied()).collect(),
        }
    }

    /// What a text says, by the proved reader.
    pub fn by_text(text: &[u8]) -> Result<Said, Refusal> {
        Ok(Said::by(&read(text)?.lend()))
    }
}

/// A graph, by the proved reader.
pub fn read(text: &[u8]) -> Result<Lent, Refusal> {
    let (mut row, mut column, mut weight) = (vec![9; 1024], vec![9; 1024], vec![9; 1024]);
    let head = proved::read_graph(text, &mut row, &mut column, &mut weight)?;
    let places: Vec<_> = (0..head.edges as usize).collect();
    let whole = Lent {
        kind: head.kind,
        rows: head.rows,
        columns: head.columns,
        edges: head.edges,
        row,
        column,
        weight,
    };
    Ok(whole.in_order(&places))
}

/// The tidy text of a graph, by the proved call.
pub fn tidy(lent: &Lent) -> Result<Vec<u8>, Refusal> {
    let mut out = vec![9; SHEET_TEXT];
    let length = proved::tidy_graph(&lent.lend(), &mut out)?;
    out.truncate(length);
    Ok(out)
}

/// In what a graph differs from another.
#[derive(Clone, Copy, Debug, PartialEq, Eq)]
enum Change {
    Weight,
    Sign,
    Ends,
    Exchanged,
    Fewer,
    Rows,
    Columns,
    Kind,
}

const CHANGES: [Change; 8] = [
    Change::Weight,
    Change::Sign,
    Change::Ends,
    Change::Exchanged,
    Change::Fewer,
    Change::Rows,
    Change::Columns,
    Change::Kind,
];

impl Change {
    fn seen(self) -> Seen {
        other(match self {
            Change::Weight => "another weight",
            Change::Sign => "another sign",
            Change::Ends => "other ends of an edge",
            Change::Exchanged => "ends of two edges exchanged",
            Change::Fewer => "an edge less",
            Change::Rows => "a row more",
            Change::Columns => "a column more",
            Change::Kind => "another kind",
        })
    }

    /// A right graph that differs from a right graph in this; nothing if there is none at hand.
    fn of(self, random: &mut Random, lent: &Lent) -> Option<Lent> {
        let mut made = lent.clone();
        match self {
            Change::Weight => *any_weight(random, &mut made)? = weight(random),
            Change::Sign => {
                let one = any_weight(random, &mut made)?;
                *one = -*one;
            }
            Change::Ends => made = lent.moved(random)?,
            Change::Exchanged => made = lent.exchanged(random)?,
            Change::Fewer => made.lose_last_edge(),
            Change::Rows => made.rows += 1,
            Change::Columns => made.columns += 1,
            Change::Kind => {
                made.kind = match lent.kind {
                    Kind::Bipartite => Kind::General,
                    Kind::General => Kind::Bipartite,
                }
            }
        }
        if lent.kind == Kind::General {
            // Rows and columns are one number.
            let side = made.rows.max(made.columns);
            (made.rows, made.columns) = (side, side);
        }
        let differs = Said::by(&made.lend()) != Said::by(&lent.lend());
        let right = reference::tidy_graph(&made.lend(), &mut vec![0; SHEET_TEXT]).is_ok();
        (differs && right).then_some(made)
    }
}

/// The weight of any edge, if there is one.
fn any_weight<'a>(random: &mut Random, lent: &'a mut Lent) -> Option<&'a mut i32> {
    let at = random.below(lent.weight.len().max(1) as u64) as usize;
    lent.weight.get_mut(at)
}

/// Whether a tidy text of a graph is read as that graph, in its one order, and tidying it again, or tidying the graph in another order, gives the same; if not, why.
fn judge(random: &mut Random, lent: &Lent, text: &[u8]) -> Result<(), String> {
    let own = read(text).map_err(|refusal| format!("it is not read: {refusal:?}"))?;
    if Said::by(&own.lend()) != Said::by(&lent.lend()) {
        return Err("it says something else".into());
    }
    let ends: Vec<_> = own.row.iter().zip(&own.column).collect();
    if !ends.windows(2).all(|two| two[0] < two[1]) {
        return Err("its edges do not rise".into());
    }
    if tidy(&own).as_deref() != Ok(text) {
        return Err("tidied again it is another".into());
    }
    if tidy(&lent.shuffled(random)).as_deref() != Ok(text) {
        return Err("in another order it is another".into());
    }
    Ok(())
}

/// The pairs of ends that a text chooses of a graph, by the proved reader.
fn chosen_ends(text: &[u8], lent: &Lent) -> Result<BTreeSet<(u32, u32)>, Refusal> {
    let mut chosen = vec![9; lent.row.len()];
    proved::read_subgraph(text, &lent.lend(), &mut chosen)?;
    let places = (0..chosen.len()).filter(|&at| chosen[at] == 1);
    Ok(places.map(|at| (lent.row[at], lent.column[at])).collect())
}

/// The tallies of what a tidy text says.
struct Joined {
    read: Tally,
    changes: Tally,
    subgraphs: Tally,
}

impl Joined {
    fn new() -> Joined {
        Joined {
            read: Tally::new("tidy texts, read, tidied again and in another order"),
            changes: Tally::new("tidy texts of graphs that differ"),
            subgraphs: Tally::new("subgraphs of a graph and of the tidied one"),
        }
    }

    /// Compares what the proved calls give for a right graph and for its tidy text.
    fn compare(&mut self, random: &mut Random) {
        let lent = any(random);
        let text = tidy(&lent);
        let judged = match &text {
            Ok(text) => judge(random, &lent, text),
            Err(refusal) => Err(format!("{refusal:?}")),
        };
        let sorts = sorts_of(&lent, text.as_ref().map_or(0, Vec::len));
        let fault = judged.err();
        self.read.note(&sorts, fault.is_none(), || {
            format!("{} {lent:?}", fault.unwrap_or_default())
        });
        let change = random.pick(&CHANGES);
        if let Some(changed) = change.of(random, &lent) {
            let differs = tidy(&changed) != text;
            self.changes.note(&[change.seen()], differs, || {
                format!("{change:?} {lent:?} {changed:?}")
            });
        }
        if let Some(tidied) = text.ok().and_then(|text| read(&text).ok()) {
            let text = subgraph_text(random, &lent.lend());
            let [before, after] = [&lent, &tidied].map(|lent| chosen_ends(&text, lent));
            self.subgraphs.count(&before, before == after, || {
                let text = String::from_utf8_lossy(&text);
                format!("{before:?} {after:?} {lent:?} {text:?}")
            });
        }
    }

    fn report(&self, count: u64) -> Vec<bool> {
        vec![
            self.read.report_all(count, &all_sorts()),
            self.changes
                .report_all(count / 2, &CHANGES.map(Change::seen)),
            self.subgraphs.report(count, &[1, 2, 3, 4, 5, 6, 8, 17]),
        ]
    }
}

/// The sorts of graphs that must be seen.
fn all_sorts() -> Vec<Seen> {
    let mut seen = vec![other(LONGEST)];
    for kind in [Kind::Bipartite, Kind::General] {
        seen.extend([false, true].map(|full| sort_of_graph(kind, full)));
    }
    seen
}

/// Compares `count` tidyings, and as many tidy texts by the proved calls joined.
pub fn compare(seed: u64, count: u64) -> Vec<bool> {
    let mut random = Random::new(seed);
    let mut tidied = Tally::new("tidying a graph");
    let mut joined = Joined::new();
    for _ in 0..count {
        compare_one(&mut random, &mut tidied);
        joined.compare(&mut random);
    }
    let mut demanded = vec![Seen::Result];
    demanded.extend([4, 6, 7, 8, 9].map(Seen::Refusal));
    demanded.extend(wrong_slices(&["row", "column", "weight"]));
    demanded.extend(wrong_outputs());
    demanded.extend(all_sorts());
    let mut results = vec![tidied.report_all(count, &demanded)];
    results.extend(joined.report(count));
    results
}
