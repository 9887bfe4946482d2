//! Assignments: a graph and its bounds written, texts read, right, damaged and with one flaw; and both joined, there and back.

use crate::calls::readers::Read;
use crate::drawing::assignment_texts::{flaws, Draft, Flaw};
use crate::drawing::forms::{Form, Role};
use crate::drawing::graphs::{digits, length, Lent};
use crate::harness::guard::Guarded;
use crate::harness::lending::{
    self, lent_of, wrong_length, wrong_outputs, wrong_slices, Written, SORTS,
};
use crate::harness::proved;
use crate::harness::tally::{other, sort_of_graph, Seen, Tally};
use reference::assignment::{ASSIGNMENT_BOUNDS, ASSIGNMENT_TEXT};
use reference::{Graph, Head, Kind, Random, Refusal};
use std::fmt::Debug;

/// A call that writes an assignment, the proved one or the separately written one.
pub type Writing = fn(&Graph, &[i32], &mut [u8]) -> Result<usize, Refusal>;

/// A call that reads an assignment.
pub type Reading =
    fn(&[u8], &mut [u32], &mut [u32], &mut [i32], &mut [i32]) -> Result<Head, Refusal>;

const LONGEST: &str = "longest text";
const ZERO: &str = "cost 0";
const NEGATIVE: &str = "costs below 0";
const POSITIVE: &str = "costs above 0";
const NO_EDGES: &str = "no edges";

/// A right bipartite graph: small, or now and then one with 128 vertices and 1,024 edges.
pub fn bipartite(random: &mut Random) -> Lent {
    let kind = Kind::Bipartite;
    let mut lent = match random.below(200) {
        0 => {
            let target = |column| digits(64 + column);
            let mut lent = Lent::longest(random, kind, |row, column| digits(row) + target(column));
            lent.weight.fill(1_000_000);
            return lent;
        }
        1 | 2 => Lent::largest(random, kind, 1024),
        _ => Lent::any_of(random, kind),
    };
    lent.level(random);
    lent
}

/// Whether a graph has the longest text: 1,024 arcs with a source of two digits, a target of three, and the longest cost.
fn is_longest(lent: &Lent) -> bool {
    let ends = |(&row, &column)| digits(row) + digits(lent.rows + column) == 5;
    lent.is_largest()
        && lent.row.iter().zip(&lent.column).all(ends)
        && lent.weight.iter().all(|&weight| weight == 1_000_000)
}

/// What a graph shows that goes out.
pub fn sorts_of(lent: &Lent) -> Vec<Seen> {
    let mut seen = vec![sort_of_graph(lent.kind, lent.is_largest())];
    let has = |is_such: fn(&i32) -> bool| lent.weight.iter().any(is_such);
    let shown = [
        (LONGEST, is_longest(lent)),
        (ZERO, has(|&weight| weight == 0)),
        (NEGATIVE, has(|&weight| weight > 0)),
        (POSITIVE, has(|&weight| weight < 0)),
        (NO_EDGES, lent.weight.is_empty()),
    ];
    let shown = shown.into_iter().filter(|&(_, is_shown)| is_shown);
    seen.extend(shown.map(|(words, _)| other(words)));
    seen
}

/// The sorts of graphs that must be seen.
pub fn all_sorts() -> Vec<Seen> {
    let mut seen: Vec<_> = [LONGEST, ZERO, NEGATIVE, POSITIVE, NO_EDGES]
        .map(other)
        .into();
    seen.extend([false, true].map(|full| sort_of_graph(Kind::Bipartite, full)));
    seen
}

/// Places from this one on, up to the next such range.
const PLACES: [(u64, &str); 4] = [(1, "1"), (2, "2 to 9"), (10, "10 to 99"), (100, "100 on")];

/// A refusal of a number, at places of this range.
fn refused_at(number: u32, places: &str) -> Seen {
    other(format!("{number} at {places}"))
}

/// Where a refusal was placed, unless at 0.
fn place_of<T>(answer: &Result<T, Refusal>) -> Option<Seen> {
    let refusal = answer.as_ref().err()?;
    let mut ranges = PLACES.iter().rev();
    let (_, places) = ranges.find(|(from, _)| refusal.place >= *from)?;
    Some(refused_at(refusal.number, places))
}

/// A refusal of each of these numbers in all ranges of places but the first so many.
fn all_places(numbers: &[(u32, usize)]) -> Vec<Seen> {
    let all = numbers.iter().flat_map(|&(number, first)| {
        let ranges = PLACES[first..].iter();
        ranges.map(move |(_, places)| refused_at(number, places))
    });
    all.collect()
}

/// Bounds other than 1, and what each leads to.
const OTHER_BOUNDS: [(i32, u32); 9] = [
    (0, 19),
    (2, 19),
    (3, 19),
    (64, 19),
    (65, 10),
    (-1, 10),
    (-64, 10),
    (i32::MIN, 10),
    (i32::MAX, 10),
];

/// A bound that is not 1, and what it leads to.
fn bound_led_to(bound: i32, number: u32) -> Seen {
    other(format!("bound {bound}: refusal {number}"))
}

/// Bounds for so many vertices: mostly all 1, or one or a few are not; now and then there are more or fewer of them.
pub fn bounds(random: &mut Random, count: usize) -> Vec<i32> {
    let mut bound = vec![1; length(random, count)];
    let wrong = random.pick(&[0, 0, 0, 1, 1, 2, 5]);
    for _ in 0..wrong {
        let at = random.below(bound.len().max(1) as u64) as usize;
        if let Some(bound) = bound.get_mut(at) {
            *bound = random.pick(&OTHER_BOUNDS).0;
        }
    }
    bound
}

const BEFORE_16: &str = "10 before 16";
const BEFORE_19: &str = "10 before 19 of an earlier vertex";
const KIND_FIRST: &str = "16 before 19";

/// What bounds show, with the answer that they led to.
fn seen_of_bounds(kind: Kind, bound: &[i32], answer: &Result<usize, Refusal>) -> Vec<Seen> {
    let Err(Refusal { number, place }) = *answer else {
        return Vec::new();
    };
    let others: Vec<_> = (1..).zip(bound).filter(|&(_, &bound)| bound != 1).collect();
    let mut seen = Vec::new();
    if let ([(_, &bound)], 10 | 19) = (&others[..], number) {
        seen.push(bound_led_to(bound, number));
    }
    if number == 10 && kind == Kind::General {
        seen.push(other(BEFORE_16));
    }
    if number == 10 && others[0].0 < place {
        seen.push(other(BEFORE_19));
    }
    if number == 16 && !others.is_empty() {
        seen.push(other(KIND_FIRST));
    }
    seen
}

/// Writes an assignment by both programs.
fn compare_out(random: &mut Random, tally: &mut Tally) {
    let right = match random.below(12) {
        0 => Lent::any_of(random, Kind::General),
        _ => bipartite(random),
    };
    let sort = random.pick(&SORTS);
    let (lent, long) = lent_of(random, sort, right);
    let g = lent.lend();
    let vertices = g.vertices().min(4096) as usize;
    let bound = bounds(random, vertices);
    let lent_bound = Guarded::of(&bound, 77);
    let written = Written::by(
        &g,
        long,
        |g, out| reference::write_assignment(g, &bound, out),
        |g, out| proved::write_assignment(g, lent_bound.lend(), out),
    );
    let agreed = written.agreed && lent_bound.unharmed() && lent_bound.lend() == bound;
    let mut lengths = lending::lengths(&lent, long);
    lengths.push(("bound".into(), bound.len(), vertices));
    let mut seen = vec![Seen::of(&written.expected)];
    seen.extend(wrong_length(&lengths));
    seen.extend(place_of(&written.expected));
    seen.extend(seen_of_bounds(g.kind, &bound, &written.expected));
    if written.expected.is_ok() {
        seen.extend(sorts_of(&lent));
    }
    tally.note(&seen, agreed, || {
        format!("{written:?} {sort:?} {lent:?} {bound:?} {long}")
    });
}

/// What must be seen of writing.
fn demanded_out() -> Vec<Seen> {
    let mut seen = vec![Seen::Result];
    seen.extend([4, 6, 7, 8, 9, 10, 16, 19].map(Seen::Refusal));
    seen.extend(wrong_slices(&["row", "column", "weight", "bound"]));
    seen.extend(wrong_outputs());
    seen.extend(all_places(&[(6, 0), (7, 0), (8, 1), (10, 0), (19, 0)]));
    seen.extend(OTHER_BOUNDS.map(|(bound, number)| bound_led_to(bound, number)));
    seen.extend([BEFORE_16, BEFORE_19, KIND_FIRST].map(other));
    seen.extend(all_sorts());
    seen
}

/// The lengths of the reader's outputs.
const LENGTHS: [usize; 4] = [1024, 1024, 1024, ASSIGNMENT_BOUNDS];

/// The assignment reader of both programs, with outputs of these lengths.
fn read_both(text: &[u8], lengths: [usize; 4]) -> Read<Head> {
    let [mut row, mut column] = [vec![9; lengths[0]], vec![9; lengths[1]]];
    let [mut weight, mut bound] = [vec![9; lengths[2]], vec![9; lengths[3]]];
    let expected = reference::read_assignment(text, &mut row, &mut column, &mut weight, &mut bound);
    let lent = Guarded::of(text, 10);
    let mut rows = Guarded::new(lengths[0], 5, 77);
    let mut columns = Guarded::new(lengths[1], 6, 77);
    let mut weights = Guarded::new(lengths[2], -7, 77);
    let mut bounds = Guarded::new(lengths[3], 8, 77);
    let proved = proved::read_assignment(
        lent.lend(),
        rows.lend_mut(),
        columns.lend_mut(),
        weights.lend_mut(),
        bounds.lend_mut(),
    );
    let is_clear =
        row.iter().chain(&column).all(|&x| x == 0) && weight.iter().chain(&bound).all(|&x| x == 0);
    let agreed = expected == proved
        && (expected.is_ok() || is_clear)
        && (rows.lend(), columns.lend()) == (&row, &column)
        && (weights.lend(), bounds.lend()) == (&weight, &bound)
        && rows.unharmed()
        && columns.unharmed()
        && weights.unharmed()
        && bounds.unharmed()
        && lent.unharmed()
        && lent.lend() == text;
    Read {
        expected,
        proved,
        agreed,
    }
}

/// The text of any right bipartite graph, damaged now and then.
pub fn any_text(random: &mut Random) -> Vec<u8> {
    let lent = bipartite(random);
    Draft::of(&lent.lend()).damaged_text(random)
}

/// Reads a text by both programs, now and then with outputs of wrong lengths.
fn compare_in(random: &mut Random, tally: &mut Tally) {
    let text = any_text(random);
    let lengths = LENGTHS.map(|right| length(random, right));
    let read = read_both(&text, lengths);
    let names = ["row", "column", "weight", "bound"].into_iter();
    let slices = names.zip(lengths.into_iter().zip(LENGTHS));
    let slices = slices.map(|(name, (has, right))| (name.into(), has, right));
    let mut seen = vec![Seen::of(&read.expected)];
    seen.extend(wrong_length(&slices.collect::<Vec<_>>()));
    seen.extend(place_of(&read.expected));
    tally.note(&seen, read.agreed, || {
        format!("{lengths:?} {}", read.shown(&text))
    });
}

/// What must be seen of reading.
fn demanded_in() -> Vec<Seen> {
    let mut seen = vec![Seen::Result];
    seen.extend([1, 4, 6, 7, 8, 9, 20, 21].map(Seen::Refusal));
    seen.extend(wrong_slices(&["row", "column", "weight", "bound"]));
    let numbers = [(6, 1), (7, 1), (8, 1), (20, 0)];
    seen.extend(all_places(&numbers));
    seen.extend(["1", "2 to 9"].map(|places| refused_at(4, places)));
    seen.extend(["2 to 9", "10 to 99"].map(|places| refused_at(21, places)));
    seen
}

/// What a text with a flaw, or with a number in a form, led to.
fn led_to(words: &str, what: &Seen) -> Seen {
    other(format!("{words}: {what}"))
}

/// A result, or a refusal.
fn seen_of(number: u32) -> Seen {
    match number {
        0 => Seen::Result,
        number => Seen::Refusal(number),
    }
}

fn note<T: Debug>(tally: &mut Tally, words: &str, may: &[u32], read: &Read<T>, text: &[u8]) {
    let what = Seen::of(&read.expected);
    let is_known = may.iter().any(|&number| seen_of(number) == what);
    tally.note(&[led_to(words, &what)], read.agreed && is_known, || {
        format!("{words} {}", read.shown(text))
    });
}

/// What must be seen of a flaw or a form.
fn all_led_to(words: &str, numbers: &[u32]) -> Vec<Seen> {
    let numbers = numbers.iter();
    numbers
        .map(|&number| led_to(words, &seen_of(number)))
        .collect()
}

/// Texts with each flaw, `times` of each.
fn compare_flaws(random: &mut Random, times: u64) -> bool {
    let mut tally = Tally::new("assignments in, texts with one flaw");
    let mut demanded = Vec::new();
    for Flaw {
        words, leads_to, ..
    } in flaws()
    {
        demanded.extend(all_led_to(words, leads_to));
    }
    for flaw in flaws() {
        for _ in 0..times {
            let text = flaw.text(random);
            let read = read_both(&text, LENGTHS);
            note(&mut tally, flaw.words, flaw.leads_to, &read, &text);
        }
    }
    tally.report_all(times, &demanded)
}

/// What a form of one number of a role may lead to.
fn form_leads_to(role: Role, form: Form) -> &'static [u32] {
    match (form, role) {
        (Form::Plain, _) => &[0],
        // The cost 0 becomes -0.
        (Form::Minus, Role::Signed) => &[0, 20],
        _ => &[20],
    }
}

/// Texts in which one number of a role has a form, `times` for each form.
fn compare_forms(random: &mut Random, role: Role, times: u64) -> bool {
    let mut tally = Tally::new(format!("forms of {} in assignments", role.words()));
    let mut demanded = Vec::new();
    for form in Form::ALL {
        let may = form_leads_to(role, form);
        demanded.extend(all_led_to(form.words(), may));
        for _ in 0..times {
            let mut draft = Draft::any(random);
            draft.put(random, role, form);
            let text = draft.text(random);
            note(
                &mut tally,
                form.words(),
                may,
                &read_both(&text, LENGTHS),
                &text,
            );
        }
    }
    tally.report_all(times, &demanded)
}

/// A graph and its bounds, by the proved reader; the bounds with the zeros after them.
#[derive(Clone, Debug, PartialEq, Eq)]
pub struct Assigned {
    kind: Kind,
    sizes: [u32; 3],
    row: Vec<u32>,
    column: Vec<u32>,
    weight: Vec<i32>,
    bound: Vec<i32>,
}

impl Assigned {
    /// What a text says.
    pub fn read(text: &[u8]) -> Result<Assigned, Refusal> {
        let (mut row, mut column, mut weight) = (vec![9; 1024], vec![9; 1024], vec![9; 1024]);
        let mut bound = vec![9; ASSIGNMENT_BOUNDS];
        let head = proved::read_assignment(text, &mut row, &mut column, &mut weight, &mut bound)?;
        let edges = head.edges as usize;
        row.truncate(edges);
        column.truncate(edges);
        weight.truncate(edges);
        Ok(Assigned {
            kind: head.kind,
            sizes: [head.rows, head.columns, head.edges],
            row,
            column,
            weight,
            bound,
        })
    }

    /// A graph with a bound of 1 for each vertex.
    fn of(lent: &Lent) -> Assigned {
        let mut bound = vec![1; lent.vertices()];
        bound.resize(ASSIGNMENT_BOUNDS, 0);
        Assigned {
            kind: lent.kind,
            sizes: [lent.rows, lent.columns, lent.edges],
            row: lent.row.clone(),
            column: lent.column.clone(),
            weight: lent.weight.clone(),
            bound,
        }
    }

    /// The graph.
    fn lend(&self) -> Graph<'_> {
        let [rows, columns, edges] = self.sizes;
        Graph {
            kind: self.kind,
            rows,
            columns,
            edges,
            row: &self.row,
            column: &self.column,
            weight: &self.weight,
        }
    }

    /// The text, by the proved writer.
    pub fn write(&self) -> Result<Vec<u8>, Refusal> {
        let g = self.lend();
        let vertices = (g.vertices() as usize).min(ASSIGNMENT_BOUNDS);
        let bound = &self.bound[..vertices];
        let mut out = vec![9; ASSIGNMENT_TEXT];
        let length = proved::write_assignment(&g, bound, &mut out)?;
        out.truncate(length);
        Ok(out)
    }
}

/// Takes a right graph out and brings it back, and takes it out again.
fn compare_back(random: &mut Random, tally: &mut Tally) {
    let lent = bipartite(random);
    let before = Assigned::of(&lent);
    let text = before.write();
    let after = text.clone().and_then(|text| Assigned::read(&text));
    let again = after.clone().and_then(|after| after.write());
    let agreed = after.as_ref() == Ok(&before) && again == text;
    tally.note(&sorts_of(&lent), agreed, || {
        format!("{before:?} {after:?} {text:?}")
    });
}

/// Brings a text in that may be damaged, and takes what it says out and in again.
fn compare_through(random: &mut Random, tally: &mut Tally) {
    let text = any_text(random);
    let first = Assigned::read(&text);
    let second = first.clone().and_then(|first| first.write());
    let third = second.clone().and_then(|text| Assigned::read(&text));
    let seen = [match &second {
        Ok(written) if *written == text => other("as it is written"),
        Ok(_) => other("written in another way"),
        Err(_) => other("refused"),
    }];
    let agreed = first.is_err() || first == third;
    tally.note(&seen, agreed, || {
        format!("{first:?} {second:?} {third:?} {text:?}")
    });
}

/// Compares `count` writings and as many readings, takes as many graphs out and back, and compares texts with one flaw and with one number in a form.
pub fn compare(seed: u64, count: u64) -> Vec<bool> {
    let mut random = Random::new(seed);
    let mut out = Tally::new("assignments out");
    let mut read = Tally::new("assignments in");
    let mut back = Tally::new("assignments there and back");
    let mut through = Tally::new("assignments in, out and in again");
    for _ in 0..count {
        compare_out(&mut random, &mut out);
        compare_in(&mut random, &mut read);
        compare_back(&mut random, &mut back);
        compare_through(&mut random, &mut through);
    }
    let ways = ["as it is written", "written in another way", "refused"];
    let mut results = vec![
        out.report_all(count, &demanded_out()),
        read.report_all(count, &demanded_in()),
        back.report_all(count, &all_sorts()),
        through.report_all(count, &ways.map(other)),
        compare_flaws(&mut random, count / 200),
    ];
    results.extend(Role::ALL.map(|role| compare_forms(&mut random, role, count / 200)));
    results
}
