//! Building and testing an index, on graphs of both kinds.

use crate::drawing::graphs::{wide_length, Lent, WRAPPED};
use crate::harness::guard::Guarded;
use crate::harness::proved;
use crate::harness::tally::{Seen, Tally};
use reference::{index_length, Graph, Kind, Random, Refusal};

/// A call that builds an index, the proved one or the separately written one.
pub type Building = fn(&Graph, &mut [u32]) -> Result<(), Refusal>;

/// A call that tests an index.
pub type Testing = fn(&Graph, &[u32]) -> Result<(), Refusal>;

/// Numbers that are wrong at a position of an index: one more, one less, 0, the greatest, and those beside it.
fn wrong_numbers(index: &[u32], at: usize) -> Vec<u32> {
    let own = index[at];
    let mut wrong = vec![own.wrapping_add(1), own.wrapping_sub(1), 0, u32::MAX];
    wrong.extend(index[..at].last());
    wrong.extend(index.get(at + 1));
    wrong.retain(|&number| number != own);
    wrong
}

/// One number of an index is made wrong; false if it has none.
pub fn change(random: &mut Random, index: &mut [u32]) -> bool {
    if index.is_empty() {
        return false;
    }
    let at = random.below(index.len() as u64) as usize;
    index[at] = random.pick(&wrong_numbers(index, at));
    true
}

/// A right graph of either kind: small, or now and then one with the longest index.
fn any(random: &mut Random) -> Lent {
    match random.below(200) {
        0 => Lent::largest(random, Kind::Bipartite, 1024),
        1 => Lent::largest(random, Kind::General, 1024),
        _ => Lent::any(random),
    }
}

const FULL: &str = "longest";

fn compare_built(random: &mut Random, tally: &mut Tally) {
    let mut lent = any(random);
    if random.below(3) == 0 {
        lent.spoil(random);
    }
    let g = lent.lend();
    let long = wide_length(random, index_length(&g));
    let mut expected = vec![9; long];
    let answer = reference::build_index(&g, &mut expected);
    let mut index = Guarded::new(long, 7, 77);
    let built = proved::build_index(&g, index.lend_mut());
    let passes_or_cleared = match built {
        Ok(()) => proved::test_index(&g, index.lend()) == Ok(()),
        Err(_) => index.lend().iter().all(|&x| x == 0),
    };
    let agreed =
        built == answer && index.lend() == expected && index.unharmed() && passes_or_cleared;
    let mut seen = vec![Seen::of(&answer)];
    if answer.is_ok() && long == 2177 {
        seen.push(Seen::Other(FULL.into()));
    }
    if index_length(&g) > u64::from(u32::MAX) {
        seen.push(Seen::Other(WRAPPED.into()));
    }
    tally.note(&seen, agreed, || {
        format!("{answer:?} {built:?} {lent:?} {long}")
    });
}

/// What is lent to be tested.
#[derive(Clone, Copy, Debug, PartialEq, Eq)]
enum Sort {
    Right,
    Several,
    Length,
    Exchanged,
    Moved,
    Falling,
    Spoilt,
}

const SORTS: [Sort; 7] = [
    Sort::Right,
    Sort::Several,
    Sort::Length,
    Sort::Exchanged,
    Sort::Moved,
    Sort::Falling,
    Sort::Spoilt,
];

impl Sort {
    fn seen(self) -> Seen {
        let words = match self {
            Sort::Right => "right",
            Sort::Several => "several positions changed",
            Sort::Length => "wrong length",
            Sort::Exchanged => "of a graph with two edges exchanged",
            Sort::Moved => "of a graph with an edge moved",
            Sort::Falling => "one vertex's edges falling",
            Sort::Spoilt => "of a graph that is spoilt",
        };
        Seen::Other(words.into())
    }
}

/// An index with right offsets and the edges of one vertex in falling order, if a vertex has two.
fn falling(random: &mut Random, lent: &Lent) -> Option<Vec<u32>> {
    let mut index = lent.index();
    let first = lent.vertices() + 1;
    let lists = index[..first].windows(2);
    let lists = lists.map(|two| first + two[0] as usize..first + two[1] as usize);
    let lists: Vec<_> = lists.filter(|list| list.len() > 1).collect();
    if lists.is_empty() {
        return None;
    }
    let list = lists[random.below(lists.len() as u64) as usize].clone();
    index[list].reverse();
    Some(index)
}

/// An index of a sort to be lent with a graph, which may become spoilt, if there is one.
fn lent_index(random: &mut Random, sort: Sort, lent: &mut Lent) -> Option<Vec<u32>> {
    let mut index = lent.index();
    match sort {
        Sort::Right => {}
        Sort::Several => {
            for _ in 0..2 + random.below(4) {
                change(random, &mut index);
            }
        }
        Sort::Length => {
            let right = index.len();
            let long = random.pick(&[0, 1, right - 1, right + 1, lent.vertices(), 2 * right, 2177]);
            index.resize(long, 0);
        }
        Sort::Exchanged => index = lent.exchanged(random)?.index(),
        Sort::Moved => index = lent.moved(random)?.index(),
        Sort::Falling => index = falling(random, lent)?,
        Sort::Spoilt => {
            lent.spoil(random);
            let long = wide_length(random, index_length(&lent.lend()));
            index.resize(long, 0);
        }
    }
    Some(index)
}

/// What is said of an index that is lent with a right graph: it has the length and the numbers of the graph's own.
fn said(right: &[u32], lent: &[u32]) -> Result<(), Refusal> {
    if lent.len() != right.len() {
        return Err(Refusal::new(9, 0));
    }
    match (0..right.len()).find(|&at| lent[at] != right[at]) {
        Some(at) => Err(Refusal::new(18, at as u64 + 1)),
        None => Ok(()),
    }
}

fn compare_tested(random: &mut Random, tally: &mut Tally) {
    let mut lent = any(random);
    let right = lent.index();
    let mut sort = random.pick(&SORTS);
    let index = lent_index(random, sort, &mut lent).unwrap_or_else(|| {
        sort = Sort::Right;
        right.clone()
    });
    let g = lent.lend();
    let expected = reference::test_index(&g, &index);
    let guarded = Guarded::of(&index, 77);
    let tested = proved::test_index(&g, guarded.lend());
    let agreed = tested == expected
        && (sort == Sort::Spoilt || expected == said(&right, &index))
        && guarded.unharmed()
        && guarded.lend() == index;
    tally.note(&[Seen::of(&expected), sort.seen()], agreed, || {
        format!("{expected:?} {tested:?} {sort:?} {lent:?} {index:?}")
    });
}

/// Tests the right index of a graph, and then at every position numbers that are wrong there, at most `most` of them.
fn compare_positions(random: &mut Random, lent: &Lent, most: usize, tally: &mut Tally) {
    let g = lent.lend();
    let right = lent.index();
    let mut index = Guarded::of(&right, 77);
    let mut compare = |index: &Guarded<u32>, said: Result<(), Refusal>| {
        let expected = reference::test_index(&g, index.lend());
        let tested = proved::test_index(&g, index.lend());
        let agreed = tested == said && expected == said && index.unharmed();
        tally.count(&said, agreed, || {
            format!("{expected:?} {tested:?} {lent:?} {:?}", index.lend())
        });
    };
    compare(&index, Ok(()));
    for at in 0..right.len() {
        let mut wrong = wrong_numbers(&right, at);
        while wrong.len() > most {
            wrong.swap_remove(random.below(wrong.len() as u64) as usize);
        }
        for number in wrong {
            index.lend_mut()[at] = number;
            compare(&index, Err(Refusal::new(18, at as u64 + 1)));
        }
        index.lend_mut()[at] = right[at];
    }
}

/// Compares `count` indexes that are built, as many that are tested, and every position of some.
pub fn compare(seed: u64, count: u64) -> Vec<bool> {
    let mut random = Random::new(seed);
    let mut built = Tally::new("building an index");
    let mut tested = Tally::new("testing an index");
    let mut positions = Tally::new("testing an index, each position changed");
    for _ in 0..count {
        compare_built(&mut random, &mut built);
        compare_tested(&mut random, &mut tested);
    }
    for _ in 0..count / 40 {
        let lent = Lent::any(&mut random);
        let most = if lent.row.len() > 12 { 1 } else { usize::MAX };
        compare_positions(&mut random, &lent, most, &mut positions);
    }
    for _ in 0..4 {
        for kind in [Kind::Bipartite, Kind::General] {
            let lent = Lent::largest(&mut random, kind, 1024);
            compare_positions(&mut random, &lent, 2, &mut positions);
        }
    }
    let refusals = [4, 6, 7, 8, 9].map(Seen::Refusal);
    let mut of_built = vec![Seen::Result];
    of_built.extend([FULL, WRAPPED].map(|words| Seen::Other(words.into())));
    of_built.extend(refusals.clone());
    let mut of_tested = vec![Seen::Result, Seen::Refusal(18)];
    of_tested.extend(SORTS.map(Sort::seen));
    of_tested.extend(refusals);
    vec![
        built.report_all(count, &of_built),
        tested.report_all(count, &of_tested),
        positions.report(2 * count, &[18]),
    ]
}
