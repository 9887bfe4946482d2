//! The solver, on small graphs where every subgraph is tried, and on large ones.

use crate::calls::indexes::change;
use crate::calls::measures::Measuring;
use crate::drawing::graphs::{feasible, length, Lent};
use crate::drawing::problems::families;
use crate::drawing::solved::Solved;
use crate::harness::guard::Guarded;
use crate::harness::proved;
use crate::harness::tally::{Seen, Tally};
use reference::brute::weight_of;
use reference::{largest_weight, Graph, Kind, Random};

impl Solved {
    /// Whether a feasible subgraph has, by both measuring calls, a gap of twice what it lacks.
    fn has_right_gap(&self, g: &Graph, bound: &[i32], chosen: &[u8]) -> bool {
        let (vertex, edge) = (&self.vertex, &self.edge);
        let [ours, theirs] = [reference::measure, proved::measure as Measuring]
            .map(|measure| measure(g, bound, chosen, vertex, edge, 0, &[], &[], &[]));
        let lack = weight_of(g, &self.chosen) - weight_of(g, chosen);
        ours == theirs && ours.is_ok_and(|numbers| numbers.gap == 2 * lack)
    }

    /// Whether the prices are even and in the solver's range, and the gaps of its subgraph and of another feasible one are right.
    fn is_right(&self, random: &mut Random, g: &Graph, bound: &[i32]) -> bool {
        let mut prices = self.vertex.iter().chain(&self.edge);
        prices.all(|price| (0..=2_000_000).contains(price) && price % 2 == 0)
            && self.has_right_gap(g, bound, &self.chosen)
            && self.has_right_gap(g, bound, &feasible(random, g, bound))
    }
}

/// What a wrong index shows that is lent with a general graph.
const UNTESTED: &str = "16 before 18";

/// Solves one graph by both programs and compares weights, prices and gaps. Now and then the index is wrong. On a small one every subgraph is tried, and a length may be wrong.
fn compare_one(random: &mut Random, lent: &Lent, bound: &[i32], tally: &mut Tally, small: bool) {
    let g = lent.lend();
    let n = (g.vertices() as usize).min(4096);
    let m = (g.edges as usize).min(4096);
    let mut index = lent.index();
    let mut lengths = [m, n, m, 4096, index.len()];
    if small {
        lengths = lengths.map(|right| length(random, right));
    }
    index.resize(lengths[4], 0);
    let changed = random.below(20) == 0 && change(random, &mut index);
    let mut other = (
        vec![9u8; lengths[0]],
        vec![9; lengths[1]],
        vec![9; lengths[2]],
        vec![9; lengths[3]],
    );
    let expected = reference::solve(
        &g,
        bound,
        &index,
        &mut other.0,
        &mut other.1,
        &mut other.2,
        &mut other.3,
    );
    let lent_index = Guarded::of(&index, 77);
    let mut chosen = Guarded::new(lengths[0], 7, 77);
    let mut vertex = Guarded::new(lengths[1], -7, 77);
    let mut edge = Guarded::new(lengths[2], -7, 77);
    let mut workspace = Guarded::new(lengths[3], -7, 77);
    let solved = proved::solve(
        &g,
        bound,
        lent_index.lend(),
        chosen.lend_mut(),
        vertex.lend_mut(),
        edge.lend_mut(),
        workspace.lend_mut(),
    );
    let mut agreed = solved == expected
        && lent_index.unharmed()
        && lent_index.lend() == index
        && chosen.unharmed()
        && vertex.unharmed()
        && edge.unharmed()
        && workspace.unharmed()
        && workspace.lend().iter().all(|&x| x == 0);
    match solved {
        Ok(()) if agreed => {
            let found = Solved {
                chosen: chosen.lend().to_vec(),
                vertex: vertex.lend().to_vec(),
                edge: edge.lend().to_vec(),
            };
            let weight = weight_of(&g, &found.chosen);
            agreed = weight == weight_of(&g, &other.0)
                && found.is_right(random, &g, bound)
                && (!small || weight == largest_weight(&g, bound));
        }
        Ok(()) => {}
        Err(_) => {
            agreed = agreed
                && chosen.lend().iter().all(|&x| x == 0)
                && vertex.lend().iter().all(|&x| x == 0)
                && edge.lend().iter().all(|&x| x == 0);
        }
    }
    let mut seen = vec![Seen::of(&expected)];
    if changed && seen == [Seen::Refusal(16)] {
        seen.push(Seen::Other(UNTESTED.into()));
    }
    tally.note(&seen, agreed, || {
        format!("{expected:?} {solved:?} {lent:?} {bound:?} {index:?}")
    });
}

/// A small graph to be solved, and now and then something that is refused.
fn small(random: &mut Random, tally: &mut Tally) {
    let (rows, columns) = (1 + random.below(4) as u32, 1 + random.below(4) as u32);
    let most = random.below(11) as usize;
    let mut lent = Lent::right(random, Kind::Bipartite, rows, columns, most);
    lent.level(random);
    let mut bound: Vec<i32> = (0..lent.vertices())
        .map(|_| random.pick(&[0, 1, 1, 2, 64]))
        .collect();
    match random.below(20) {
        0 => lent.spoil(random),
        1 => bound[0] = random.pick(&[-1, 65]),
        2 => lent = Lent::right(random, Kind::General, rows, rows, most),
        _ => {}
    }
    if lent.kind == Kind::General && random.below(2) == 0 {
        bound.truncate(lent.rows.min(8) as usize);
    }
    compare_one(random, &lent, &bound, tally, true);
}

fn large(random: &mut Random, tally: &mut Tally) {
    let (rows, columns) = (32 + random.below(33) as u32, 32 + random.below(33) as u32);
    let lent = Lent::right(random, Kind::Bipartite, rows, columns, 1024);
    let bound: Vec<i32> = (0..lent.vertices()).map(|_| random.between(0, 4)).collect();
    compare_one(random, &lent, &bound, tally, false);
}

/// Chains of every length, so that a walk back has up to 127 edges, from a column or from a row.
fn chains(random: &mut Random, tally: &mut Tally) {
    for rows in 2..=64 {
        for row_end in [false, true] {
            let lent = Lent::chain(random, rows, row_end);
            let bound = vec![1; lent.vertices()];
            compare_one(random, &lent, &bound, tally, false);
        }
    }
}

/// Some graphs of each family that the solvers' speed is measured on: other sizes, many ties, and bounds that are all 1 or all 64.
fn of_families(random: &mut Random, tally: &mut Tally) {
    for (seed, family) in families().iter().enumerate() {
        for problem in family.problems(seed as u64, 20) {
            compare_one(random, &problem.graph, &problem.bound, tally, false);
        }
    }
}

/// Compares the solver on `count` small graphs, 200 large ones, 504 chains and 480 graphs of the families.
pub fn compare(seed: u64, count: u64) -> Vec<bool> {
    let mut random = Random::new(seed);
    let mut smalls = Tally::new("solver, small graphs");
    for _ in 0..count {
        small(&mut random, &mut smalls);
    }
    let mut larges = Tally::new("solver, large graphs");
    for _ in 0..200 {
        large(&mut random, &mut larges);
    }
    let mut chained = Tally::new("solver, chains");
    for _ in 0..4 {
        chains(&mut random, &mut chained);
    }
    let mut measured = Tally::new("solver, families");
    of_families(&mut random, &mut measured);
    let mut demanded = vec![Seen::Result, Seen::Other(UNTESTED.into())];
    demanded.extend([4, 6, 7, 8, 9, 10, 16, 18].map(Seen::Refusal));
    vec![
        smalls.report_all(count, &demanded),
        larges.report(200, &[18]),
        chained.report(504, &[18]),
        measured.report(480, &[18]),
    ]
}
