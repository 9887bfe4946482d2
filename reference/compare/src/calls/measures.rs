//! The measuring call, on graphs of both kinds with odd sets that keep and that break each rule.

use crate::drawing::graphs::{bounds, cover, feasible, length, prices, Lent};
use crate::harness::guard::Guarded;
use crate::harness::proved;
use crate::harness::tally::{other, Seen, Tally};
use reference::brute::weight_of;
use reference::{feasible_subgraphs, largest_weight, Graph, Measures, Random, Refusal};

/// A measuring call, the proved one or the separately written one.
pub type Measuring = fn(
    &Graph,
    &[i32],
    &[u8],
    &[i32],
    &[i32],
    u32,
    &[i32],
    &[u64],
    &[u64],
) -> Result<Measures, Refusal>;

/// What is seen of measured prices; odd ones are those of vertices, edges and sets.
const ODD_PRICES: [&str; 3] = ["odd vertex prices", "odd edge prices", "odd set prices"];
const LARGEST_PRICES: &str = "prices of 4,000,000";
const ODD_GAP: &str = "odd gaps";

/// Everything that is lent to a measuring.
#[derive(Clone, Debug)]
struct Sheet {
    graph: Lent,
    bound: Vec<i32>,
    chosen: Vec<u8>,
    vertex: Vec<i32>,
    edge: Vec<i32>,
    sets: u32,
    price: Vec<i32>,
    set_vertices: Vec<u64>,
    set_edges: Vec<u64>,
}

fn flip(words: &mut [u64], bit: usize) {
    words[bit / 64] ^= 1 << (bit % 64);
}

/// Prices fall by half a point, so that an edge that was covered just so is not.
fn lower(prices: &mut [i32]) {
    for price in prices {
        *price = (*price - 1).max(0);
    }
}

/// One odd set of a right graph: mostly one that keeps the rules.
fn odd_set(random: &mut Random, g: &Graph, bound: &[i32]) -> ([u64; 2], [u64; 16]) {
    let n = g.vertices() as usize;
    let m = g.edges as usize;
    let mut inside = [0u64; 2];
    let mut marked = [0u64; 16];
    let mut load = 0;
    for v in 0..n {
        if random.below(2) == 0 || n == 1 {
            flip(&mut inside, v);
            load += bound[v];
        }
    }
    let has = |words: &[u64], bit: usize| words[bit / 64] >> (bit % 64) & 1 == 1;
    for e in 0..m {
        let (a, b) = g.ends(e);
        let one_end = has(&inside, a) != has(&inside, b);
        if one_end && (random.below(4) == 0 || (load % 2 == 0 && random.below(2) == 0)) {
            flip(&mut marked, e);
            load += 1;
        }
    }
    (inside, marked)
}

impl Sheet {
    /// A right sheet, mostly: prices that cover what they must, a feasible subgraph.
    fn any(random: &mut Random) -> Sheet {
        let graph = Lent::any(random);
        let g = graph.lend();
        let (n, m) = (graph.vertices(), g.edges as usize);
        let bound = bounds(random, n);
        let chosen = feasible(random, &g, &bound);
        let extreme = random.below(20) == 0;
        let vertex = prices(random, n, 1_200_000, extreme);
        let mut edge = prices(random, m, 600_000, extreme);
        let sets = match random.below(40) {
            0 => 16,
            1 => 17,
            2 => 20,
            _ => random.below(4) as u32,
        };
        let mut made = Sheet {
            bound: bound.clone(),
            chosen,
            vertex: vertex.clone(),
            edge: Vec::new(),
            sets,
            price: prices(random, sets as usize, 2000, extreme),
            set_vertices: Vec::new(),
            set_edges: Vec::new(),
            graph: graph.clone(),
        };
        for _ in 0..sets {
            let (inside, marked) = odd_set(random, &g, &bound);
            made.set_vertices.extend(inside);
            made.set_edges.extend(marked);
        }
        if random.below(6) > 0 {
            cover(&g, &vertex, &mut edge);
        }
        made.edge = edge;
        made
    }

    /// Something is made wrong.
    fn spoil(&mut self, random: &mut Random) {
        let bit =
            |random: &mut Random, words: usize| random.below(64 * words.max(1) as u64) as usize;
        match random.below(13) {
            0 => self.graph.spoil(random),
            1 => self.sets = random.pick(&[0, 1, 16, 17, u32::MAX, 1 << 31, 1 << 28]),
            2 if !self.bound.is_empty() => self.bound[0] = random.pick(&[-1, 65, i32::MIN]),
            3 if !self.chosen.is_empty() => self.chosen[0] = random.pick(&[2, 255]),
            4 => self.chosen.fill(1),
            5 if !self.vertex.is_empty() => self.vertex[0] = random.pick(&[-1, 4_000_001]),
            6 if !self.edge.is_empty() => {
                *self.edge.last_mut().unwrap() = random.pick(&[-1, 4_000_001])
            }
            7 if !self.price.is_empty() => self.price[0] = random.pick(&[-1, 4_000_001]),
            8 if !self.set_vertices.is_empty() => {
                let at = bit(random, self.set_vertices.len());
                flip(&mut self.set_vertices, at);
            }
            9 if !self.set_edges.is_empty() => {
                let at = bit(random, self.set_edges.len());
                flip(&mut self.set_edges, at);
            }
            10 => {
                let long = length(random, self.set_edges.len());
                self.set_edges.resize(long, 0);
            }
            11 => lower(&mut self.edge),
            _ => {
                let long = length(random, self.vertex.len());
                self.vertex.resize(long, 0);
            }
        }
    }

    /// What an answer for it shows.
    fn seen(&self, answer: &Result<Measures, Refusal>) -> Vec<Seen> {
        let mut seen = vec![Seen::of(answer)];
        if let Ok(numbers) = answer {
            let prices = [&self.vertex, &self.edge, &self.price];
            for (prices, odd) in prices.iter().zip(ODD_PRICES) {
                if prices.iter().any(|price| price % 2 == 1) {
                    seen.push(other(odd));
                }
            }
            if prices.iter().any(|prices| prices.contains(&4_000_000)) {
                seen.push(other(LARGEST_PRICES));
            }
            if numbers.gap % 2 == 1 {
                seen.push(other(ODD_GAP));
            }
        }
        seen
    }
}

/// On a small graph every feasible subgraph is tried: the gap is at least twice what it lacks.
fn lacks_at_most(g: &Graph, bound: &[i32], gap: impl Fn(&[u8]) -> i64) -> bool {
    if g.edges > 8 {
        return true;
    }
    let largest = largest_weight(g, bound);
    feasible_subgraphs(g, bound).all(|x| 2 * (largest - weight_of(g, &x)) <= gap(&x))
}

fn compare_one(random: &mut Random, tally: &mut Tally) {
    let mut sheet = Sheet::any(random);
    if random.below(3) == 0 {
        sheet.spoil(random);
    }
    let g = sheet.graph.lend();
    let expected = reference::measure(
        &g,
        &sheet.bound,
        &sheet.chosen,
        &sheet.vertex,
        &sheet.edge,
        sheet.sets,
        &sheet.price,
        &sheet.set_vertices,
        &sheet.set_edges,
    );
    let vertices = Guarded::of(&sheet.set_vertices, u64::MAX);
    let edges = Guarded::of(&sheet.set_edges, u64::MAX);
    let measured = |chosen: &[u8]| {
        proved::measure(
            &g,
            &sheet.bound,
            chosen,
            &sheet.vertex,
            &sheet.edge,
            sheet.sets,
            &sheet.price,
            vertices.lend(),
            edges.lend(),
        )
    };
    let proved = measured(&sheet.chosen);
    let mut agreed = proved == expected && vertices.unharmed() && edges.unharmed();
    if let Ok(m) = proved {
        agreed = agreed
            && m.vertices >= 0
            && m.sets >= 0
            && m.edges >= 0
            && m.cover >= 0
            && m.vertices + m.sets + m.edges + m.cover == m.gap
            && m.total - 2 * m.weight == m.gap
            && lacks_at_most(&g, &sheet.bound, |x| measured(x).unwrap().gap);
    }
    tally.note(&sheet.seen(&expected), agreed, || {
        format!("{expected:?} {proved:?} {sheet:?}")
    });
}

/// Compares `count` measurings.
pub fn compare(seed: u64, count: u64) -> Vec<bool> {
    let mut random = Random::new(seed);
    let mut tally = Tally::new("measuring");
    for _ in 0..count {
        compare_one(&mut random, &mut tally);
    }
    let mut demanded = vec![Seen::Result, other(LARGEST_PRICES), other(ODD_GAP)];
    demanded.extend(ODD_PRICES.map(other));
    demanded.extend([4, 6, 7, 8, 9, 10, 11, 12, 13, 14, 15].map(Seen::Refusal));
    vec![tally.report_all(count, &demanded)]
}
