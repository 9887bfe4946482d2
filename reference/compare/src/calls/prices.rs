//! Pricing a general graph: on small graphs, where every subgraph of it and of its doubled graph is tried, and on large ones; and what is refused.

use crate::calls::measures::Measuring;
use crate::drawing::doublings::{
    all_ranges, Fault, Faulty, Lending, Shape, FAULTS, MOST_TRIED, ORDER,
};
use crate::drawing::graphs::{bounds, falling, feasible, numbers, wide_length, Lent, WRAPPED};
use crate::drawing::problems::general_families;
use crate::drawing::solved::Solved;
use crate::harness::guard::Guarded;
use crate::harness::lending::{edge_lengths, wrong_length, wrong_slices, GuardedEdges};
use crate::harness::proved;
use crate::harness::tally::{other, Seen, Tally};
use reference::brute::weight_of;
use reference::price::MOST_GENERAL_PRICE;
use reference::{doubled, feasible_subgraphs, half_points, largest_weight};
use reference::{Graph, Kind, Random, Refusal};

/// A call that prices a general graph, the proved one or the separately written one.
pub type Pricing = fn(&Graph, &[i32], &mut [i32], &mut [i32]) -> Result<(), Refusal>;

/// The prices of vertices and of edges.
pub struct Prices<'a> {
    pub vertex: &'a [i32],
    pub edge: &'a [i32],
}

impl Prices<'_> {
    /// Whether they are in range; if not, why.
    fn judge_range(&self) -> Result<(), String> {
        let mut prices = self.vertex.iter().chain(self.edge);
        match prices.find(|&price| !(0..=MOST_GENERAL_PRICE).contains(price)) {
            Some(price) => Err(format!("a price of {price}")),
            None => Ok(()),
        }
    }

    /// Whether they cover every edge; if not, why.
    fn judge_cover(&self, g: &Graph) -> Result<(), String> {
        for (e, &price) in self.edge.iter().enumerate() {
            let (a, b) = g.ends(e);
            if self.vertex[a] + self.vertex[b] + price < half_points(g.weight[e]) {
                return Err(format!("edge {} is not covered", e + 1));
            }
        }
        Ok(())
    }

    /// Their total with these bounds.
    fn total(&self, bound: &[i32]) -> i64 {
        let paid = self.vertex.iter().zip(bound);
        let paid = paid.map(|(&price, &bound)| i64::from(price) * i64::from(bound));
        paid.chain(self.edge.iter().map(|&price| price.into()))
            .sum()
    }

    /// Whether they are right for a graph that can be doubled: in range, over every edge, and of the total that is the largest weight of the doubled graph
    /// by the separately written solver, and on a small graph by trying every subgraph. The total, or why not.
    pub fn judge(&self, g: &Graph, bound: &[i32]) -> Result<i64, String> {
        self.judge_range()?;
        self.judge_cover(g)?;
        let total = self.total(bound);
        let (twice, bounds) = doubled(g, bound);
        let twice = twice.lend();
        let best = Solved::of(&twice, &bounds).map_err(|refusal| format!("{refusal:?}"))?;
        let largest = weight_of(&twice, &best.chosen);
        if total != largest {
            return Err(format!("total {total}, solved doubled {largest}"));
        }
        if g.edges <= MOST_TRIED {
            let tried = largest_weight(&twice, &bounds);
            let single = largest_weight(g, bound);
            if total != tried || total < 2 * single {
                return Err(format!("total {total}, tried {single}, doubled {tried}"));
            }
        }
        Ok(total)
    }

    /// Whether both measuring calls take feasible subgraphs with these prices of this total, each with a gap of at least twice what it is known to lack; if not, why.
    pub fn judge_gaps(
        &self,
        g: &Graph,
        bound: &[i32],
        total: i64,
        subgraphs: &[Vec<u8>],
    ) -> Result<(), String> {
        let known = subgraphs.iter().map(|x| weight_of(g, x)).max();
        for x in subgraphs {
            let [ours, theirs] = [reference::measure, proved::measure as Measuring]
                .map(|measure| measure(g, bound, x, self.vertex, self.edge, 0, &[], &[], &[]));
            let lacks = known.unwrap_or(0) - weight_of(g, x);
            let is_right = ours.is_ok_and(|numbers| {
                numbers.total == total
                    && numbers.gap == total - 2 * weight_of(g, x)
                    && numbers.gap >= 2 * lacks
            });
            if ours != theirs || !is_right {
                return Err(format!("{ours:?} {theirs:?}, known to lack {lacks}: {x:?}"));
            }
        }
        Ok(())
    }

    /// What they show with their total.
    fn seen(&self, g: &Graph, bound: &[i32], total: i64) -> Vec<Seen> {
        let mut shown = vec![
            (ODD_TOTAL, total % 2 == 1),
            (ODD_VERTEX, self.vertex.iter().any(|price| price % 2 == 1)),
            (ODD_EDGE, self.edge.iter().any(|price| price % 2 == 1)),
            (LARGEST_VERTEX, self.vertex.contains(&MOST_GENERAL_PRICE)),
            (LARGEST_EDGE, self.edge.contains(&MOST_GENERAL_PRICE)),
        ];
        if g.edges <= MOST_TRIED {
            let largest = largest_weight(g, bound);
            shown.push((PROVES, total <= 2 * largest + 1));
            shown.push((PROVES_NOTHING, total > 2 * largest + 1));
        }
        let shown = shown.into_iter().filter(|&(_, is_shown)| is_shown);
        shown.map(|(words, _)| other(words)).collect()
    }
}

const ODD_TOTAL: &str = "odd totals";
const ODD_VERTEX: &str = "odd vertex prices";
const ODD_EDGE: &str = "odd edge prices";
const LARGEST_VERTEX: &str = "vertex prices of 2,000,000";
const LARGEST_EDGE: &str = "edge prices of 2,000,000";
const PROVES: &str = "gap 0 or 1 of a best subgraph";
const PROVES_NOTHING: &str = "larger gap of a best subgraph";

/// What must be seen of the prices of graphs of any size.
const OF_PRICES: [&str; 5] = [
    ODD_TOTAL,
    ODD_VERTEX,
    ODD_EDGE,
    LARGEST_VERTEX,
    LARGEST_EDGE,
];

/// What pricing gave in both programs.
#[derive(Debug)]
struct Priced {
    expected: Result<(), Refusal>,
    /// What the proved call answered.
    told: [Result<(), Refusal>; 2],
    /// The prices of vertices and edges that the proved call gave.
    vertex: Vec<i32>,
    edge: Vec<i32>,
    /// Whether the answers are the same, the proved call gave the same prices twice or cleared all after a refusal, and nothing else was written.
    agreed: bool,
}

impl Priced {
    /// Prices by both programs, by the proved call twice, with outputs that hold other numbers.
    fn by(lending: &Lending) -> Priced {
        let Lending {
            graph,
            bound,
            vertices,
            edges,
        } = lending;
        let g = graph.lend();
        let mut own = (vec![9; *vertices], vec![9; *edges]);
        let expected = reference::price_general(&g, bound, &mut own.0, &mut own.1);
        let is_clear = |of: &[i32]| of.iter().all(|&price| price == 0);
        let mut agreed = expected.is_ok() || is_clear(&own.0) && is_clear(&own.1);
        let lent = GuardedEdges::of(&g);
        let lent_bound = Guarded::of(bound, 77);
        let mut given = Vec::new();
        let told = [-7, i32::MAX].map(|held| {
            let mut vertex = Guarded::new(*vertices, held, 77);
            let mut edge = Guarded::new(*edges, held, 77);
            let told = proved::price_general(
                &lent.lend(&g),
                lent_bound.lend(),
                vertex.lend_mut(),
                edge.lend_mut(),
            );
            agreed &= told == expected && vertex.unharmed() && edge.unharmed();
            agreed &= told.is_ok() || is_clear(vertex.lend()) && is_clear(edge.lend());
            given.push((vertex.lend().to_vec(), edge.lend().to_vec()));
            told
        });
        agreed &= given[0] == given[1];
        agreed &= lent.unharmed(&g) && lent_bound.unharmed() && lent_bound.lend() == bound;
        let (vertex, edge) = given.swap_remove(0);
        Priced {
            expected,
            told,
            vertex,
            edge,
            agreed,
        }
    }

    fn prices(&self) -> Prices<'_> {
        Prices {
            vertex: &self.vertex,
            edge: &self.edge,
        }
    }

    /// Whether answers and outputs are as they must be, whatever the prices are; if not, why.
    fn judge_answers(&self) -> Result<(), String> {
        match self.agreed {
            true => Ok(()),
            false => Err(format!("answered {:?}", self.told)),
        }
    }

    /// Whether the prices of a graph that can be doubled are right, and the gaps of subgraphs: of all feasible ones on a small graph, else of the empty one,
    /// of two drawn ones and of one by falling weight. The total, or why not.
    fn judge(&self, random: &mut Random, lending: &Lending) -> Result<i64, String> {
        self.judge_answers()?;
        self.expected.map_err(|refusal| format!("{refusal:?}"))?;
        let (g, bound) = (lending.graph.lend(), &lending.bound);
        let total = self.prices().judge(&g, bound)?;
        let subgraphs = if g.edges <= MOST_TRIED {
            feasible_subgraphs(&g, bound).collect()
        } else {
            vec![
                vec![0; g.edges as usize],
                feasible(random, &g, bound),
                feasible(random, &g, bound),
                falling(&g, bound),
            ]
        };
        self.prices().judge_gaps(&g, bound, total, &subgraphs)?;
        Ok(total)
    }
}

/// Prices a graph that can be doubled by both programs; the total, if it is right.
fn compare_right(
    random: &mut Random,
    lending: &Lending,
    mut seen: Vec<Seen>,
    tally: &mut Tally,
) -> Option<i64> {
    let priced = Priced::by(lending);
    let judged = priced.judge(random, lending);
    seen.push(Seen::of(&priced.expected));
    if let Ok(total) = judged {
        let g = lending.graph.lend();
        seen.extend(priced.prices().seen(&g, &lending.bound, total));
    }
    tally.note(&seen, judged.is_ok(), || {
        format!("{judged:?} {priced:?} {lending:?}")
    });
    judged.ok()
}

/// Graphs of these shapes, so many.
fn compare_shapes(
    random: &mut Random,
    name: &str,
    shapes: &[Shape],
    count: u64,
    more: &[&str],
) -> bool {
    let mut tally = Tally::new(name);
    for _ in 0..count {
        let shape = random.pick(shapes);
        let (lending, seen) = Lending::of(random, shape);
        compare_right(random, &lending, seen, &mut tally);
    }
    let mut demanded = vec![Seen::Result];
    demanded.extend(shapes.iter().map(|shape| shape.seen()));
    demanded.extend(all_ranges());
    demanded.extend(OF_PRICES.iter().chain(more).map(|words| other(*words)));
    tally.report_all(count, &demanded)
}

/// Graphs without odd rings, so many: the total is twice the largest weight, by the separately written solver of the bipartite graph that each is.
fn compare_sides(random: &mut Random, count: u64) -> bool {
    let mut tally = Tally::new("pricing, graphs without odd rings");
    for _ in 0..count {
        let side = random.pick(&[3, 10, 32]);
        let (rows, columns) = (1 + random.below(side) as u32, 1 + random.below(side) as u32);
        let mut sides = Lent::right(random, Kind::Bipartite, rows, columns, 512);
        sides.level(random);
        let of_sides = bounds(random, sides.vertices());
        let mut bound = of_sides.clone();
        bound.rotate_left(rows as usize);
        let lending = Lending::new(sides.one_sided(), bound);
        let total = compare_right(random, &lending, Vec::new(), &mut tally);
        let largest = Solved::of(&sides.lend(), &of_sides)
            .map(|best| 2 * weight_of(&sides.lend(), &best.chosen));
        tally.note(&[other("solved too")], largest.ok() == total, || {
            format!("{largest:?} {total:?} {sides:?} {of_sides:?}")
        });
    }
    tally.report_all(2 * count, &[Seen::Result, other("solved too")])
}

/// Some graphs of each family that the call's speed is measured on.
fn compare_families(random: &mut Random, count: usize) -> bool {
    let mut tally = Tally::new("pricing, families");
    let families = general_families();
    for (seed, family) in families.iter().enumerate() {
        for problem in family.problems(seed as u64, count) {
            let lending = Lending::new(problem.graph, problem.bound);
            compare_right(random, &lending, Vec::new(), &mut tally);
        }
    }
    tally.report((count * families.len()) as u64, &[])
}

/// A fault and what it led to.
fn led_to(fault: &Fault) -> Seen {
    other(format!("{}: refusal {}", fault.words, fault.number))
}

/// A refusal that comes before another.
fn before((first, then): (u32, u32)) -> Seen {
    other(format!("{first} before {then}"))
}

/// Refusals of edges, of which the first comes before the other.
const OF_EDGES: [(u32, u32); 3] = [(6, 7), (6, 8), (7, 8)];

/// The refusal of an edge that comes before that of an earlier edge.
fn before_earlier((first, then): (u32, u32)) -> Seen {
    other(format!("{first} before {then} of an earlier edge"))
}

/// Prices what is lent with faults by both programs; the first fault in the order of the tests decides.
fn compare_faulty(faulty: &Faulty, mut seen: Vec<Seen>, tally: &mut Tally) {
    let priced = Priced::by(&faulty.lending);
    let (first, others) = faulty.refusals.split_first().expect("a fault");
    for then in others {
        let both = (first.number, then.number);
        seen.push(before(both));
        if OF_EDGES.contains(&both) && then.place < first.place {
            seen.push(before_earlier(both));
        }
    }
    seen.push(Seen::of(&priced.expected));
    let judged = priced.judge_answers();
    let agreed = judged.is_ok() && priced.expected == Err(*first);
    tally.note(&seen, agreed, || {
        let (refusals, lending) = (&faulty.refusals, &faulty.lending);
        format!("{judged:?} {refusals:?} {priced:?} {lending:?}")
    });
}

/// Each fault by itself, so many times.
fn compare_faults(random: &mut Random, times: u64) -> bool {
    let mut tally = Tally::new("pricing, one fault");
    for fault in &FAULTS {
        for _ in 0..times {
            if let Some(faulty) = Faulty::with(random, &[fault]) {
                compare_faulty(&faulty, vec![led_to(fault)], &mut tally);
            }
        }
    }
    let mut demanded: Vec<_> = ORDER.map(Seen::Refusal).into();
    demanded.extend(FAULTS.iter().map(led_to));
    tally.report_all(times, &demanded)
}

/// Faults of every choice of two numbers or more, so many times.
fn compare_several_faults(random: &mut Random, times: u64) -> bool {
    let mut tally = Tally::new("pricing, several faults");
    for choice in 1..1u32 << ORDER.len() {
        let chosen = (0..ORDER.len()).filter(|at| choice >> at & 1 == 1);
        let numbers: Vec<_> = chosen.map(|at| ORDER[at]).collect();
        for _ in 0..times {
            if numbers.len() > 1 {
                let faulty = Faulty::of(random, &numbers);
                compare_faulty(&faulty, Vec::new(), &mut tally);
            }
        }
    }
    let mut demanded = Vec::new();
    for (at, &first) in ORDER.iter().enumerate() {
        demanded.extend(ORDER[at + 1..].iter().map(|&then| before((first, then))));
    }
    demanded.extend(OF_EDGES.map(before_earlier));
    tally.report_all(times, &demanded)
}

/// Prices what may be spoilt, with lengths that may be wrong.
fn compare_spoilt(random: &mut Random, tally: &mut Tally) {
    let kind = random.pick(&[Kind::General, Kind::General, Kind::Bipartite]);
    let mut graph = Lent::any_of(random, kind);
    for _ in 0..random.below(4) {
        graph.spoil(random);
    }
    let g = graph.lend();
    let (n, m) = (g.vertices(), u64::from(g.edges));
    let [of_bounds, vertices, edges] = [n, n, m].map(|right| wide_length(random, right));
    let range = random.pick(&[&(0..=64), &(0..=64), &(-1..=65)]);
    let lending = Lending {
        bound: numbers(random, of_bounds, range),
        vertices,
        edges,
        graph,
    };
    let priced = Priced::by(&lending);
    let judged = match priced.expected {
        Ok(()) => priced.judge(random, &lending).map(|_| ()),
        Err(_) => priced.judge_answers(),
    };
    let mut seen = vec![Seen::of(&priced.expected)];
    let mut lengths = edge_lengths(&lending.graph);
    let (n, m) = (n as usize, m as usize);
    lengths.push(("bound".into(), lending.bound.len(), n));
    lengths.push(("vertex price".into(), vertices, n));
    lengths.push(("edge price".into(), edges, m));
    seen.extend(wrong_length(&lengths));
    if n > u32::MAX as usize {
        seen.push(other(WRAPPED));
    }
    tally.note(&seen, judged.is_ok(), || {
        format!("{judged:?} {priced:?} {lending:?}")
    });
}

/// Compares pricing on `count` small graphs, on large ones, and on `count` inputs of which something may be wrong, and with each fault and several of them.
pub fn compare(seed: u64, count: u64) -> Vec<bool> {
    let mut random = Random::new(seed);
    let mut spoilt = Tally::new("pricing, anything");
    for _ in 0..count {
        compare_spoilt(&mut random, &mut spoilt);
    }
    let mut demanded = vec![Seen::Result, other(WRAPPED)];
    demanded.extend(ORDER.map(Seen::Refusal));
    demanded.extend(wrong_slices(&["bound", "vertex price", "edge price"]));
    let (small, large) = ("pricing, small graphs", "pricing, large graphs");
    let gaps = [PROVES, PROVES_NOTHING];
    vec![
        compare_shapes(&mut random, small, &Shape::SMALL, count, &gaps),
        compare_shapes(&mut random, large, &Shape::LARGE, count / 5, &[]),
        compare_sides(&mut random, count / 10),
        compare_families(&mut random, 10),
        compare_faults(&mut random, count / 200),
        compare_several_faults(&mut random, count / 200),
        spoilt.report_all(count, &demanded),
    ]
}
