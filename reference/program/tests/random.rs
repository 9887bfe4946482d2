//! Randomised tests with a fixed seed.

mod common;
use common::*;
use reference::*;

/// A weight of one of several sorts: small of both signs, 0, equal, extreme,
/// any.
fn weight_of_sort(random: &mut Random, sort: u64) -> i32 {
    match sort {
        0 => random.between(-3, 6),
        1 => random.between(0, 1),
        2 => 5,
        3 => random.pick(&[-1_000_000, 1_000_000, 999_999, 0]),
        4 => random.between(-1_000_000, -1),
        _ => random.between(-1_000_000, 1_000_000),
    }
}

/// A small random graph of at most ten edges.
fn small_graph(random: &mut Random, kind: Kind) -> OwnedGraph {
    let sort = random.below(6);
    let rows = random.between(1, 5) as u32;
    let columns = match kind {
        Kind::Bipartite => random.between(1, 5) as u32,
        Kind::General => rows,
    };
    let edges = random.between(0, 10) as u32;
    random_graph(random, kind, rows, columns, edges, |random| {
        weight_of_sort(random, sort)
    })
}

/// Bounds of 0, 1, 2 and 64.
fn bounds(random: &mut Random, graph: &OwnedGraph) -> Vec<i32> {
    let count = vertices(&graph.lend());
    (0..count)
        .map(|_| random.pick(&[0, 1, 1, 1, 2, 2, 64]))
        .collect()
}

/// Tests the solver's prices without the measuring call, and its subgraph and
/// prices with it. Hands back what the solver gave, and the weight.
fn test_solved(graph: &OwnedGraph, bound: &[i32]) -> (Solved, i64) {
    let graph = graph.lend();
    let out = solved(&graph, bound).unwrap();
    let rows = graph.rows as usize;
    for price in out.vertex_price.iter().chain(&out.edge_price) {
        assert!((0..=2_000_000).contains(price) && price % 2 == 0);
    }
    for edge in 0..graph.row.len() {
        let row = graph.row[edge] as usize - 1;
        let column = rows + graph.column[edge] as usize - 1;
        let cover = out.vertex_price[row] + out.vertex_price[column] + out.edge_price[edge];
        assert!(cover >= 2 * graph.weight[edge]);
    }
    let found = measured(
        &graph,
        bound,
        &out.chosen,
        &out.vertex_price,
        &out.edge_price,
        &Sets::none(),
    )
    .unwrap();
    assert_eq!(
        found,
        measures([found.weight, 2 * found.weight, 0, 0, 0, 0, 0]),
        "gap 0 and no slack"
    );
    (out, found.weight)
}

#[test]
fn solver_agrees_with_trying_every_subgraph() {
    let mut random = Random::new(1);
    let mut gaining = 0;
    for _ in 0..6_000 {
        let graph = small_graph(&mut random, Kind::Bipartite);
        let bound = bounds(&mut random, &graph);
        let best = largest_weight(&graph.lend(), &bound);
        assert_eq!(test_solved(&graph, &bound).1, best, "{graph:?} {bound:?}");
        gaining += u32::from(best > 0);
    }
    // The graphs are not all trivial.
    assert!(gaining > 2_000);
}

#[test]
fn solver_agrees_on_dense_graphs() {
    // All 16 edges of 4 by 4, where long paths are needed.
    let mut random = Random::new(2);
    for _ in 0..60 {
        let most = random.pick(&[3, 20, 1_000_000]);
        let graph = random_graph(&mut random, Kind::Bipartite, 4, 4, 16, |random| {
            random.between(0, most)
        });
        let top = random.between(1, 3);
        let bound: Vec<i32> = (0..8).map(|_| random.between(1, top)).collect();
        let best = largest_weight(&graph.lend(), &bound);
        assert_eq!(test_solved(&graph, &bound).1, best, "{graph:?} {bound:?}");
    }
}

#[test]
fn gap_against_the_solvers_prices_is_twice_the_lack() {
    let mut random = Random::new(9);
    let (mut subgraphs, mut lacking) = (0, 0);
    for _ in 0..2_000 {
        let graph = small_graph(&mut random, Kind::Bipartite);
        let bound = bounds(&mut random, &graph);
        let (out, best) = test_solved(&graph, &bound);
        let graph = graph.lend();
        for chosen in feasible_subgraphs(&graph, &bound) {
            let found = measured(
                &graph,
                &bound,
                &chosen,
                &out.vertex_price,
                &out.edge_price,
                &Sets::none(),
            )
            .unwrap();
            assert_eq!(found.gap, 2 * (best - found.weight));
            subgraphs += 1;
            lacking += u32::from(found.weight < best);
        }
    }
    assert!(subgraphs > 10_000 && lacking > 5_000);
}

#[test]
fn large_graphs_have_gap_0() {
    let mut random = Random::new(3);
    for round in 0..60 {
        let sort = round % 6;
        let graph = random_graph(&mut random, Kind::Bipartite, 64, 64, 1_024, |random| {
            weight_of_sort(random, sort)
        });
        let top = random.pick(&[1, 2, 4, 16, 64]);
        let bound: Vec<i32> = (0..128).map(|_| random.between(0, top)).collect();
        let (_, weight) = test_solved(&graph, &bound);
        assert_eq!(weight > 0, sort != 4);
    }
    // 1,024 edges of 32 by 32: every edge there is.
    for top in [1, 5, 31, 32] {
        let graph = random_graph(&mut random, Kind::Bipartite, 32, 32, 1_024, |random| {
            random.between(1, 1_000_000)
        });
        let (_, weight) = test_solved(&graph, &[top; 64]);
        let all: i64 = graph.weight.iter().map(|&w| i64::from(w)).sum();
        assert_eq!(weight == all, top == 32);
    }
}

/// Random odd sets that keep the rules: vertices inside, marked edges with one
/// end inside, and an odd sum.
fn random_sets(random: &mut Random, graph: &OwnedGraph, bound: &[i32]) -> Sets {
    let mut sets = Sets::none();
    for _ in 0..random.below(4) {
        let inside: Vec<bool> = bound.iter().map(|_| random.below(3) > 0).collect();
        let members: Vec<usize> = (1..=bound.len()).filter(|&v| inside[v - 1]).collect();
        let mut marked = Vec::new();
        for edge in 0..graph.row.len() {
            let second = match graph.kind {
                Kind::Bipartite => graph.rows + graph.column[edge],
                Kind::General => graph.column[edge],
            };
            let ends = [graph.row[edge], second].map(|end| inside[end as usize - 1]);
            if ends[0] != ends[1] && random.below(2) == 0 {
                marked.push(edge + 1);
            }
        }
        let sum = members.iter().map(|&v| bound[v - 1]).sum::<i32>() + marked.len() as i32;
        if sum % 2 == 0 && !marked.is_empty() {
            marked.pop();
        } else if sum % 2 == 0 {
            continue;
        }
        if !members.is_empty() {
            sets = sets.and(random.between(0, 16), &members, &marked);
        }
    }
    sets
}

/// Whether an odd set covers an edge, worked from lists of its members.
fn set_covers(graph: &OwnedGraph, sets: &Sets, set: usize, edge: usize) -> bool {
    let has = |words: &[u64], at: usize| words[at / 64] & (1 << (at % 64)) != 0;
    let second = match graph.kind {
        Kind::Bipartite => graph.rows + graph.column[edge],
        Kind::General => graph.column[edge],
    };
    let vertices = &sets.vertices[2 * set..2 * set + 2];
    let inside = |end: u32| has(vertices, end as usize - 1);
    has(&sets.edges[16 * set..16 * set + 16], edge) || inside(graph.row[edge]) && inside(second)
}

#[test]
fn gap_is_at_least_twice_the_lack() {
    let mut random = Random::new(4);
    let (mut subgraphs, mut with_sets, mut tight, mut odd) = (0, 0, 0, 0);
    for round in 0..6_000 {
        let kind = if round % 3 == 0 {
            Kind::Bipartite
        } else {
            Kind::General
        };
        let rows = random.between(1, 6) as u32;
        let edges = random.between(0, 10) as u32;
        let graph = random_graph(&mut random, kind, rows, rows, edges, |random| {
            random.between(-4, 8)
        });
        let n = vertices(&graph.lend());
        let bound: Vec<i32> = (0..n)
            .map(|_| random.pick(&[0, 1, 1, 2, 2, 3, 64]))
            .collect();
        let sets = random_sets(&mut random, &graph, &bound);
        let count = sets.price.len();
        let vertex_price: Vec<i32> = (0..n).map(|_| random.between(0, 6)).collect();
        // Edge prices make up for what lacks of the cover.
        let mut edge_price = Vec::new();
        for edge in 0..graph.row.len() {
            let column = match kind {
                Kind::Bipartite => rows + graph.column[edge],
                Kind::General => graph.column[edge],
            };
            let ends = [graph.row[edge], column].map(|end| vertex_price[end as usize - 1]);
            let over: i32 = (0..count)
                .filter(|&set| set_covers(&graph, &sets, set, edge))
                .map(|set| sets.price[set])
                .sum();
            let lack = 2 * graph.weight[edge] - ends[0] - ends[1] - over;
            edge_price.push(lack.max(0) + random.pick(&[0, 0, 0, 1]));
        }
        let best = largest_weight(&graph.lend(), &bound);
        let mut total = None;
        for chosen in feasible_subgraphs(&graph.lend(), &bound) {
            let found = measured(
                &graph.lend(),
                &bound,
                &chosen,
                &vertex_price,
                &edge_price,
                &sets,
            )
            .unwrap();
            let weight: i64 = (0..chosen.len())
                .map(|edge| i64::from(chosen[edge]) * i64::from(graph.weight[edge]))
                .sum();
            assert_eq!(found.weight, weight);
            let slacks = [found.vertices, found.sets, found.edges, found.cover];
            assert!(slacks.iter().all(|&slack| slack >= 0), "{found:?}");
            assert_eq!(slacks.iter().sum::<i64>(), found.gap);
            assert_eq!(found.gap, found.total - 2 * found.weight);
            assert_eq!(*total.get_or_insert(found.total), found.total);
            assert!(found.gap >= 2 * (best - weight));
            subgraphs += 1;
            with_sets += u32::from(count > 0);
            tight += u32::from(found.gap == 2 * (best - weight));
            odd += u32::from(found.gap % 2 == 1);
        }
    }
    assert!(subgraphs > 50_000 && with_sets > 20_000 && tight > 0 && odd > 10_000);
}

#[test]
fn written_subgraphs_read_back() {
    let mut random = Random::new(5);
    for round in 0..600 {
        let (kind, word) = if round % 2 == 0 {
            (Kind::Bipartite, "general")
        } else {
            (Kind::General, "symmetric")
        };
        let rows = match kind {
            Kind::Bipartite => random.between(1, 64),
            Kind::General => random.between(1, 128),
        } as u32;
        let columns = match kind {
            Kind::Bipartite => random.between(1, 64) as u32,
            Kind::General => rows,
        };
        let edges = random.pick(&[0, 1, 7, 100, 1_024]);
        let graph = random_graph(&mut random, kind, rows, columns, edges, |_| 0);
        let share = random.pick(&[0, 1, 2, 4]);
        let chosen: Vec<u8> = graph
            .row
            .iter()
            .map(|_| u8::from(random.below(4) < share))
            .collect();
        let text = written(&graph.lend(), &chosen).unwrap();
        let mut expected = String::new();
        for (edge, &mark) in chosen.iter().enumerate() {
            if mark == 1 {
                expected += &format!("{} {}\n", graph.row[edge], graph.column[edge]);
            }
        }
        let count = chosen.iter().filter(|&&mark| mark == 1).count();
        let expected = format!("{rows} {columns} {count}\n{expected}");
        assert_eq!(text, plan(word, &expected));
        assert_eq!(subgraph_of(&text, &graph.lend()), Ok(chosen));
    }
}

#[test]
fn written_graphs_read_back() {
    let mut random = Random::new(6);
    for round in 0..300 {
        let (kind, word) = if round % 2 == 0 {
            (Kind::Bipartite, "general")
        } else {
            (Kind::General, "symmetric")
        };
        let rows = random.between(1, 64) as u32;
        let graph = random_graph(&mut random, kind, rows, rows, 1_024, |random| {
            random.between(-1_000_000, 1_000_000)
        });
        let m = graph.row.len();
        let mut text = format!("{rows} {rows} {m}\n");
        for edge in 0..m {
            text += &format!(
                "{} {} {}\n",
                graph.row[edge], graph.column[edge], graph.weight[edge]
            );
        }
        assert_eq!(graph_of(&sheet(word, &text)), Ok(graph));
    }
}

#[test]
fn spoilt_texts_are_read_or_refused_whole() {
    // The calls in `common` test the outputs after each refusal; no text may make a
    // reader panic.
    let mut random = Random::new(7);
    let graph = case_2();
    let texts = [
        sheet(
            "general",
            "% c\n2 2 4\n1 1 5\n1 2 4\n\n2 1 4\n2 2 -1000000\n",
        ),
        sheet("symmetric", "3 3 3\n2 1 1\n3 1 1\n3 2 1"),
        plan("general", "2 2 2\n1 2\n2 1\n"),
        numbers("4 1\n1\n64\n0\n1\n"),
    ];
    let bytes = b"0123456789+-% \t\n\rxGg";
    let (mut taken, mut refused) = (0, 0);
    for _ in 0..40_000 {
        let mut text = random.pick(&[0, 1, 2, 3].map(|at| &texts[at])).clone();
        for _ in 0..random.between(1, 3) {
            let at = random.below(text.len() as u64) as usize;
            match random.below(3) {
                0 => text[at] = random.pick(bytes),
                1 => text.insert(at, random.pick(bytes)),
                _ => {
                    text.remove(at);
                }
            }
        }
        let lines = text.iter().filter(|&&byte| byte == b'\n').count() as u64;
        let results = [
            graph_of(&text).err(),
            subgraph_of(&text, &graph.lend()).err(),
            numbers_of(&text, 4, What::Bounds).err(),
            numbers_of(&text, 4, What::Prices).err(),
        ];
        for result in results {
            match result {
                None => taken += 1,
                Some(refusal) => {
                    refused += 1;
                    assert!((1..=lines + 2).contains(&refusal.place));
                }
            }
        }
    }
    assert!(taken > 1_000 && refused > 1_000);
}

#[test]
fn trying_every_subgraph() {
    // Case 2 with bounds 1: the empty one, four of one edge, two of two.
    let graph = case_2();
    let all: Vec<_> = feasible_subgraphs(&graph.lend(), &[1; 4]).collect();
    assert_eq!(all.len(), 7);
    assert!(all.contains(&vec![0; 4]) && all.contains(&vec![0, 1, 1, 0]));
    assert!(!all.contains(&vec![1, 1, 0, 0]));
    // The triangle with bounds 1: the empty one and three of one edge.
    let graph = triangle();
    assert_eq!(feasible_subgraphs(&graph.lend(), &[1; 3]).count(), 4);
    // Bounds 2 leave all 8, of weight 3 at best.
    assert_eq!(feasible_subgraphs(&graph.lend(), &[2; 3]).count(), 8);
    assert_eq!(largest_weight(&graph.lend(), &[2; 3]), 3);
    assert_eq!(largest_weight(&graph.lend(), &[1, 2, 1]), 2);
    assert_eq!(largest_weight(&star(&[-3, -1]).lend(), &[2, 1, 1]), 0);
}

#[test]
fn splitmix64() {
    // The published first outputs for this seed.
    let mut random = Random::new(1_234_567);
    assert_eq!(random.bits(), 6_457_827_717_110_365_317);
    assert_eq!(random.bits(), 3_203_168_211_198_807_973);
    assert_eq!(random.bits(), 9_817_491_932_198_370_423);
    assert_eq!(random.bits(), 4_593_380_528_125_082_431);
    assert_eq!(random.bits(), 16_408_922_859_458_223_821);
}
