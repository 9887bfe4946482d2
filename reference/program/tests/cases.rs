//! The twelve cases of document 01 and its near misses, with prices, totals,
//! slacks and gaps in half points.

mod common;
use common::*;
use reference::*;

/// The weight of the solver's subgraph, which must be optimal with gap 0.
fn solver_best(graph: &OwnedGraph, bound: &[i32]) -> i64 {
    let graph = graph.lend();
    let out = solved(&graph, bound).unwrap();
    let found = measured(
        &graph,
        bound,
        &out.chosen,
        &out.vertex_price,
        &out.edge_price,
        &Sets::none(),
    )
    .unwrap();
    assert_eq!(found.gap, 0);
    assert_eq!(found.weight, largest_weight(&graph, bound));
    found.weight
}

#[test]
fn case_1_no_edges() {
    let graph = OwnedGraph::new(Kind::Bipartite, 1, 1, &[]);
    assert_eq!(solver_best(&graph, &[0, 0]), 0);
    assert_eq!(
        written(&graph.lend(), &[]),
        Ok(plan("general", "1 1 0\n")),
        "the empty plan"
    );
}

#[test]
fn case_2_best_8() {
    assert_eq!(solver_best(&case_2(), &[1; 4]), 8);
    let out = solved(&case_2().lend(), &[1; 4]).unwrap();
    assert_eq!(out.chosen, [0, 1, 1, 0]);
}

#[test]
fn case_3_gap_4() {
    let graph = case_2();
    let found = measured(
        &graph.lend(),
        &[1; 4],
        &[1, 0, 0, 1],
        &[4, 2, 6, 4],
        &[0; 4],
        &Sets::none(),
    );
    assert_eq!(found, Ok(measures([6, 16, 0, 0, 0, 4, 4])));
    assert_eq!(largest_weight(&graph.lend(), &[1; 4]), 8);
}

#[test]
fn case_4_negative_weight() {
    let graph = star(&[-3]);
    assert_eq!(solver_best(&graph, &[1, 1]), 0);
    assert_eq!(solved(&graph.lend(), &[1, 1]).unwrap().chosen, [0]);
}

#[test]
fn case_5_bound_0() {
    let graph = star(&[7]);
    assert_eq!(solver_best(&graph, &[0, 5]), 0);
    let found = measured(&graph.lend(), &[0, 5], &[0], &[14, 0], &[0], &Sets::none());
    assert_eq!(found, Ok(measures([0, 0, 0, 0, 0, 0, 0])));
    assert_eq!(solver_best(&graph, &[5, 0]), 0);
}

#[test]
fn case_6_odd_set() {
    let graph = triangle();
    let sets = Sets::none().and(2, &[1, 2, 3], &[]);
    for chosen in [[1, 0, 0], [0, 1, 0], [0, 0, 1]] {
        let found = measured(&graph.lend(), &[1; 3], &chosen, &[0; 3], &[0; 3], &sets);
        assert_eq!(found, Ok(measures([1, 2, 0, 0, 0, 0, 0])));
    }
    let found = measured(&graph.lend(), &[1; 3], &[0; 3], &[0; 3], &[0; 3], &sets);
    assert_eq!(found, Ok(measures([0, 2, 0, 2, 0, 0, 2])));
}

#[test]
fn case_7_gap_without_lack() {
    let graph = triangle();
    let bound = [1; 3];
    assert_eq!(largest_weight(&graph.lend(), &bound), 1);
    // Edges are 2-1, 3-1 and 3-2; the second and third leave a vertex of price
    // 2 unused, the first is covered by 4 half points.
    for (chosen, vertices, cover) in [([1, 0, 0], 0, 2), ([0, 1, 0], 2, 0), ([0, 0, 1], 2, 0)] {
        let found = measured(
            &graph.lend(),
            &bound,
            &chosen,
            &[2, 2, 0],
            &[0; 3],
            &Sets::none(),
        );
        assert_eq!(found, Ok(measures([1, 4, vertices, 0, 0, cover, 2])));
    }
}

#[test]
fn case_8_weight_range() {
    let read = |weight: &str| graph_of(&sheet("general", &format!("1 1 1\n1 1 {weight}\n")));
    assert_eq!(read("1000000"), Ok(star(&[1_000_000])));
    assert_eq!(read("-1000000"), Ok(star(&[-1_000_000])));
    assert_eq!(read("1000001"), Err(refusal(7, 3)));
    assert_eq!(solver_best(&star(&[1_000_000]), &[1, 1]), 1_000_000);
    all_refuse(&star(&[1_000_001]).lend(), refusal(7, 1));
}

#[test]
fn case_9_bound_range() {
    let read = |bound: &str| numbers_of(&numbers(&format!("1 1\n{bound}\n")), 1, What::Bounds);
    assert_eq!(read("64"), Ok(vec![64]));
    assert_eq!(read("65"), Err(refusal(10, 3)));
    assert_eq!(solver_best(&star(&[7]), &[64, 64]), 7);
    let graph = star(&[7]);
    assert_eq!(solved(&graph.lend(), &[64, 65]), Err(refusal(10, 2)));
}

#[test]
fn case_10_even_sum() {
    let graph = OwnedGraph::new(Kind::General, 2, 2, &[]);
    let sets = Sets::none().and(2, &[1, 2], &[]);
    let found = measured(&graph.lend(), &[1, 1], &[], &[0; 2], &[], &sets);
    assert_eq!(found, Err(refusal(14, 1)));
}

#[test]
fn case_11_marked_edges() {
    let graph = star(&[1; 3]);
    let bound = [2, 1, 1, 1];
    let sets = Sets::none().and(2, &[1], &[1, 2, 3]);
    let call = |chosen: [u8; 3]| {
        measured(&graph.lend(), &bound, &chosen, &[0; 4], &[0; 3], &sets).unwrap()
    };
    assert_eq!(call([1, 0, 1]), measures([2, 4, 0, 0, 0, 0, 0]));
    // The capacity is 2, so two less are chosen than it allows here.
    assert_eq!(call([0, 0, 0]), measures([0, 4, 0, 4, 0, 0, 4]));
    assert_eq!(solver_best(&graph, &bound), 2);
}

#[test]
fn case_12_edge_price() {
    let graph = star(&[5, 3]);
    let bound = [2, 1, 1];
    let found = measured(
        &graph.lend(),
        &bound,
        &[1, 1],
        &[6, 0, 0],
        &[4, 0],
        &Sets::none(),
    );
    assert_eq!(found, Ok(measures([8, 16, 0, 0, 0, 0, 0])));
    assert_eq!(solver_best(&graph, &bound), 8);
}

#[test]
fn near_miss_bound_4_allows_5() {
    let graph = star(&[1, 1, 1, 1, 1]);
    let bound = [4, 1, 1, 1, 1, 1];
    assert_eq!(solver_best(&graph, &bound), 4);
    assert!(feasible_subgraphs(&graph.lend(), &bound).all(|chosen| chosen != [1; 5]));
    // All 32 subgraphs but the full one.
    assert_eq!(feasible_subgraphs(&graph.lend(), &bound).count(), 31);
}

#[test]
fn near_miss_falling_weight() {
    // Taking 5 first leaves only 1; the best takes 4 twice.
    let weight = solver_best(&case_2(), &[1; 4]);
    assert_ne!(weight, 6);
    assert_eq!(weight, 8);
}

#[test]
fn near_miss_negative_weights_fill_bounds() {
    let edges = [(1, 1, 5), (1, 2, -1), (2, 1, -1_000_000), (2, 2, 4)];
    let graph = OwnedGraph::new(Kind::Bipartite, 2, 2, &edges);
    assert_eq!(solver_best(&graph, &[64; 4]), 9);
    let out = solved(&graph.lend(), &[64; 4]).unwrap();
    assert_eq!(out.chosen, [1, 0, 0, 1]);
}

#[test]
fn near_miss_marked_edge_charged_twice() {
    // Bound 2 and one marked edge make 3, so the capacity is 1. The set covers
    // the marked edge once, though the edge touches the vertex inside, and does
    // not cover the other.
    let graph = star(&[5, 2]);
    let sets = Sets::none().and(10, &[1], &[1]);
    let call = |edge_price: [i32; 2], chosen: [u8; 2], sets: &Sets| {
        measured(
            &graph.lend(),
            &[2, 1, 1],
            &chosen,
            &[0; 3],
            &edge_price,
            sets,
        )
    };
    let found = call([0, 4], [1, 1], &sets);
    assert_eq!(found, Ok(measures([7, 14, 0, 0, 0, 0, 0])));
    assert_eq!(call([0, 3], [1, 1], &sets), Err(refusal(15, 2)));
    let low = Sets::none().and(9, &[1], &[1]);
    assert_eq!(call([0, 4], [1, 1], &low), Err(refusal(15, 1)));
}

#[test]
fn near_miss_inner_edge_charged_twice() {
    // Both ends inside: the set's price of 4 counts once.
    let edges = [(2, 1, 3), (3, 1, 1)];
    let graph = OwnedGraph::new(Kind::General, 3, 3, &edges);
    let sets = Sets::none().and(4, &[1, 2, 3], &[]);
    let call = |edge_price: [i32; 2]| {
        measured(&graph.lend(), &[1; 3], &[1, 0], &[0; 3], &edge_price, &sets)
    };
    assert_eq!(call([1, 0]), Err(refusal(15, 1)));
    assert_eq!(call([2, 0]), Ok(measures([3, 6, 0, 0, 0, 0, 0])));
}

#[test]
fn near_miss_gap_as_proof() {
    // Case 7: the gap is 2, and the subgraph is optimal all the same.
    let graph = triangle();
    let found = measured(
        &graph.lend(),
        &[1; 3],
        &[1, 0, 0],
        &[2, 2, 0],
        &[0; 3],
        &Sets::none(),
    )
    .unwrap();
    assert_eq!(found.gap, 2);
    assert_eq!(found.weight, largest_weight(&graph.lend(), &[1; 3]));
}

#[test]
fn all_slacks_at_once() {
    // Bounds 3, 2 and 1; edges 2-1, 3-1 and 3-2 of weights 4, -2 and 1. The set
    // of vertex 1 with edge 2 marked has 3 + 1 = 4, an even sum; with none it
    // has 3 and capacity 1. The set of 1 and 2 has 5; with edges 2 and 3
    // marked it has 7 and capacity 3, and covers all three edges.
    let edges = [(2, 1, 4), (3, 1, -2), (3, 2, 1)];
    let graph = OwnedGraph::new(Kind::General, 3, 3, &edges);
    let bound = [3, 2, 1];
    let sets = Sets::none().and(10, &[1], &[]).and(5, &[1, 2], &[2, 3]);
    let found = measured(
        &graph.lend(),
        &bound,
        &[1, 1, 0],
        &[1, 2, 3],
        &[7, 8, 9],
        &sets,
    );
    // weight 4 - 2; total 3 + 4 + 3, 7 + 8 + 9, 10 * 1, 5 * 3; vertices 1 * 1,
    // 2 * 1, 3 * 0; sets 10 * 1 and 5 * (3 - 2); edges 9; cover
    // 1 + 2 + 7 + 5 - 8 and 1 + 3 + 8 + 5 + 4; gap 59 - 4.
    assert_eq!(found, Ok(measures([2, 59, 3, 15, 9, 28, 55])));
}
