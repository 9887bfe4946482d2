//! Prices of a general graph, by way of its doubled graph.

mod common;
use common::*;
use reference::*;

/// Tests the prices of a general graph without the measuring call, and with it
/// the empty subgraph. Hands back the prices and their total.
fn test_priced(graph: &OwnedGraph, bound: &[i32]) -> (Vec<i32>, Vec<i32>, i64) {
    let graph = graph.lend();
    let (vertex_price, edge_price) = priced(&graph, bound).unwrap();
    for price in vertex_price.iter().chain(&edge_price) {
        assert!((0..=2_000_000).contains(price));
    }
    for (edge, &price) in edge_price.iter().enumerate() {
        let ends = [graph.row[edge], graph.column[edge]];
        let [row, column] = ends.map(|end| vertex_price[end as usize - 1]);
        assert!(row + column + price >= 2 * graph.weight[edge]);
    }
    let paid = vertex_price.iter().zip(bound);
    let paid = paid.map(|(&price, &bound)| i64::from(price) * i64::from(bound));
    let total = paid.sum::<i64>()
        + edge_price
            .iter()
            .map(|&price| i64::from(price))
            .sum::<i64>();
    let (empty, none) = (vec![0; edge_price.len()], Sets::none());
    let found = measured(&graph, bound, &empty, &vertex_price, &edge_price, &none).unwrap();
    assert_eq!((found.total, found.gap), (total, total));
    (vertex_price, edge_price, total)
}

/// The largest weight of the doubled graph, by the solver.
fn doubled_weight(graph: &OwnedGraph, bound: &[i32]) -> i64 {
    let (twice, bounds) = doubled(&graph.lend(), bound);
    let found = solved(&twice.lend(), &bounds).unwrap();
    brute::weight_of(&twice.lend(), &found.chosen)
}

/// A small random general graph and its bounds, often all 1.
fn small(random: &mut Random) -> (OwnedGraph, Vec<i32>) {
    let rows = random.between(1, 6) as u32;
    let edges = random.between(0, 7) as u32;
    let most = random.pick(&[1, 3, 10, 1_000_000]);
    let least = random.pick(&[1, most / 2, 0, -most]);
    let graph = random_graph(random, Kind::General, rows, rows, edges, |random| {
        random.between(least, most)
    });
    let bounds = random.pick(&[&[1][..], &[0, 1, 1, 2, 3, 64]]);
    let bound = (0..rows).map(|_| random.pick(bounds)).collect();
    (graph, bound)
}

#[test]
fn doubled_by_hand() {
    let graph = OwnedGraph::new(Kind::General, 4, 4, &[(4, 2, -7), (2, 1, 5)]);
    let (twice, bounds) = doubled(&graph.lend(), &[1, 0, 64, 2]);
    let edges = [(4, 2, -7), (2, 4, -7), (2, 1, 5), (1, 2, 5)];
    assert_eq!(twice, OwnedGraph::new(Kind::Bipartite, 4, 4, &edges));
    assert_eq!(bounds, [1, 0, 64, 2, 1, 0, 64, 2]);
}

#[test]
fn priced_by_hand() {
    // The triangle: half a point for each vertex would do.
    assert_eq!(test_priced(&triangle(), &[1; 3]).2, 3);
    // With bounds of 2 all three edges fit: twice their weight.
    assert_eq!(test_priced(&triangle(), &[2; 3]).2, 6);
    assert_eq!(test_priced(&triangle(), &[1, 2, 1]).2, 4);
    assert_eq!(test_priced(&triangle(), &[0; 3]).2, 0);
    // The tank of the examples: 19 points without odd sets.
    let edges = [(2, 1, 10), (3, 1, 10), (3, 2, 10), (4, 3, 6), (5, 4, 4)];
    let tank = OwnedGraph::new(Kind::General, 5, 5, &edges);
    assert_eq!(test_priced(&tank, &[1; 5]).2, 38);
    // Nothing of weight above 0 costs nothing.
    let edges = [(2, 1, 0), (3, 1, -1), (3, 2, -1_000_000)];
    let idle = OwnedGraph::new(Kind::General, 3, 3, &edges);
    assert_eq!(test_priced(&idle, &[5; 3]), (vec![0; 3], vec![0; 3], 0));
    let single = OwnedGraph::new(Kind::General, 1, 1, &[]);
    assert_eq!(test_priced(&single, &[1]), (vec![0], vec![], 0));
    // One edge of the largest weight, and bounds that leave one way to price it.
    let pair = OwnedGraph::new(Kind::General, 2, 2, &[(2, 1, 1_000_000)]);
    let alone = test_priced(&pair, &[64, 64]);
    assert_eq!(alone, (vec![0, 0], vec![2_000_000], 2_000_000));
    let (vertex_price, _, total) = test_priced(&pair, &[0, 64]);
    assert_eq!((&vertex_price[..], total), (&[2_000_000, 0][..], 0));
}

#[test]
fn an_odd_ring_costs_more_than_its_subgraphs_weigh() {
    for length in [3, 5, 7] {
        let mut edges: Vec<_> = (2..=length).map(|row| (row, row - 1, 1)).collect();
        edges.push((length, 1, 1));
        let ring = OwnedGraph::new(Kind::General, length, length, &edges);
        let bound = vec![1; length as usize];
        assert_eq!(test_priced(&ring, &bound).2, i64::from(length));
        let best = largest_weight(&ring.lend(), &bound);
        assert_eq!(2 * best + 1, i64::from(length));
    }
}

#[test]
fn the_total_is_the_largest_weight_of_the_doubled_graph() {
    let mut random = Random::new(21);
    let (mut above, mut odd) = (0, 0);
    for _ in 0..3_000 {
        let (graph, bound) = small(&mut random);
        let total = test_priced(&graph, &bound).2;
        let (twice, bounds) = doubled(&graph.lend(), &bound);
        assert_eq!(total, largest_weight(&twice.lend(), &bounds), "{graph:?}");
        let best = largest_weight(&graph.lend(), &bound);
        assert!(total >= 2 * best, "{graph:?} {bound:?}");
        above += u32::from(total > 2 * best);
        odd += u32::from(total % 2 == 1);
    }
    assert!(above > 100 && odd > 50, "{above} {odd}");
}

#[test]
fn every_subgraph_has_a_gap_of_at_least_twice_what_it_lacks() {
    let mut random = Random::new(22);
    for _ in 0..500 {
        let (graph, bound) = small(&mut random);
        let (vertex_price, edge_price, total) = test_priced(&graph, &bound);
        let graph = graph.lend();
        let best = largest_weight(&graph, &bound);
        for chosen in feasible_subgraphs(&graph, &bound) {
            let none = Sets::none();
            let found = measured(&graph, &bound, &chosen, &vertex_price, &edge_price, &none);
            let found = found.unwrap();
            assert_eq!(found.total, total);
            assert!(found.gap >= 2 * (best - found.weight));
        }
    }
}

#[test]
fn without_an_odd_ring_the_total_is_twice_the_largest_weight() {
    let mut random = Random::new(23);
    for _ in 0..100 {
        let (rows, columns) = (random.between(1, 32) as u32, random.between(1, 32) as u32);
        let kind = Kind::Bipartite;
        let sides = random_graph(&mut random, kind, rows, columns, 512, |random| {
            random.between(-500_000, 1_000_000)
        });
        // The row vertices come after the column vertices.
        let mut one_sided = OwnedGraph {
            kind: Kind::General,
            rows: rows + columns,
            columns: rows + columns,
            ..sides.clone()
        };
        one_sided.row.iter_mut().for_each(|row| *row += columns);
        let top = random.pick(&[1, 4, 64]);
        let mut bounds = |count: u32| (0..count).map(|_| random.between(0, top)).collect();
        let (of_rows, of_columns): (Vec<_>, Vec<_>) = (bounds(rows), bounds(columns));
        let bound = [&of_columns[..], &of_rows].concat();
        let found = solved(&sides.lend(), &[of_rows, of_columns].concat()).unwrap();
        let best = brute::weight_of(&sides.lend(), &found.chosen);
        assert_eq!(test_priced(&one_sided, &bound).2, 2 * best);
    }
}

#[test]
fn the_largest_graphs() {
    let mut random = Random::new(24);
    let weights: [fn(&mut Random) -> i32; 5] = [
        |random| random.between(-1_000_000, 1_000_000),
        |random| random.between(1, 1_000_000),
        |random| random.between(0, 3),
        |_| 1_000_000,
        |_| -1,
    ];
    for (sort, weight) in weights.into_iter().enumerate() {
        for top in [0, 1, 4, 64] {
            let graph = random_graph(&mut random, Kind::General, 64, 64, 512, weight);
            let bound: Vec<_> = (0..64).map(|_| random.between(top.min(1), top)).collect();
            let total = test_priced(&graph, &bound).2;
            assert_eq!(total, doubled_weight(&graph, &bound));
            assert_eq!(total > 0, top > 0 && sort < 4);
        }
    }
}

#[test]
fn refusal_24_what_cannot_be_doubled() {
    let mut random = Random::new(25);
    let mut graph = |kind, rows, edges| {
        let graph = random_graph(&mut random, kind, rows, rows, edges, |_| 5);
        let bound = vec![1; vertices(&graph.lend())];
        priced(&graph.lend(), &bound).map(|_| ())
    };
    let refused = Err(refusal(24, 0));
    for edges in [0, 1, 512, 513, 1_024] {
        assert_eq!(graph(Kind::Bipartite, 64, edges), refused);
        assert_eq!(graph(Kind::General, 65, edges), refused);
        assert_eq!(graph(Kind::General, 128, edges), refused);
        let expected = if edges > 512 { refused } else { Ok(()) };
        assert_eq!(graph(Kind::General, 64, edges), expected);
    }
    assert_eq!(graph(Kind::Bipartite, 1, 0), refused);
    // All edges that 32 and 33 vertices have: 496 and 528.
    assert_eq!(graph(Kind::General, 32, 496), Ok(()));
    assert_eq!(graph(Kind::General, 33, 512), Ok(()));
    assert_eq!(graph(Kind::General, 33, 528), refused);
}

#[test]
fn lengths_of_prices() {
    let graph = triangle();
    let call = |bounds: usize, vertices: usize, edges: usize| {
        priced_with(&graph.lend(), &vec![1; bounds], vertices, edges).map(|_| ())
    };
    assert_eq!(call(3, 3, 3), Ok(()));
    for wrong in [0, 2, 4, 6] {
        assert_eq!(call(wrong, 3, 3), Err(refusal(9, 0)));
        assert_eq!(call(3, wrong, 3), Err(refusal(9, 0)));
        assert_eq!(call(3, 3, wrong), Err(refusal(9, 0)));
    }
    // The lengths of a bipartite graph go by rows and columns.
    let graph = case_2();
    let call = |count: usize| priced_with(&graph.lend(), &vec![1; count], count, 4).map(|_| ());
    assert_eq!(call(2), Err(refusal(9, 0)));
    assert_eq!(call(4), Err(refusal(24, 0)));
}

#[test]
fn numbers_are_written() {
    let text = |numbers: &[i32]| String::from_utf8(number_text(numbers)).unwrap();
    let header = "%%MatrixMarket matrix array integer general\n";
    assert_eq!(text(&[7]), format!("{header}1 1\n7\n"));
    let numbers = [0, 10, 2_000_000, -1];
    assert_eq!(text(&numbers), format!("{header}4 1\n0\n10\n2000000\n-1\n"));
    let most = vec![4_000_000; 1_152];
    let written = number_text(&most);
    assert_eq!(numbers_of(&written, 1_152, What::Prices), Ok(most));
    let extreme = text(&[i32::MIN; 1_152]);
    assert_eq!(extreme.len(), 44 + 7 + 1_152 * 12);
}
