//! Prices in half points (document 02).

mod common;
use common::*;
use reference::*;

/// Measures a subgraph of the triangle with bounds 1. The seven prices are those
/// of its vertices, its edges, and the set of all its vertices.
fn measure_triangle(chosen: &[u8; 3], prices: &[i32; 7]) -> Result<Measures, Refusal> {
    let graph = triangle();
    let sets = Sets::none().and(prices[6], &[1, 2, 3], &[]);
    measured(
        &graph.lend(),
        &[1; 3],
        chosen,
        &prices[..3],
        &prices[3..6],
        &sets,
    )
}

#[test]
fn worth_of_points() {
    for (points, worth) in [(0, 0), (1, 2), (-3, -6), (1_000_000, 2_000_000)] {
        assert_eq!(half_points(points), worth);
        assert_eq!(half_points(i64::from(points)), i64::from(worth));
    }
}

#[test]
fn range_of_prices_in_texts() {
    let read = |prices: &[&str]| {
        let text = numbers(&format!("{} 1\n{}\n", prices.len(), prices.join("\n")));
        numbers_of(&text, prices.len() as u32, What::Prices)
    };
    let taken = ["0", "1", "2000000", "2000001", "3999999", "4000000"];
    let values = vec![0, 1, 2_000_000, 2_000_001, 3_999_999, 4_000_000];
    assert_eq!(read(&taken), Ok(values));
    for wrong in ["4000001", "-1"] {
        for at in 0..taken.len() {
            let mut prices = taken;
            prices[at] = wrong;
            assert_eq!(read(&prices), Err(refusal(13, at as u64 + 3)), "{wrong}");
        }
    }
}

#[test]
fn range_of_prices_in_the_measuring_call() {
    // Vertex prices of 1 cover every edge; each bound is 1, and so is the
    // capacity of the set.
    let covering = [1, 1, 1, 0, 0, 0, 0];
    for position in 0..7 {
        for price in [2_000_001, 3_999_999, 4_000_000] {
            let mut prices = covering;
            prices[position] = price;
            let total = 3 - covering[position] + price;
            let found = measure_triangle(&[0; 3], &prices).unwrap();
            assert_eq!((found.total, found.gap), (total.into(), total.into()));
        }
        for price in [-1, 4_000_001] {
            let mut prices = covering;
            prices[position] = price;
            let found = measure_triangle(&[0; 3], &prices);
            assert_eq!(found, Err(refusal(13, position as u64 + 1)));
        }
    }
}

#[test]
fn the_largest_total() {
    let mut random = Random::new(1);
    let graph = random_graph(&mut random, Kind::General, 128, 128, 1_024, |_| -1_000_000);
    let most = [4_000_000; 1_024];
    let call = |chosen: &[u8]| {
        let (vertex_price, none) = (&most[..128], Sets::none());
        measured(
            &graph.lend(),
            &[64; 128],
            chosen,
            vertex_price,
            &most,
            &none,
        )
        .unwrap()
    };
    // 128 * 64 + 1,024 prices of 4,000,000 each.
    let (vertices, edges) = (32_768_000_000, 4_096_000_000);
    let total = vertices + edges;
    assert_eq!(
        call(&[0; 1_024]),
        measures([0, total, vertices, 0, edges, 0, total])
    );
    // One edge is chosen: it is covered by three prices, and worth -2,000,000.
    let mut chosen = [0; 1_024];
    chosen[1_023] = 1;
    let expected = measures([
        -1_000_000,
        total,
        vertices - 8_000_000,
        0,
        edges - 4_000_000,
        14_000_000,
        total + 2_000_000,
    ]);
    assert_eq!(call(&chosen), expected);
}

#[test]
fn an_edge_is_covered_at_twice_its_weight() {
    let graph = star(&[1]);
    let call = |chosen: u8, vertex_price: [i32; 2], edge_price: i32| {
        let none = Sets::none();
        let graph = graph.lend();
        measured(
            &graph,
            &[1, 1],
            &[chosen],
            &vertex_price,
            &[edge_price],
            &none,
        )
    };
    assert_eq!(call(1, [1, 1], 0), Ok(measures([1, 2, 0, 0, 0, 0, 0])));
    assert_eq!(call(1, [1, 0], 1), Ok(measures([1, 2, 0, 0, 0, 0, 0])));
    assert_eq!(call(1, [2, 1], 0), Ok(measures([1, 3, 0, 0, 0, 1, 1])));
    assert_eq!(call(0, [1, 1], 1), Ok(measures([0, 3, 2, 0, 1, 0, 3])));
    for (vertex_price, edge_price) in [([1, 0], 0), ([0, 1], 0), ([0, 0], 1), ([0, 0], 0)] {
        let found = call(0, vertex_price, edge_price);
        assert_eq!(found, Err(refusal(15, 1)));
    }
}

#[test]
fn a_negative_weight_is_covered_by_prices_of_0() {
    let graph = star(&[-3]);
    let call = |price: i32| {
        let none = Sets::none();
        measured(&graph.lend(), &[1, 1], &[1], &[price, 0], &[0], &none)
    };
    assert_eq!(call(0), Ok(measures([-3, 0, 0, 0, 0, 6, 6])));
    assert_eq!(call(1), Ok(measures([-3, 1, 0, 0, 0, 7, 7])));
}

#[test]
fn half_a_point_at_each_vertex_of_the_triangle() {
    let halves = [1, 1, 1, 0, 0, 0, 0];
    for chosen in [[1, 0, 0], [0, 1, 0], [0, 0, 1]] {
        let found = measure_triangle(&chosen, &halves);
        assert_eq!(found, Ok(measures([1, 3, 1, 0, 0, 0, 1])));
    }
    let found = measure_triangle(&[0; 3], &halves);
    assert_eq!(found, Ok(measures([0, 3, 3, 0, 0, 0, 3])));
    // Half a point less at a vertex leaves an edge of it uncovered.
    for (vertex, edge) in [(0, 1), (1, 1), (2, 2)] {
        let mut prices = halves;
        prices[vertex] = 0;
        let found = measure_triangle(&[0; 3], &prices);
        assert_eq!(found, Err(refusal(15, edge)));
    }
    // The set's price makes up for it.
    let found = measure_triangle(&[1, 0, 0], &[1, 0, 1, 0, 0, 0, 1]);
    assert_eq!(found, Ok(measures([1, 3, 1, 0, 0, 0, 1])));
}

#[test]
fn odd_prices_are_marked() {
    let graph = sheet("symmetric", "3 3 3\n2 1 1\n3 1 1\n3 2 1\n");
    let bounds = numbers("3 1\n1\n1\n1\n");
    let subgraph = plan("symmetric", "3 3 1\n3 1\n");
    for (price, line) in [
        (
            "1",
            "merit 1 total 3 fish 1 groups 0 pairs 0 cover 0 gap 1\n",
        ),
        (
            "4000000",
            "merit 1 total 4000002 fish 1 groups 0 pairs 0 cover 3999999 gap 4000000\n",
        ),
        ("4000001", "refused 13 at 3 in prices.mtx\n"),
        ("0", "refused 15 at 1 in input\n"),
    ] {
        let prices = numbers(&format!("6 1\n{price}\n1\n1\n0\n0\n0\n"));
        let files = Files {
            graph: Some(&graph),
            bounds: Some(&bounds),
            subgraph: Some(&subgraph),
            prices: Some(&prices),
        };
        assert_eq!(mark_output(&files), line.as_bytes(), "{price}");
    }
}

#[test]
fn prices_of_the_solver() {
    // An edge alone: its weight in points, twice that in half points.
    for weight in [1, 5, 999_999, 1_000_000] {
        let graph = star(&[weight]);
        let out = solved(&graph.lend(), &[1, 1]).unwrap();
        let prices = [out.vertex_price, out.edge_price].concat();
        assert_eq!(prices.iter().sum::<i32>(), 2 * weight);
        assert!(prices.iter().all(|&price| price >= 0 && price % 2 == 0));
    }
    // A row of bound 0 needs the largest price there is.
    let out = solved(&star(&[1_000_000]).lend(), &[0, 1]).unwrap();
    assert_eq!(
        (out.vertex_price, out.edge_price),
        (vec![2_000_000, 0], vec![0])
    );
}
