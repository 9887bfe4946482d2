//! The order in which refusals are tested: an input that breaks every rule is
//! mended rule by rule.

mod common;
use common::*;
use reference::*;

/// Edges that break 6, 7 and 8, and how to mend each.
fn broken_edges() -> Vec<(u32, u32, i32)> {
    vec![
        (1, 1, 5),
        (1, 1, 5),
        (2, 1, 1_000_001),
        (2, 2, 5),
        (3, 3, 5),
    ]
}

/// Each step mends the rule of one refusal and tells what is refused after it.
fn mend(edges: &mut [(u32, u32, i32)], rule: u32) {
    match rule {
        6 => edges[4] = (1, 2, 5),
        7 => edges[2].2 = -1_000_000,
        8 => edges[1] = (1, 3, 5),
        _ => panic!("no such rule"),
    }
}

#[test]
fn order_of_measure() {
    let mut edges = broken_edges();
    let mut rows = 65;
    let mut bound = vec![65; 67];
    let mut chosen = [1, 2, 1, 1, 1];
    let mut vertex_price = vec![4_000_001; 67];
    let mut edge_price = [0; 5];
    let mut sets = Sets::none().and(1, &[], &[]);
    for expected in [9, 4, 6, 7, 8, 10, 11, 12, 13, 14, 15, 0] {
        let graph = OwnedGraph::new(Kind::Bipartite, rows, 3, &edges);
        let found = measured(
            &graph.lend(),
            &bound,
            &chosen,
            &vertex_price,
            &edge_price,
            &sets,
        );
        assert_eq!(found.err().map_or(0, |refusal| refusal.number), expected);
        match expected {
            9 => {
                bound.push(65);
                vertex_price.push(4_000_001);
            }
            4 => {
                rows = 2;
                bound.truncate(5);
                vertex_price.truncate(5);
            }
            6..=8 => mend(&mut edges, expected),
            10 => bound = vec![1; 5],
            11 => chosen[1] = 1,
            12 => bound = vec![3; 5],
            13 => vertex_price = vec![1; 5],
            14 => sets = Sets::none().and(1, &[1], &[]),
            15 => edge_price = [10; 5],
            _ => {}
        }
    }
}

#[test]
fn order_of_solve() {
    let mut edges = vec![(2, 1, 5), (2, 1, 5), (3, 1, 1_000_001), (1, 1, 5)];
    let mut kind = Kind::General;
    let mut rows = 129;
    let mut bound = vec![65; 129];
    let mut index = vec![9; 137];
    for expected in [9, 4, 6, 7, 8, 10, 16, 18, 0] {
        let graph = OwnedGraph::new(kind, rows, rows, &edges);
        let found = solved_with(&graph.lend(), &bound, &index);
        assert_eq!(found.err().map_or(0, |refusal| refusal.number), expected);
        match expected {
            9 => index.push(9),
            4 => {
                rows = 3;
                bound.truncate(3);
                index.truncate(12);
            }
            6 => edges[3] = (3, 2, 5),
            7 => edges[2].2 = 5,
            8 => {
                edges.remove(1);
                index.truncate(10);
            }
            10 => bound = vec![1; 3],
            16 => {
                kind = Kind::Bipartite;
                bound = vec![1; 6];
                index.resize(13, 9);
            }
            18 => index = vec![0, 0, 1, 3, 5, 6, 6, 1, 2, 3, 1, 2, 3],
            _ => {}
        }
    }
}

#[test]
fn order_of_price() {
    let mut edges = vec![(2, 1, 5), (2, 1, 5), (3, 1, 1_000_001), (1, 1, 5)];
    let mut rows = 129;
    let mut bound = vec![65; 128];
    for expected in [9, 4, 6, 7, 8, 10, 24, 0] {
        let graph = OwnedGraph::new(Kind::General, rows, rows, &edges);
        let found = priced(&graph.lend(), &bound);
        assert_eq!(found.err().map_or(0, |refusal| refusal.number), expected);
        match expected {
            9 => bound.push(65),
            4 => {
                rows = 65;
                bound.truncate(65);
            }
            6 => edges[3] = (3, 2, 5),
            7 => edges[2].2 = 5,
            8 => drop(edges.remove(1)),
            10 => bound = vec![1; 65],
            24 => {
                rows = 64;
                bound.truncate(64);
            }
            _ => {}
        }
    }
}

#[test]
fn order_of_building_and_testing_an_index() {
    let mut edges = broken_edges();
    let mut rows = 65;
    let mut index = vec![9; 78];
    for expected in [9, 4, 6, 7, 8, 18, 0] {
        let graph = OwnedGraph::new(Kind::Bipartite, rows, 3, &edges);
        let number = |found: Result<(), Refusal>| found.err().map_or(0, |refusal| refusal.number);
        assert_eq!(number(test_index(&graph.lend(), &index)), expected);
        let built = number(build_index(&graph.lend(), &mut index.clone()));
        assert_eq!(built, if expected == 18 { 0 } else { expected });
        match expected {
            9 => index.push(9),
            4 => {
                rows = 2;
                index.truncate(16);
            }
            6..=8 => mend(&mut edges, expected),
            18 => build_index(&graph.lend(), &mut index).unwrap(),
            _ => {}
        }
    }
}

#[test]
fn order_of_write() {
    let mut edges = broken_edges();
    let mut rows = 65;
    let mut chosen = vec![2; 4];
    for expected in [9, 4, 6, 7, 8, 11, 0] {
        let graph = OwnedGraph::new(Kind::Bipartite, rows, 3, &edges);
        let found = written(&graph.lend(), &chosen);
        assert_eq!(found.err().map_or(0, |refusal| refusal.number), expected);
        match expected {
            9 => chosen.push(1),
            4 => rows = 2,
            6..=8 => mend(&mut edges, expected),
            11 => chosen = vec![1; 5],
            _ => {}
        }
    }
}

#[test]
fn order_of_tidy() {
    let mut edges = broken_edges();
    let mut rows = 65;
    let mut out = vec![7; 32_767];
    for expected in [9, 4, 6, 7, 8, 0] {
        let graph = OwnedGraph::new(Kind::Bipartite, rows, 3, &edges);
        let found = tidy_graph(&graph.lend(), &mut out);
        assert_eq!(found.err().map_or(0, |refusal| refusal.number), expected);
        match expected {
            9 => out.push(7),
            4 => rows = 2,
            6..=8 => mend(&mut edges, expected),
            _ => {}
        }
    }
}

#[test]
fn order_of_the_subgraph_reader() {
    let mut edges = broken_edges();
    let mut rows = 65;
    let mut chosen = vec![7; 4];
    let mut text = vec![b' '; 32_769];
    for expected in [9, 4, 6, 7, 8, 1, 2, 0] {
        let graph = OwnedGraph::new(Kind::Bipartite, rows, 3, &edges);
        let found = read_subgraph(&text, &graph.lend(), &mut chosen);
        assert_eq!(found.err().map_or(0, |refusal| refusal.number), expected);
        match expected {
            9 => chosen.push(7),
            4 => rows = 2,
            6..=8 => mend(&mut edges, expected),
            1 => text.clear(),
            2 => text = plan("general", "2 3 0"),
            _ => {}
        }
    }
}

#[test]
fn order_of_the_other_readers() {
    let long = vec![b' '; 32_769];
    let found = read_graph(&long, &mut [0; 3], &mut [0; 1_024], &mut [0; 1_024]);
    assert_eq!(found, Err(refusal(9, 0)));
    let found = read_numbers(&long, 1_153, What::Bounds, &mut [0; 1_152]);
    assert_eq!(found, Err(refusal(9, 0)));
    let found = read_numbers(&long, 1_153, What::Bounds, &mut [0; 1_153]);
    assert_eq!(found, Err(refusal(4, 0)));
    let found = read_numbers(&long, 1_152, What::Bounds, &mut [0; 1_152]);
    assert_eq!(found, Err(refusal(1, 0)));
}

#[test]
fn each_test_goes_over_all_items() {
    // The later edge breaks the rule that is tested first.
    let edges = [(1, 1, 1_000_001), (1, 1, 5), (1, 4, 5)];
    let mut graph = OwnedGraph::new(Kind::Bipartite, 1, 3, &edges);
    all_refuse(&graph.lend(), refusal(6, 3));
    graph.column[2] = 1;
    all_refuse(&graph.lend(), refusal(7, 1));
    graph.weight = vec![5, 5, -1_000_001];
    all_refuse(&graph.lend(), refusal(7, 3));
    graph.weight[2] = 5;
    all_refuse(&graph.lend(), refusal(8, 2));
}

#[test]
fn order_on_a_line() {
    let read = |lines: &str| graph_of(&sheet("general", lines)).unwrap_err();
    assert_eq!(read("65 1"), refusal(3, 2));
    assert_eq!(read("65 1 x"), refusal(3, 2));
    assert_eq!(read("2 2 1\n3 1 x"), refusal(5, 3));
    assert_eq!(read("2 2 1\n3 1 1000001"), refusal(6, 3));
    assert_eq!(read("2 2 2\n1 1 1\n1 1 1000001"), refusal(7, 4));
    assert_eq!(read("2 2 2\n1 1 1\n1 1 x"), refusal(5, 4));
    // From the top: an earlier line first, and a missing line last.
    assert_eq!(read("2 2 3\n1 1 1\n1 1 1\n1 1 x"), refusal(8, 4));
    assert_eq!(read("2 2 3\n1 1 1\n3 1 1"), refusal(6, 4));

    let graph = case_2();
    let read = |lines: &str| subgraph_of(&plan("general", lines), &graph.lend()).unwrap_err();
    assert_eq!(read("65 2 5"), refusal(4, 2));
    assert_eq!(read("65 2 x"), refusal(3, 2));
    assert_eq!(read("2 2 2\n1 1\n1 1 1"), refusal(5, 4));
    assert_eq!(read("2 2 3\n1 1\n1 1"), refusal(8, 4));
    // The kind is found on line 1, before the size line.
    let text = plan("symmetric", "65 2 x");
    assert_eq!(subgraph_of(&text, &graph.lend()), Err(refusal(17, 1)));
    // A pair out of range is 6, one in range that is not on the sheet is 17.
    let graph = OwnedGraph::new(Kind::General, 3, 3, &[(2, 1, 5)]);
    for (line, number) in [("1 2", 6), ("1 3", 6), ("3 2", 17)] {
        let text = plan("symmetric", &format!("3 3 1\n{line}"));
        let found = subgraph_of(&text, &graph.lend());
        assert_eq!(found, Err(refusal(number, 3)), "{line}");
    }
}
