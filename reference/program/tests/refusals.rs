//! Every row of the refusal table, for each call that it concerns.

mod common;
use common::*;
use reference::*;

const GENERAL: &str = "general";
const SYMMETRIC: &str = "symmetric";

#[test]
fn refusal_1_text_too_long() {
    let text = vec![b' '; 32_769];
    let expected = refusal(1, 0);
    assert_eq!(graph_of(&text), Err(expected));
    assert_eq!(numbers_of(&text, 4, What::Bounds), Err(expected));
    assert_eq!(numbers_of(&text, 4, What::Prices), Err(expected));
    assert_eq!(subgraph_of(&text, &case_2().lend()), Err(expected));
    // One byte less is not too long; its one line is.
    let text = &text[1..];
    let expected = refusal(2, 1);
    assert_eq!(graph_of(text), Err(expected));
    assert_eq!(numbers_of(text, 4, What::Bounds), Err(expected));
    assert_eq!(subgraph_of(text, &case_2().lend()), Err(expected));
}

#[test]
fn a_text_of_the_most_bytes_is_read() {
    let mut text = sheet(GENERAL, "1 1 1\n1 1 5\n");
    while text.len() < 32_768 {
        let left = 32_768 - text.len();
        text.extend(vec![b' '; left.min(1_024)]);
        if text.len() < 32_768 {
            text.push(b'\n');
        }
    }
    assert_eq!(graph_of(&text), Ok(star(&[5])));
    text.push(b'\n');
    assert_eq!(graph_of(&text), Err(refusal(1, 0)));
}

#[test]
fn refusal_2_no_accepted_header() {
    let long = |mut text: Vec<u8>| {
        text.truncate(text.len() - 1);
        text.resize(1_025, b' ');
        text
    };
    let expected = refusal(2, 1);
    let graph = case_2();
    let texts = [
        b"".to_vec(),
        b"\n".to_vec(),
        b"2 2 0\n".to_vec(),
        b"%%MatrixMarket\n".to_vec(),
        b"%%MatrixMarket matrix coordinate real general\n".to_vec(),
        b"\n%%MatrixMarket matrix coordinate integer general\n".to_vec(),
    ];
    for text in &texts {
        assert_eq!(graph_of(text), Err(expected));
        assert_eq!(numbers_of(text, 4, What::Bounds), Err(expected));
        assert_eq!(numbers_of(text, 4, What::Prices), Err(expected));
        assert_eq!(subgraph_of(text, &graph.lend()), Err(expected));
    }
    assert_eq!(graph_of(&long(sheet(GENERAL, ""))), Err(expected));
    assert_eq!(
        numbers_of(&long(numbers("")), 4, What::Bounds),
        Err(expected)
    );
    let text = long(plan(GENERAL, ""));
    assert_eq!(subgraph_of(&text, &graph.lend()), Err(expected));
}

#[test]
fn refusal_3_size_line() {
    let graph = case_2();
    let long = "1".to_string() + &" ".repeat(1_024);
    for (lines, place) in [
        ("2 2", 2),
        ("2 2\n", 2),
        ("2 2 0 0\n", 2),
        ("2 2 x\n", 2),
        ("2 -2 0\n", 2),
        ("\n% c\n2 2\n", 4),
        ("", 2),
        (long.as_str(), 2),
    ] {
        let expected = refusal(3, place);
        assert_eq!(graph_of(&sheet(GENERAL, lines)), Err(expected), "{lines}");
        let text = plan(GENERAL, lines);
        assert_eq!(subgraph_of(&text, &graph.lend()), Err(expected), "{lines}");
    }
    for (lines, place) in [
        ("4", 2),
        ("4 1 1\n", 2),
        ("4 +1\n", 2),
        ("% c\n\n4\n", 4),
        ("", 2),
        (long.as_str(), 2),
    ] {
        let text = numbers(lines);
        let expected = refusal(3, place);
        for what in [What::Bounds, What::Prices] {
            assert_eq!(numbers_of(&text, 4, what), Err(expected), "{lines}");
        }
    }
}

#[test]
fn refusal_4_sizes_in_texts() {
    let at_2 = refusal(4, 2);
    for line in ["65 1 0", "1 65 0", "0 1 0", "1 0 0", "1 1 1025"] {
        assert_eq!(graph_of(&sheet(GENERAL, line)), Err(at_2), "{line}");
        let text = plan(GENERAL, line);
        assert_eq!(
            subgraph_of(&text, &case_2().lend()),
            Err(at_2),
            "plan {line}"
        );
    }
    for line in ["129 129 0", "0 0 0", "2 3 0", "3 2 0", "3 3 1025"] {
        assert_eq!(graph_of(&sheet(SYMMETRIC, line)), Err(at_2), "{line}");
        let text = plan(SYMMETRIC, line);
        assert_eq!(
            subgraph_of(&text, &triangle().lend()),
            Err(at_2),
            "plan {line}"
        );
    }
    assert_eq!(
        graph_of(&sheet(GENERAL, "\n%\n\n65 1 0")),
        Err(refusal(4, 5))
    );
    for line in ["64 64 0", "1 64 0", "64 1 0"] {
        assert!(graph_of(&sheet(GENERAL, line)).is_ok(), "{line}");
    }
    for line in ["128 128 0", "1 1 0"] {
        assert!(graph_of(&sheet(SYMMETRIC, line)).is_ok(), "{line}");
    }
    let text = numbers("3 1\n1\n1\n1\n");
    assert_eq!(numbers_of(&text, 4, What::Bounds), Err(at_2));
    assert_eq!(numbers_of(&text, 2, What::Prices), Err(at_2));
    assert_eq!(numbers_of(&text, 3, What::Prices), Ok(vec![1, 1, 1]));
}

#[test]
fn refusal_4_sizes_passed() {
    for count in [0, 1_153, 100_000] {
        let text = numbers(&format!("{count} 1\n"));
        for what in [What::Bounds, What::Prices] {
            assert_eq!(numbers_of(&text, count, what), Err(refusal(4, 0)));
        }
    }
    let expected = refusal(4, 0);
    for (rows, columns) in [(0, 1), (1, 0), (65, 1), (1, 65)] {
        let graph = OwnedGraph::new(Kind::Bipartite, rows, columns, &[]);
        all_refuse(&graph.lend(), expected);
    }
    for (rows, columns) in [(0, 0), (129, 129), (2, 3), (3, 2)] {
        let graph = OwnedGraph::new(Kind::General, rows, columns, &[]);
        all_refuse(&graph.lend(), expected);
    }
    let edges: Vec<_> = (0..1_025).map(|at| (at / 64 + 1, at % 64 + 1, 0)).collect();
    let graph = OwnedGraph::new(Kind::Bipartite, 64, 64, &edges);
    all_refuse(&graph.lend(), expected);
    let graph = OwnedGraph::new(Kind::Bipartite, 64, 64, &edges[1..]);
    assert!(solved(&graph.lend(), &[1; 128]).is_ok());
    assert!(written(&graph.lend(), &[0; 1_024]).is_ok());
    assert!(tidied(&graph.lend()).is_ok());
}

#[test]
fn refusal_5_later_lines() {
    let graph = case_2();
    let long = "1 1 5".to_string() + &" ".repeat(1_020);
    for (lines, place) in [
        ("2 2 1\n1 1 x7\n", 3),
        ("2 2 1\n1 1 7x\n", 3),
        ("2 2 1\n1 1\n", 3),
        ("2 2 1\n1 1 5 5\n", 3),
        ("2 2 1\n1 1 5.0\n", 3),
        ("2 2 1\n1 1 5,\n", 3),
        ("2 2 1\n% c\n1 1 5\n", 3),
        ("2 2 1\n1 1 5\n% c\n", 4),
        ("2 2 1\n1 1 5\n\n1 2 5", 5),
        ("2 2 0\n1 1 5", 3),
        ("2 2 2\n1 1 5", 4),
        ("2 2 2\n1 1 5\n\n", 5),
        (&format!("2 2 1\n{long}\n"), 3),
    ] {
        let found = graph_of(&sheet(GENERAL, lines));
        assert_eq!(found, Err(refusal(5, place)), "{lines}");
    }
    for (lines, place) in [
        ("2 2 1\n1 x1\n", 3),
        ("2 2 1\n1\n", 3),
        ("2 2 1\n1 1 1\n", 3),
        ("2 2 1\n+1 1\n", 3),
        ("2 2 1\n1 1\n1 2\n", 4),
        ("2 2 2\n1 1\n", 4),
        ("2 2 1\n% c\n1 1\n", 3),
        (&format!("2 2 1\n1 1{}", " ".repeat(1_022)), 3),
    ] {
        let found = subgraph_of(&plan(GENERAL, lines), &graph.lend());
        assert_eq!(found, Err(refusal(5, place)), "{lines}");
    }
    for (lines, place) in [
        ("2 1\nx7\n1\n", 3),
        ("2 1\n1 1\n", 3),
        ("2 1\n1\n", 4),
        ("2 1\n1\n1\n1\n", 5),
        ("2 1\n1\n%\n1\n", 4),
        (&format!("2 1\n1\n1{}\n", " ".repeat(1_024)), 4),
    ] {
        for what in [What::Bounds, What::Prices] {
            let found = numbers_of(&numbers(lines), 2, what);
            assert_eq!(found, Err(refusal(5, place)), "{lines}");
        }
    }
}

#[test]
fn refusal_6_ends() {
    for line in ["3 1 5", "1 3 5", "0 1 5", "1 0 5"] {
        let text = sheet(GENERAL, &format!("2 2 2\n1 1 5\n{line}\n"));
        assert_eq!(graph_of(&text), Err(refusal(6, 4)), "{line}");
    }
    for line in ["1 2 5", "2 2 5", "4 1 5", "2 0 5"] {
        let text = sheet(SYMMETRIC, &format!("3 3 1\n{line}\n"));
        assert_eq!(graph_of(&text), Err(refusal(6, 3)), "{line}");
    }
    for line in ["3 1", "1 3", "0 1", "1 0"] {
        let text = plan(GENERAL, &format!("2 2 1\n{line}\n"));
        let found = subgraph_of(&text, &case_2().lend());
        assert_eq!(found, Err(refusal(6, 3)), "{line}");
    }
    for line in ["1 2", "2 2", "4 1", "2 0"] {
        let text = plan(SYMMETRIC, &format!("3 3 1\n{line}\n"));
        let found = subgraph_of(&text, &triangle().lend());
        assert_eq!(found, Err(refusal(6, 3)), "{line}");
    }
    for (row, column) in [(3, 1), (1, 3), (0, 1), (1, 0), (u32::MAX, 1), (1, u32::MAX)] {
        let edges = [(1, 1, 5), (row, column, 5), (row, column, 5)];
        let graph = OwnedGraph::new(Kind::Bipartite, 2, 2, &edges);
        all_refuse(&graph.lend(), refusal(6, 2));
    }
    for (row, column) in [(1, 2), (2, 2), (4, 1), (2, 0)] {
        let graph = OwnedGraph::new(Kind::General, 3, 3, &[(row, column, 5)]);
        all_refuse(&graph.lend(), refusal(6, 1));
    }
}

#[test]
fn refusal_7_weights() {
    for weight in ["1000001", "-1000001", "999999999", "-999999999"] {
        let text = sheet(GENERAL, &format!("2 2 2\n1 1 0\n1 2 {weight}\n"));
        assert_eq!(graph_of(&text), Err(refusal(7, 4)), "{weight}");
    }
    for weight in [1_000_001, -1_000_001, i32::MAX, i32::MIN] {
        all_refuse(&star(&[1_000_000, weight, weight]).lend(), refusal(7, 2));
    }
}

#[test]
fn refusal_8_same_ends() {
    let text = sheet(GENERAL, "2 2 3\n1 1 5\n1 2 5\n\n1 1 5\n");
    assert_eq!(graph_of(&text), Err(refusal(8, 6)));
    let text = sheet(SYMMETRIC, "3 3 2\n2 1 5\n2 1 6\n");
    assert_eq!(graph_of(&text), Err(refusal(8, 4)));
    let text = plan(GENERAL, "2 2 3\n2 1\n1 1\n2 1\n");
    assert_eq!(subgraph_of(&text, &case_2().lend()), Err(refusal(8, 5)));
    let edges = [(1, 1, 5), (1, 2, 5), (1, 2, 6), (1, 1, 5)];
    let graph = OwnedGraph::new(Kind::Bipartite, 2, 2, &edges);
    all_refuse(&graph.lend(), refusal(8, 3));
    let graph = OwnedGraph::new(Kind::General, 3, 3, &[(2, 1, 0), (2, 1, 1)]);
    all_refuse(&graph.lend(), refusal(8, 2));
    // Ends in reverse are other ends on a bipartite graph.
    let text = sheet(GENERAL, "2 2 2\n1 2 5\n2 1 5\n");
    assert!(graph_of(&text).is_ok());
}

#[test]
fn refusal_9_lengths_of_readers() {
    let expected = Err(refusal(9, 0));
    let text = sheet(GENERAL, "1 1 1\n1 1 5\n");
    for wrong in 0..3 {
        for length in [0, 1, 1_023, 1_025] {
            let mut lengths = [1_024; 3];
            lengths[wrong] = length;
            let [mut row, mut column] = [vec![7; lengths[0]], vec![7; lengths[1]]];
            let mut weight = vec![7; lengths[2]];
            let found = read_graph(&text, &mut row, &mut column, &mut weight);
            assert_eq!(found.map(|_| ()), expected);
            assert!(row.iter().chain(&column).all(|&x| x == 0));
            assert!(weight.iter().all(|&x| x == 0));
        }
    }
    let text = numbers("4 1\n1\n1\n1\n1\n");
    for length in [0, 3, 5] {
        let mut out = vec![7; length];
        assert_eq!(
            read_numbers(&text, 4, What::Bounds, &mut out),
            Err(refusal(9, 0))
        );
        assert!(out.iter().all(|&x| x == 0));
    }
    let mut out = [7; 4];
    for count in [0, 3, 5, u32::MAX] {
        out.fill(7);
        let found = read_numbers(&text, count, What::Prices, &mut out);
        assert_eq!(found, Err(refusal(9, 0)));
        assert_eq!(out, [0; 4]);
    }
    let text = plan(GENERAL, "2 2 1\n1 1\n");
    for length in [0, 3, 5] {
        let mut chosen = vec![7; length];
        let found = read_subgraph(&text, &case_2().lend(), &mut chosen);
        assert_eq!(found, Err(refusal(9, 0)));
        assert!(chosen.iter().all(|&x| x == 0));
    }
}

/// Graphs of case 2 with one length wrong.
fn wrong_graphs(graph: &OwnedGraph) -> Vec<Graph<'_>> {
    let right = graph.lend();
    vec![
        Graph {
            row: &right.row[1..],
            ..right
        },
        Graph {
            column: &right.column[1..],
            ..right
        },
        Graph {
            weight: &right.weight[1..],
            ..right
        },
        Graph { edges: 3, ..right },
        Graph { edges: 5, ..right },
        Graph {
            edges: u32::MAX,
            ..right
        },
    ]
}

#[test]
fn refusal_9_graph_lengths_of_calls() {
    let graph = case_2();
    let index = built(&graph.lend()).unwrap();
    for wrong in wrong_graphs(&graph) {
        let mut chosen = [7; 4];
        let found = read_subgraph(b"", &wrong, &mut chosen);
        assert_eq!((found, chosen), (Err(refusal(9, 0)), [0; 4]));

        let mut out = [7; 16_384];
        let found = write_subgraph(&wrong, &[0; 4], &mut out);
        assert_eq!((found, out), (Err(refusal(9, 0)), [0; 16_384]));
        assert_eq!(tidied(&wrong), Err(refusal(9, 0)));

        let (mut chosen, mut vertex_price, mut edge_price) = ([7; 4], [7; 4], [7; 4]);
        let mut workspace = [7; 4_096];
        let found = solve(
            &wrong,
            &[1; 4],
            &index,
            &mut chosen,
            &mut vertex_price,
            &mut edge_price,
            &mut workspace,
        );
        assert_eq!(found, Err(refusal(9, 0)));
        assert_eq!((chosen, vertex_price, edge_price), ([0; 4], [0; 4], [0; 4]));
        assert_eq!(workspace, [0; 4_096]);

        let mut out = [7; 13];
        let found = build_index(&wrong, &mut out);
        assert_eq!((found, out), (Err(refusal(9, 0)), [0; 13]));
        assert_eq!(test_index(&wrong, &index), Err(refusal(9, 0)));

        let found = measured(&wrong, &[1; 4], &[0; 4], &[5; 4], &[0; 4], &Sets::none());
        assert_eq!(found, Err(refusal(9, 0)));
    }
}

#[test]
fn refusal_9_other_lengths_of_the_writers() {
    let graph = case_2();
    for (marks, bytes) in [(3, 16_384), (5, 16_384), (4, 16_383), (4, 16_385), (4, 0)] {
        let mut out = vec![7; bytes];
        let found = write_subgraph(&graph.lend(), &vec![0; marks], &mut out);
        assert_eq!(found, Err(refusal(9, 0)));
        assert!(out.iter().all(|&x| x == 0));
    }
    for bytes in [0, 16_384, 32_767, 32_769] {
        let mut out = vec![7; bytes];
        let found = tidy_graph(&graph.lend(), &mut out);
        assert_eq!(found, Err(refusal(9, 0)));
        assert!(out.iter().all(|&x| x == 0));
    }
}

#[test]
fn refusal_9_other_lengths_of_the_solver() {
    // 2 rows and 3 columns: n is 5 and m is 4, so that none passes for another.
    let graph = OwnedGraph {
        columns: 3,
        ..case_2()
    };
    let right = [5, 4, 5, 4, 4_096, 14];
    for wrong in 0..right.len() {
        for length in [right[wrong] - 1, right[wrong] + 1, 0] {
            let mut lengths = right;
            lengths[wrong] = length;
            let bound = vec![1; lengths[0]];
            let mut chosen = vec![7; lengths[1]];
            let mut vertex_price = vec![7; lengths[2]];
            let mut edge_price = vec![7; lengths[3]];
            let mut workspace = vec![7; lengths[4]];
            let mut index = built(&graph.lend()).unwrap();
            index.resize(lengths[5], 0);
            let found = solve(
                &graph.lend(),
                &bound,
                &index,
                &mut chosen,
                &mut vertex_price,
                &mut edge_price,
                &mut workspace,
            );
            assert_eq!(found, Err(refusal(9, 0)));
            assert!(chosen.iter().all(|&x| x == 0));
            let numbers = vertex_price.iter().chain(&edge_price).chain(&workspace);
            assert!(numbers.into_iter().all(|&x| x == 0));
        }
    }
}

#[test]
fn refusal_9_other_lengths_of_measure() {
    let graph = OwnedGraph {
        columns: 3,
        ..case_2()
    };
    let right = [5, 4, 5, 4, 1, 2, 16];
    let call = |lengths: [usize; 7], sets: u32| {
        let mut set_vertices = vec![0; lengths[5]];
        if let Some(word) = set_vertices.first_mut() {
            *word = 1;
        }
        measure(
            &graph.lend(),
            &vec![1; lengths[0]],
            &vec![0; lengths[1]],
            &vec![5; lengths[2]],
            &vec![0; lengths[3]],
            sets,
            &vec![0; lengths[4]],
            &set_vertices,
            &vec![0; lengths[6]],
        )
    };
    assert!(call(right, 1).is_ok());
    for wrong in 0..right.len() {
        for length in [right[wrong] - 1, right[wrong] + 1] {
            let mut lengths = right;
            lengths[wrong] = length;
            assert_eq!(call(lengths, 1), Err(refusal(9, 0)));
        }
    }
    for sets in [0, 2, 17, 1 << 28, 1 << 31, u32::MAX] {
        assert_eq!(call(right, sets), Err(refusal(9, 0)));
        assert_eq!(
            call([5, 4, 5, 4, 0, 0, 0], sets).is_ok(),
            sets == 0,
            "{sets}"
        );
    }
}

#[test]
fn refusal_9_counts_as_passed() {
    // Three bounds for four vertices.
    let graph = case_2();
    assert_eq!(solved(&graph.lend(), &[1; 3]), Err(refusal(9, 0)));
    // Out of range counts are taken as they are.
    let graph = OwnedGraph::new(Kind::Bipartite, 70, 70, &[]);
    assert_eq!(solved(&graph.lend(), &[1; 128]), Err(refusal(9, 0)));
    assert_eq!(solved(&graph.lend(), &[1; 140]), Err(refusal(4, 0)));
    // A general graph has as many vertices as rows, whatever its columns.
    let graph = OwnedGraph::new(Kind::General, 2, 5, &[]);
    assert_eq!(solved(&graph.lend(), &[1; 7]), Err(refusal(9, 0)));
    assert_eq!(solved(&graph.lend(), &[1; 2]), Err(refusal(4, 0)));
    // No sum wraps around: 2 to the 32 vertices are not 0.
    let graph = OwnedGraph::new(Kind::Bipartite, u32::MAX, 1, &[]);
    let mut workspace = [7; 4_096];
    let found = solve(
        &graph.lend(),
        &[],
        &[7],
        &mut [],
        &mut [],
        &mut [],
        &mut workspace,
    );
    assert_eq!((found, workspace), (Err(refusal(9, 0)), [0; 4_096]));
    let mut index = [7];
    let found = build_index(&graph.lend(), &mut index);
    assert_eq!((found, index), (Err(refusal(9, 0)), [0]));
    assert_eq!(test_index(&graph.lend(), &[7]), Err(refusal(9, 0)));
    let found = measure(&graph.lend(), &[], &[], &[], &[], 0, &[], &[], &[]);
    assert_eq!(found, Err(refusal(9, 0)));
}

#[test]
fn refusal_10_bounds() {
    for bound in ["65", "-1", "999999999"] {
        let text = numbers(&format!("3 1\n0\n\n{bound}\n{bound}\n"));
        assert_eq!(numbers_of(&text, 3, What::Bounds), Err(refusal(10, 5)));
    }
    let graph = case_2();
    for bound in [65, -1, i32::MAX, i32::MIN] {
        let bound = [64, 0, bound, bound];
        let expected = Err(refusal(10, 3));
        assert_eq!(solved(&graph.lend(), &bound), expected);
        let found = measured(
            &graph.lend(),
            &bound,
            &[0; 4],
            &[5; 4],
            &[0; 4],
            &Sets::none(),
        );
        assert_eq!(found, Err(refusal(10, 3)));
    }
}

#[test]
fn refusal_11_marks() {
    let graph = case_2();
    for mark in [2, 255] {
        let chosen = [1, 0, mark, mark];
        assert_eq!(written(&graph.lend(), &chosen), Err(refusal(11, 3)));
        let found = measured(
            &graph.lend(),
            &[1; 4],
            &chosen,
            &[5; 4],
            &[0; 4],
            &Sets::none(),
        );
        assert_eq!(found, Err(refusal(11, 3)));
    }
}

#[test]
fn refusal_12_over_a_bound() {
    // Bound 4, 5 chosen.
    let graph = star(&[1; 5]);
    let bound = [4, 1, 1, 1, 1, 1];
    let call = |bound: &[i32], chosen: &[u8]| {
        measured(
            &graph.lend(),
            bound,
            chosen,
            &[2, 0, 0, 0, 0, 0],
            &[0; 5],
            &Sets::none(),
        )
        .map(|found| found.weight)
    };
    assert_eq!(call(&bound, &[1; 5]), Err(refusal(12, 1)));
    assert_eq!(call(&bound, &[1, 1, 0, 1, 1]), Ok(4));
    // Column vertices come after the rows; the lowest vertex is reported.
    let bound = [5, 1, 0, 1, 0, 1];
    assert_eq!(call(&bound, &[1; 5]), Err(refusal(12, 3)));
    assert_eq!(call(&bound, &[1, 0, 0, 1, 0]), Err(refusal(12, 5)));
    // Both ends of an edge of a general graph count.
    let graph = triangle();
    let found = measured(
        &graph.lend(),
        &[2, 1, 1],
        &[1, 0, 1],
        &[1; 3],
        &[0; 3],
        &Sets::none(),
    );
    assert_eq!(found, Err(refusal(12, 2)));
}

#[test]
fn refusal_13_prices() {
    for price in ["-1", "4000001", "999999999"] {
        let text = numbers(&format!("3 1\n4000000\n{price}\n-1\n"));
        assert_eq!(numbers_of(&text, 3, What::Prices), Err(refusal(13, 4)));
    }
    let text = numbers("3 1\n4000000\n0\n2000001\n");
    let prices = vec![4_000_000, 0, 2_000_001];
    assert_eq!(numbers_of(&text, 3, What::Prices), Ok(prices));

    // 3 vertices, 3 edges and 2 odd sets, hence 8 positions.
    let graph = triangle();
    let sets = Sets::none().and(1, &[1, 2, 3], &[]).and(0, &[1], &[]);
    for position in 0..8 {
        for wrong in [-1, 4_000_001, i32::MIN, i32::MAX] {
            let mut prices = [1; 8];
            prices[position] = wrong;
            prices[7] = if position == 7 { wrong } else { -1 };
            let mut sets = sets.clone();
            sets.price = prices[6..].to_vec();
            let found = measured(
                &graph.lend(),
                &[1; 3],
                &[0; 3],
                &prices[..3],
                &prices[3..6],
                &sets,
            );
            assert_eq!(found, Err(refusal(13, position as u64 + 1)));
        }
    }
}

#[test]
fn refusal_14_odd_sets() {
    let graph = triangle();
    let call = |bound: [i32; 3], sets: &Sets| {
        measured(&graph.lend(), &bound, &[0; 3], &[1; 3], &[0; 3], sets).map(|_| ())
    };
    let good = Sets::none().and(1, &[1, 2, 3], &[]);
    assert_eq!(call([1; 3], &good), Ok(()));
    // Bounds 1 and 1 without a marked edge: the sum is 2.
    assert_eq!(
        call([1; 3], &good.clone().and(1, &[1, 2], &[])),
        Err(refusal(14, 2))
    );
    // A marked edge makes it odd.
    assert_eq!(call([1; 3], &good.clone().and(1, &[1, 2], &[2])), Ok(()));
    // Two do not.
    let sets = good.clone().and(1, &[1, 2], &[2, 3]);
    assert_eq!(call([1; 3], &sets), Err(refusal(14, 2)));
    // A marked edge with both ends inside.
    let sets = good.clone().and(1, &[1, 2], &[1]);
    assert_eq!(call([1; 3], &sets), Err(refusal(14, 2)));
    // A marked edge with no end inside.
    let sets = Sets::none().and(1, &[3], &[1]);
    assert_eq!(call([1, 1, 2], &sets), Err(refusal(14, 1)));
    // No vertex.
    assert_eq!(
        call([1; 3], &Sets::none().and(0, &[], &[])),
        Err(refusal(14, 1))
    );
    assert_eq!(
        call([1; 3], &Sets::none().and(0, &[], &[1])),
        Err(refusal(14, 1))
    );
    // The lowest broken set.
    let sets = good.clone().and(1, &[1, 2], &[]).and(1, &[], &[]);
    assert_eq!(call([1; 3], &sets), Err(refusal(14, 2)));
    // 16 sets are allowed, 17 are not.
    let mut sets = Sets::none();
    for _ in 0..16 {
        sets = sets.and(1, &[1, 2, 3], &[]);
    }
    assert_eq!(call([1; 3], &sets), Ok(()));
    let sets = sets.and(1, &[1, 2, 3], &[]);
    assert_eq!(call([1; 3], &sets), Err(refusal(14, 17)));
}

#[test]
fn refusal_15_not_covered() {
    // Weight 5, all prices 0.
    let graph = star(&[0, 5, 5]);
    let call = |vertex_price: [i32; 4], edge_price: [i32; 3], sets: &Sets| {
        measured(
            &graph.lend(),
            &[1; 4],
            &[0; 3],
            &vertex_price,
            &edge_price,
            sets,
        )
        .map(|_| ())
    };
    let none = Sets::none();
    assert_eq!(call([0; 4], [0; 3], &none), Err(refusal(15, 2)));
    assert_eq!(call([4, 0, 6, 5], [0; 3], &none), Err(refusal(15, 3)));
    assert_eq!(call([4, 0, 6, 5], [0, 0, 1], &none), Ok(()));
    // The dam with edges 2 and 3 marked: 1 + 2 is odd.
    let sets = Sets::none().and(10, &[1], &[2, 3]);
    assert_eq!(call([0; 4], [0; 3], &sets), Ok(()));
    let sets = Sets::none().and(9, &[1], &[2, 3]);
    assert_eq!(call([0; 4], [0, 1, 0], &sets), Err(refusal(15, 3)));
    // A set that touches an edge at one end only covers it only if marked.
    let sets = Sets::none().and(10, &[1], &[]);
    assert_eq!(call([0; 4], [0; 3], &sets), Err(refusal(15, 2)));
}

#[test]
fn refusal_16_general_graph() {
    let graph = OwnedGraph::new(Kind::General, 1, 1, &[]);
    assert_eq!(solved(&graph.lend(), &[1]), Err(refusal(16, 0)));
    assert_eq!(solved(&triangle().lend(), &[1; 3]), Err(refusal(16, 0)));
    // Its index is not looked at.
    let index = [9; 10];
    let found = solved_with(&triangle().lend(), &[1; 3], &index);
    assert_eq!(found, Err(refusal(16, 0)));
}

#[test]
fn refusal_17_disagreement() {
    let graph = case_2();
    let call = |text: &[u8]| subgraph_of(text, &graph.lend());
    assert_eq!(call(&plan(SYMMETRIC, "2 2 0\n")), Err(refusal(17, 1)));
    let found = subgraph_of(&plan(GENERAL, "3 3 0\n"), &triangle().lend());
    assert_eq!(found, Err(refusal(17, 1)));
    for line in ["2 2 5", "1 2 0", "2 1 0", "3 2 0", "2 64 0"] {
        assert_eq!(call(&plan(GENERAL, line)), Err(refusal(17, 2)), "{line}");
    }
    let text = plan(GENERAL, "%\n\n2 2 5\n");
    assert_eq!(call(&text), Err(refusal(17, 4)));
    // A pair not on the sheet.
    let graph = OwnedGraph::new(Kind::Bipartite, 2, 2, &[(1, 1, 5), (2, 1, 5)]);
    let text = plan(GENERAL, "2 2 2\n1 1\n1 2\n");
    assert_eq!(subgraph_of(&text, &graph.lend()), Err(refusal(17, 4)));
}

#[test]
fn refusal_18_index() {
    // Offsets 0, 2, 4, 6, 8; vertices 1 to 4 have edges 1 2, 3 4, 1 3, 2 4.
    let graph = case_2();
    let right = built(&graph.lend()).unwrap();
    assert_eq!(right, [0, 2, 4, 6, 8, 1, 2, 3, 4, 1, 3, 2, 4]);
    assert_eq!(test_index(&graph.lend(), &right), Ok(()));
    assert!(solved_with(&graph.lend(), &[1; 4], &right).is_ok());
    for (at, number) in [(0, 1), (1, 1), (4, 9), (5, 2), (8, 0), (12, 5)] {
        let mut wrong = right.clone();
        wrong[at] = number;
        let expected = refusal(18, at as u64 + 1);
        assert_eq!(test_index(&graph.lend(), &wrong), Err(expected));
        let found = solved_with(&graph.lend(), &[1; 4], &wrong);
        assert_eq!(found, Err(expected));
    }
    // The triangle has one too; the solver does not come to test it.
    let mut index = built(&triangle().lend()).unwrap();
    assert_eq!(index, [0, 2, 4, 6, 1, 2, 1, 3, 2, 3]);
    index[9] = 2;
    let found = test_index(&triangle().lend(), &index);
    assert_eq!(found, Err(refusal(18, 10)));
}
