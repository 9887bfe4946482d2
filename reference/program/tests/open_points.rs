//! The points that document 01 leaves open, as they are decided.

mod common;
use common::*;
use reference::*;

fn read(lines: &str) -> Result<OwnedGraph, Refusal> {
    graph_of(&sheet("general", lines))
}

#[test]
fn point_1_number_sizes() {
    for line in ["3 1", "5 1", "4 2", "4 0", "0 0", "1 4", "4 999999999"] {
        let text = numbers(&format!("{line}\n1\n1\n1\n1\n"));
        for what in [What::Bounds, What::Prices] {
            assert_eq!(numbers_of(&text, 4, what), Err(refusal(4, 2)), "{line}");
        }
    }
    let text = numbers("4 1\n1\n2\n3\n4\n");
    assert_eq!(numbers_of(&text, 4, What::Bounds), Ok(vec![1, 2, 3, 4]));
}

#[test]
fn point_2_plan_sizes() {
    let graph = case_2();
    for (line, number) in [
        ("2 2 1025", 4),
        ("2 2 999999999", 4),
        ("65 2 1", 4),
        ("2 65 1", 4),
        ("0 2 1", 4),
        ("2 0 1", 4),
        ("2 2 5", 17),
        ("2 2 1024", 17),
        ("2 3 1", 17),
        ("3 2 1", 17),
        ("64 64 1024", 17),
    ] {
        let found = subgraph_of(&plan("general", line), &graph.lend());
        assert_eq!(found, Err(refusal(number, 2)), "{line}");
    }
    for (line, number) in [
        ("3 2 0", 4),
        ("129 129 0", 4),
        ("4 4 0", 17),
        ("2 2 0", 17),
        ("3 3 4", 17),
    ] {
        let found = subgraph_of(&plan("symmetric", line), &triangle().lend());
        assert_eq!(found, Err(refusal(number, 2)), "{line}");
    }
    // A count below m is no disagreement.
    for lines in ["2 2 0", "2 2 1\n1 1", "2 2 3\n1 1\n1 2\n2 1"] {
        let found = subgraph_of(&plan("general", lines), &graph.lend());
        assert!(found.is_ok(), "{lines}");
    }
}

#[test]
fn point_3_over_long_lines() {
    let comment = "%".repeat(1_025);
    let blank = " ".repeat(1_025);
    let other = "x".repeat(1_025);
    for long in [&comment, &blank, &other] {
        let found = read(&format!("%\n{long}\n2 2 1\n1 1 5\n"));
        assert_eq!(found, Err(refusal(3, 3)));
        let found = read(&format!("2 2 1\n{long}\n1 1 5\n"));
        assert_eq!(found, Err(refusal(5, 3)));
        let found = read(&format!("2 2 1\n1 1 5\n{long}"));
        assert_eq!(found, Err(refusal(5, 4)));
    }
    let found = graph_of(format!("{comment}\n").as_bytes());
    assert_eq!(found, Err(refusal(2, 1)));
    // Over-long before every other test: 4, 6, 7, 8.
    let pad = " ".repeat(1_020);
    assert_eq!(read(&format!("65 1 0{pad}")), Err(refusal(3, 2)));
    for line in ["3 1 5", "1 1 1000001", "1 1 5"] {
        let found = read(&format!("2 2 2\n1 1 5\n{line}{pad}\n"));
        assert_eq!(found, Err(refusal(5, 4)), "{line}");
    }
    // Surplus before every other test.
    for line in ["3 1 5", "1 1 1000001", "1 1 5"] {
        let found = read(&format!("2 2 1\n1 1 5\n{line}\n"));
        assert_eq!(found, Err(refusal(5, 4)), "{line}");
    }
    // 1,024 bytes are not over-long.
    let lines = format!("%{}\n{}\n2 2 1\n1 1 5\n", &comment[2..], &blank[1..]);
    assert!(read(&lines).is_ok());
}

#[test]
fn point_4_missing_lines() {
    for (text, place) in [("", 2), ("\n", 3), ("\n\n", 4), ("%\n", 3), ("%", 3)] {
        assert_eq!(read(text), Err(refusal(3, place)), "{text:?}");
    }
    let header = "%%MatrixMarket matrix coordinate integer general";
    assert_eq!(graph_of(header.as_bytes()), Err(refusal(3, 2)));
    for (text, place) in [
        ("2 2 1", 3),
        ("2 2 1\n", 3),
        ("2 2 1\n ", 4),
        ("2 2 1\n\n\n", 5),
    ] {
        assert_eq!(read(text), Err(refusal(5, place)), "{text:?}");
    }
    let text = numbers("1 1\n\n");
    assert_eq!(numbers_of(&text, 1, What::Bounds), Err(refusal(5, 4)));
    let text = plan("general", "2 2 2\n1 1\n\n");
    assert_eq!(subgraph_of(&text, &case_2().lend()), Err(refusal(5, 5)));
}

#[test]
fn point_5_last_line_and_trailing_blanks() {
    let longest = "1 1 5".to_string() + &" ".repeat(1_019);
    assert_eq!(longest.len(), 1_024);
    for end in ["", "\n"] {
        assert!(read(&format!("2 2 1\n{longest}{end}")).is_ok());
        let found = read(&format!("2 2 1\n{longest} {end}"));
        assert_eq!(found, Err(refusal(5, 3)));
    }
    let header = "%%MatrixMarket matrix coordinate integer general".to_string();
    let blanks = " ".repeat(1_024 - header.len());
    let found = graph_of(format!("{header}{blanks}\n1 1 0").as_bytes());
    assert!(found.is_ok());
    let found = graph_of(format!("{header}{blanks} \n1 1 0").as_bytes());
    assert_eq!(found, Err(refusal(2, 1)));
    let found = graph_of(format!("{header}{blanks} ").as_bytes());
    assert_eq!(found, Err(refusal(2, 1)));
}

#[test]
fn point_6_numbers() {
    let weight = |word: &str| {
        let graph = read(&format!("1 1 1\n1 1 {word}\n"))?;
        Ok(graph.weight[0])
    };
    for value in [0, 7, -7, 10, 1_000_000, -1_000_000] {
        assert_eq!(weight(&value.to_string()), Ok(value));
    }
    for word in ["+", "-", "--7", "+-7", "-+7", "7-", "7+", "1e2", "7.0"] {
        assert_eq!(weight(word), Err(refusal(5, 3)), "{word}");
    }
    for word in ["999999999", "-999999999"] {
        assert_eq!(weight(word), Err(refusal(7, 3)), "{word}");
    }
    for word in ["1234567890", "-1234567890"] {
        assert_eq!(weight(word), Err(refusal(5, 3)), "{word}");
    }
    // A size or an index has no sign; a nine-digit one is well formed.
    assert_eq!(read("1 1 -1"), Err(refusal(3, 2)));
    assert_eq!(read("999999999 1 1"), Err(refusal(4, 2)));
    assert_eq!(read("1 1 1\n-1 1 5"), Err(refusal(5, 3)));
    assert_eq!(read("1 1 1\n1 999999999 5"), Err(refusal(6, 3)));
    let text = numbers("1 1\n-1\n");
    assert_eq!(numbers_of(&text, 1, What::Bounds), Err(refusal(10, 3)));
    assert_eq!(numbers_of(&text, 1, What::Prices), Err(refusal(13, 3)));
    let text = numbers("1 1\n1234567890\n");
    assert_eq!(numbers_of(&text, 1, What::Bounds), Err(refusal(5, 3)));
}

#[test]
fn point_7_headers() {
    let with = |header: &str| graph_of(format!("{header}\n1 1 0\n").as_bytes());
    for header in [
        "%%MatrixMarket MATRIX Coordinate iNTEGER generaL",
        "%%MatrixMarket\tmatrix \t coordinate  integer\t\tgeneral \t",
    ] {
        let expected = OwnedGraph::new(Kind::Bipartite, 1, 1, &[]);
        assert_eq!(with(header), Ok(expected), "{header}");
    }
    for header in [
        "%%matrixmarket matrix coordinate integer general",
        "%%MATRIXMARKET matrix coordinate integer general",
        "%MatrixMarket matrix coordinate integer general",
        "%%MatrixMarketmatrix coordinate integer general",
        "%%MatrixMarkets matrix coordinate integer general",
        " %%MatrixMarket matrix coordinate integer general",
        "\t%%MatrixMarket matrix coordinate integer general",
        "%%MatrixMarket matrix coordinate integer general general",
        "%%MatrixMarket matrix coordinate integer",
        "%%MatrixMarket vector coordinate integer general",
        "%%MatrixMarket matrix coordinate complex general",
        "%%MatrixMarket matrix coordinate integer skew-symmetric",
        "%%MatrixMarket matrix coordinate integer hermitian",
        "%%MatrixMarket matrix coordinate integer general\r",
        "%%MatrixMarket matrix coordinate pattern general",
        "%%MatrixMarket matrix array integer general",
    ] {
        assert_eq!(with(header), Err(refusal(2, 1)), "{header}");
    }
    // An accepted header of another sort of text is 2 at the other readers too.
    let text = sheet("general", "2 2 0\n");
    assert_eq!(
        subgraph_of(&text, &case_2().lend()),
        Err(refusal(2, 1)),
        "a sheet for a plan"
    );
    assert_eq!(numbers_of(&text, 4, What::Bounds), Err(refusal(2, 1)));
    let text = numbers("4 1\n");
    assert_eq!(subgraph_of(&text, &case_2().lend()), Err(refusal(2, 1)));
    let text = b"%%MatrixMarket matrix array integer symmetric\n1 1\n1\n";
    assert_eq!(numbers_of(text, 1, What::Bounds), Err(refusal(2, 1)));
    // The other plan header.
    let text = plan("symmetric", "2 2 0\n");
    assert_eq!(subgraph_of(&text, &case_2().lend()), Err(refusal(17, 1)));
    let text = b"%%MatrixMarket Matrix COORDINATE Pattern General\n2 2 1\n2 1\n";
    assert_eq!(subgraph_of(text, &case_2().lend()), Ok(vec![0, 0, 1, 0]));
}

#[test]
fn point_8_comments_and_byte_13() {
    assert_eq!(read(" % c\n1 1 0\n"), Err(refusal(3, 2)));
    assert_eq!(read("\t%\n1 1 0\n"), Err(refusal(3, 2)));
    assert_eq!(read("1 1 0\n %\n"), Err(refusal(5, 3)));
    assert_eq!(read("% c\n%\n%%MatrixMarket\n1 1 0\n").map(|_| ()), Ok(()));
    assert_eq!(read("1 1 0\r\n"), Err(refusal(3, 2)));
    assert_eq!(read("\r\n1 1 0\n"), Err(refusal(3, 2)));
    assert_eq!(read("1 1 1\n1 1 5\r\n"), Err(refusal(5, 3)));
    assert_eq!(read("1 1 0\n\r\n"), Err(refusal(5, 3)));
    assert_eq!(read("1 1 0\n\x0b\n"), Err(refusal(5, 3)));
    assert_eq!(read("1 1 0\n\0"), Err(refusal(5, 3)));
    // A comment may hold any byte but 10.
    let mut text = sheet("general", "%");
    text.extend([0, 13, 128, 255, 9]);
    text.extend(b"\n1 1 0");
    assert!(graph_of(&text).is_ok());
    // Numeric and blank lines may begin with blanks, and end with them.
    let lines = " \t1\t 2  2 \n \t\n\n  1 1 5\t\n\t1 2 6 \n\n \n";
    assert_eq!(read(lines), Ok(star(&[5, 6])));
}

#[test]
fn point_9_more_edges_than_possible() {
    assert_eq!(read("1 1 2\n1 1 5\n"), Err(refusal(5, 4)));
    assert_eq!(read("1 1 2\n1 1 5\n2 1 5\n"), Err(refusal(6, 4)));
    assert_eq!(read("1 1 2\n1 1 5\n1 1 5\n"), Err(refusal(8, 4)));
    assert_eq!(read("1 1 1024\n1 1 5\n"), Err(refusal(5, 4)));
    assert_eq!(read("1 1 1025\n1 1 5\n"), Err(refusal(4, 2)));
}

#[test]
fn point_10_counts_of_numbers() {
    for count in [1, 128, 129, 1_152] {
        let values: Vec<i32> = (0..count).map(|at| at % 65).collect();
        let lines: String = values.iter().map(|value| format!("{value}\n")).collect();
        let text = numbers(&format!("{count} 1\n{lines}"));
        for what in [What::Bounds, What::Prices] {
            let found = numbers_of(&text, count as u32, what);
            assert_eq!(found, Ok(values.clone()), "{count}");
        }
        let mut longer = vec![7; count as usize + 1];
        let found = read_numbers(&text, count as u32, What::Bounds, &mut longer);
        assert_eq!(found, Err(refusal(9, 0)));
        assert!(longer.iter().all(|&x| x == 0));
    }
}

#[test]
fn point_11_order_of_plan_pairs() {
    let graph = case_2();
    let read = |lines: &str| subgraph_of(&plan("general", lines), &graph.lend());
    assert_eq!(read("2 2 3\n2 2\n2 1\n1 1\n"), Ok(vec![1, 0, 1, 1]));
    assert_eq!(read("2 2 3\n2 2\n2 1\n2 2\n"), Err(refusal(8, 5)));
    let graph = OwnedGraph::new(Kind::General, 3, 3, &[(3, 1, 5), (2, 1, 5)]);
    let read = |lines: &str| subgraph_of(&plan("symmetric", lines), &graph.lend());
    assert_eq!(read("3 3 2\n2 1\n3 1\n"), Ok(vec![1, 1]));
    assert_eq!(read("3 3 1\n3 2\n"), Err(refusal(17, 3)));
    assert_eq!(read("3 3 1\n1 3\n"), Err(refusal(6, 3)));
    assert_eq!(read("3 3 1\n4 1\n"), Err(refusal(6, 3)));
    assert_eq!(read("3 3 1\n3 3\n"), Err(refusal(6, 3)));
}

#[test]
fn point_12_writer_tests_weights() {
    let graph = star(&[0, 1_000_001]);
    assert_eq!(written(&graph.lend(), &[1, 1]), Err(refusal(7, 2)));
    assert_eq!(written(&graph.lend(), &[1, 2]), Err(refusal(7, 2)));
}

/// 17 odd sets of vertex 1 that keep the rules for bound 1.
fn seventeen() -> Sets {
    (0..17).fold(Sets::none(), |sets, _| sets.and(1, &[1], &[]))
}

/// Measures the empty subgraph of one edge of weight 0.
fn with_sets(sets: &Sets) -> Result<Measures, Refusal> {
    let graph = star(&[0]);
    measured(&graph.lend(), &[1, 1], &[0], &[0, 0], &[0], sets)
}

#[test]
fn point_13_positions_of_prices() {
    // 2 vertices, 1 edge, 17 sets: set 17 is position 20.
    let mut sets = seventeen();
    sets.price[16] = -1;
    assert_eq!(with_sets(&sets), Err(refusal(13, 20)));
    sets.price[0] = 4_000_001;
    assert_eq!(with_sets(&sets), Err(refusal(13, 4)));
}

#[test]
fn point_14_too_many_sets() {
    assert_eq!(with_sets(&seventeen()), Err(refusal(14, 17)));
    let mut sets = seventeen();
    sets.vertices[2 * 4] = 0;
    sets.vertices[2 * 16] = 0;
    assert_eq!(with_sets(&sets), Err(refusal(14, 5)));
    // A broken set 17 or 18 is at 17 as well.
    let mut sets = seventeen();
    sets.vertices[2 * 16] = 0;
    assert_eq!(with_sets(&sets), Err(refusal(14, 17)));
    let sets = seventeen().and(1, &[], &[]);
    assert_eq!(with_sets(&sets), Err(refusal(14, 17)));
}

#[test]
fn point_15_bits_above() {
    let good = Sets::none().and(1, &[1], &[]);
    assert!(with_sets(&good).is_ok());
    // n is 2 and m is 1.
    for at in 2..128 {
        let mut sets = good.clone();
        sets.vertices[at / 64] |= 1 << (at % 64);
        assert_eq!(with_sets(&sets), Err(refusal(14, 1)), "vertex bit {at}");
    }
    for at in (1..1_024).step_by(7).chain([1_022, 1_023]) {
        let mut sets = good.clone();
        // Two bits, so that the sum stays odd.
        sets.edges[at / 64] |= 1 << (at % 64);
        let other = if at == 1_023 { 1_022 } else { at + 1 };
        sets.edges[other / 64] |= 1 << (other % 64);
        assert_eq!(with_sets(&sets), Err(refusal(14, 1)), "edge bit {at}");
    }
}

#[test]
fn point_16_equal_sets_and_capacity_0() {
    let sets = Sets::none().and(3, &[1], &[]).and(3, &[1], &[]);
    // Bound 1 alone gives capacity 0: no total and no slack.
    assert_eq!(with_sets(&sets), Ok(measures([0; 7])));
    // Two equal sets both count: each edge needs both.
    let graph = triangle();
    let sets = Sets::none().and(1, &[1, 2, 3], &[]).and(1, &[1, 2, 3], &[]);
    let found = measured(&graph.lend(), &[1; 3], &[1, 0, 0], &[0; 3], &[0; 3], &sets);
    assert_eq!(found, Ok(measures([1, 2, 0, 0, 0, 0, 0])));
}

#[test]
fn point_17_outputs_after_refusals() {
    // Each call in `common` lends slices of other numbers than 0 and tests them after a
    // refusal; here lengths are wrong, and the refusal comes late in the text.
    let mut out = [7; 3];
    let found = read_numbers(&numbers("2 1\n1\n1\n"), 2, What::Bounds, &mut out);
    assert_eq!((found, out), (Err(refusal(9, 0)), [0; 3]));
    let mut out = [7; 3];
    let found = read_numbers(&numbers("3 1\n1\n1\n65\n"), 3, What::Bounds, &mut out);
    assert_eq!((found, out), (Err(refusal(10, 5)), [0; 3]));
    let mut chosen = [7; 4];
    let text = plan("general", "2 2 2\n1 1\n1 1\n");
    let found = read_subgraph(&text, &case_2().lend(), &mut chosen);
    assert_eq!((found, chosen), (Err(refusal(8, 4)), [0; 4]));
    assert_eq!(read("1 2 2\n1 1 5\n1 2 x\n"), Err(refusal(5, 4)));
    // The workspace is 0 after a result, whatever it held before.
    let graph = case_2();
    let index = built(&graph.lend()).unwrap();
    let mut first = None;
    for held in [0, -1, 1, i32::MAX, i32::MIN] {
        let mut workspace = [held; 4_096];
        let mut chosen = [9; 4];
        let (mut vertex_price, mut edge_price) = ([held; 4], [held; 4]);
        let found = solve(
            &graph.lend(),
            &[1; 4],
            &index,
            &mut chosen,
            &mut vertex_price,
            &mut edge_price,
            &mut workspace,
        );
        assert_eq!((found, workspace), (Ok(()), [0; 4_096]));
        let result = (chosen, vertex_price, edge_price);
        assert_eq!(*first.get_or_insert(result), result);
    }
}
