//! Assignments (document 02: DIMACS assignment files), written and read.

mod common;
use common::*;
use reference::*;

/// Three dams, two sires and four pairs, of which one merit is 0 and one below.
fn crossing() -> OwnedGraph {
    let edges = [(3, 2, -4), (1, 2, 0), (2, 1, 1_000_000), (1, 1, 12)];
    OwnedGraph::new(Kind::Bipartite, 3, 2, &edges)
}

/// Its text.
const TEXT: &str = "p asn 5 4
n 1
n 2
n 3
a 3 5 4
a 1 5 0
a 2 4 -1000000
a 1 4 -12
";

/// The lines of some source nodes, from the first to the last.
fn sources(first: u32, last: u32) -> String {
    (first..=last).map(|node| format!("n {node}\n")).collect()
}

/// A text of these sizes with no arc.
fn without_arcs(nodes: u32, arcs: u32, rows: u32) -> String {
    format!("p asn {nodes} {arcs}\n{}", sources(1, rows))
}

/// What is refused of a text; 0 for nothing.
fn refused(text: &str) -> (u32, u64) {
    match assignment_of(text.as_bytes()) {
        Ok(_) => (0, 0),
        Err(Refusal { number, place }) => (number, place),
    }
}

/// Tests what is refused of each text.
fn all_refused(texts: &[(&str, u32, u64)]) {
    for &(text, number, place) in texts {
        assert_eq!(refused(text), (number, place), "{text:?}");
    }
}

#[test]
fn written_by_hand() {
    let text = assigned(&crossing().lend(), &[1; 5]).unwrap();
    assert_eq!(String::from_utf8(text).unwrap(), TEXT);
    let graph = OwnedGraph::new(Kind::Bipartite, 1, 1, &[]);
    assert_eq!(
        assigned(&graph.lend(), &[1, 1]),
        Ok(b"p asn 2 0\nn 1\n".to_vec())
    );
}

#[test]
fn read_by_hand() {
    assert_eq!(assignment_of(TEXT.as_bytes()), Ok(crossing()));
    // Comments and blank lines anywhere, blanks between words and at the end,
    // and no last byte 10.
    let other = "c\n\ncat p asn 9 9\np  asn\t5 4 \nc n 7\n \t\nn 1\nn\t2\t\nc\n\nn 3\n\
                 c a 1 1 1\na 3 5  4\n\na 1 5 0 \nc\na 2 4 -1000000\n\t\na 1 4 -12\nc\n ";
    assert_eq!(assignment_of(other.as_bytes()), Ok(crossing()));
    let text = b"p asn 2 0\nn 1";
    let graph = OwnedGraph::new(Kind::Bipartite, 1, 1, &[]);
    assert_eq!(assignment_of(text), Ok(graph));
}

#[test]
fn there_and_back() {
    let mut random = Random::new(17);
    for round in 0..1_000 {
        let (side, edges) = if round % 50 == 0 {
            (64, 1_024)
        } else {
            (6, 12)
        };
        let rows = random.between(1, side) as u32;
        let columns = random.between(1, side) as u32;
        let kind = Kind::Bipartite;
        let graph = random_graph(&mut random, kind, rows, columns, edges, |random| {
            random.pick(&[-1_000_000, -10, -1, 0, 7, 100, 999_999, 1_000_000])
        });
        let bound = vec![1; (rows + columns) as usize];
        let text = assigned(&graph.lend(), &bound).unwrap();
        assert_eq!(assignment_of(&text).as_ref(), Ok(&graph));
    }
}

#[test]
fn the_most_edges() {
    let pairs = (1..=64).flat_map(|row| (1..=64).map(move |column| (row, column)));
    let mut pairs: Vec<(u32, u32)> = pairs.collect();
    pairs.sort_by_key(|pair| pair.0 < 10 || pair.1 < 36);
    let edges: Vec<_> = pairs.iter().map(|&(r, c)| (r, c, 1_000_000)).collect();
    let graph = OwnedGraph::new(Kind::Bipartite, 64, 64, &edges[..1_024]);
    let text = assigned(&graph.lend(), &[1; 128]).unwrap();
    // The longest text: each arc has a source of two digits and a target of
    // three.
    assert_eq!(text.len(), 15 + 9 * 4 + 55 * 5 + 1_024 * 18);
    assert_eq!(assignment_of(&text), Ok(graph));
    let graph = OwnedGraph::new(Kind::Bipartite, 64, 64, &edges[..1_025]);
    assert_eq!(assigned(&graph.lend(), &[1; 128]), Err(refusal(4, 0)));
}

#[test]
fn out_refuses_lengths() {
    let graph = crossing();
    for (bounds, bytes) in [
        (0, 32_768),
        (4, 32_768),
        (6, 32_768),
        (5, 0),
        (5, 32_767),
        (5, 32_769),
    ] {
        let mut out = vec![7; bytes];
        let found = write_assignment(&graph.lend(), &vec![1; bounds], &mut out);
        assert_eq!(found, Err(refusal(9, 0)), "{bounds} {bytes}");
        assert!(out.iter().all(|&x| x == 0));
    }
    // As many bounds as the numbers passed give, also of a general graph.
    assert_eq!(assigned(&triangle().lend(), &[1; 6]), Err(refusal(9, 0)));
    assert_eq!(assigned(&triangle().lend(), &[1; 3]), Err(refusal(16, 0)));
}

#[test]
fn out_refuses_bounds() {
    let graph = crossing();
    for at in 0..5 {
        let place = at as u64 + 1;
        for (value, number) in [(0, 19), (2, 19), (64, 19), (65, 10), (-1, 10)] {
            let mut bound = [1; 5];
            bound[at] = value;
            let found = assigned(&graph.lend(), &bound);
            assert_eq!(found, Err(refusal(number, place)), "{value} at {place}");
        }
    }
    // The lowest place; and 10 of all vertices before 19 of any.
    let found = assigned(&graph.lend(), &[1, 2, 1, 0, 64]);
    assert_eq!(found, Err(refusal(19, 2)));
    let found = assigned(&graph.lend(), &[0, 2, 1, 0, 65]);
    assert_eq!(found, Err(refusal(10, 5)));
}

#[test]
fn order_of_out() {
    let mut edges = vec![(2, 1, 5), (2, 1, 5), (3, 1, 1_000_001), (1, 1, 5)];
    let mut kind = Kind::General;
    let mut rows = 129;
    let mut bound = vec![65; 128];
    for expected in [9, 4, 6, 7, 8, 10, 16, 19, 0] {
        let graph = OwnedGraph::new(kind, rows, rows, &edges);
        let found = assigned(&graph.lend(), &bound);
        assert_eq!(found.err().map_or(0, |refusal| refusal.number), expected);
        match expected {
            9 => bound.push(65),
            4 => {
                rows = 3;
                bound.truncate(3);
            }
            6 => edges[3] = (3, 2, 5),
            7 => edges[2].2 = 5,
            8 => drop(edges.remove(1)),
            10 => bound = vec![0; 3],
            16 => {
                kind = Kind::Bipartite;
                bound = vec![0; 6];
            }
            19 => bound = vec![1; 6],
            _ => {}
        }
    }
}

#[test]
fn in_refuses_lengths() {
    let right = [1_024, 1_024, 1_024, 128];
    for wrong in 0..4 {
        for length in [0, right[wrong] - 1, right[wrong] + 1, 256] {
            let mut lengths = right;
            lengths[wrong] = length;
            let (mut row, mut column) = (vec![7; lengths[0]], vec![7; lengths[1]]);
            let (mut weight, mut bound) = (vec![7; lengths[2]], vec![7; lengths[3]]);
            // Before 1, too.
            for text in [TEXT.as_bytes(), &[b' '; 32_769]] {
                let found = read_assignment(text, &mut row, &mut column, &mut weight, &mut bound);
                assert_eq!(found, Err(refusal(9, 0)), "{lengths:?}");
                assert!(row.iter().chain(&column).all(|&x| x == 0));
                assert!(weight.iter().chain(&bound).all(|&x| x == 0));
            }
        }
    }
}

#[test]
fn in_refuses_long_texts() {
    let mut text = TEXT.as_bytes().to_vec();
    text.resize(32_768, b'\n');
    assert_eq!(assignment_of(&text), Ok(crossing()));
    text.push(b'\n');
    assert_eq!(assignment_of(&text), Err(refusal(1, 0)));
}

#[test]
fn malformed_lines() {
    for (from, to) in [
        ("p asn 5 4", "p asn 5"),
        ("p asn 5 4", "p asn 5 4 0"),
        ("p asn 5 4", "p  5 4"),
        ("p asn 5 4", "p max 5 4"),
        ("p asn 5 4", "p asn5 4"),
        ("p asn 5 4", "p asn 05 4"),
        ("p asn 5 4", "p asn 5 -4"),
        ("p asn 5 4", "p asn +5 4"),
        ("p asn 5 4", "P asn 5 4"),
        ("p asn 5 4", "p ASN 5 4"),
        ("p asn 5 4", "pasn 5 4"),
        ("p asn 5 4", " p asn 5 4"),
        ("p asn 5 4", "p asn 5 4\r"),
        ("p asn 5 4", "p asn 1000000000 4"),
        ("n 2", "n"),
        ("n 2", "n 2 2"),
        ("n 2", "n2"),
        ("n 2", "N 2"),
        ("n 2", "\tn 2"),
        ("n 2", "n 02"),
        ("n 2", "n -2"),
        ("n 2", "n -0"),
        ("n 2", "n 2\0"),
        ("a 1 5 0", "a 1 5"),
        ("a 1 5 0", "a 1 5 0 0"),
        ("a 1 5 0", "a 1 5 -0"),
        ("a 1 5 0", "a 1 5 00"),
        ("a 1 5 0", "a 1 5 +0"),
        ("a 1 5 0", "a 1 05 0"),
        ("a 1 5 0", "a 1 -5 0"),
        ("a 1 5 0", "a 1 5 1000000000"),
        ("a 1 5 0", "A 1 5 0"),
        ("a 1 5 0", " a 1 5 0"),
        ("a 1 5 0", "a1 5 0"),
        ("a 1 5 0", "1 5 0"),
        ("a 1 5 0", "e 1 5 0"),
        ("a 1 5 0", "% a comment"),
        ("a 1 5 0", "C a comment\na 1 5 0"),
        ("a 1 5 0", " c no comment\na 1 5 0"),
        ("a 1 5 0", "\u{b}\na 1 5 0"),
    ] {
        let text = TEXT.replace(&format!("{from}\n"), &format!("{to}\n"));
        let line = TEXT.lines().position(|line| line == from).unwrap();
        assert_eq!(refused(&text), (20, line as u64 + 1), "{to:?}");
    }
}

#[test]
fn lines_out_of_turn() {
    all_refused(&[
        ("", 20, 1),
        ("\n", 20, 2),
        ("c\n\n \nc", 20, 5),
        ("n 1\np asn 2 0\n", 20, 1),
        ("c\na 1 2 0\np asn 2 1\nn 1\n", 20, 2),
        ("p asn 2 0\np asn 2 0\nn 1\n", 20, 2),
        ("p asn 2 0\nn 1\np asn 2 0\n", 20, 3),
        ("p asn 3 2\nn 1\na 1 2 0\nn 2\na 1 3 0\n", 20, 4),
        ("p asn 3 2\nn 1\na 1 2 0\np asn 3 2\na 1 3 0\n", 20, 4),
        ("p asn 3 1\nn 1\na 1 2 0\nn 2\n", 20, 4),
        ("p asn 3 1\nn 1\na 1 2 0\np asn 3 1\n", 20, 4),
    ]);
}

#[test]
fn missing_and_surplus_arcs() {
    all_refused(&[
        ("p asn 3 2\nn 1\n", 20, 3),
        ("p asn 3 2\nn 1\nc\n\n", 20, 5),
        ("p asn 3 2\nn 1\na 1 2 0", 20, 4),
        ("p asn 3 2\nn 1\na 1 2 0\n \nc", 20, 6),
        ("p asn 3 1\nn 1\na 1 2 0\na 1 3 0\n", 20, 4),
        // Surplus before every other test on its line, and before the sizes.
        ("p asn 3 1\nn 1\na 1 2 0\na 1 2 0\n", 20, 4),
        ("p asn 3 1\nn 1\na 1 2 0\na 4 4 2000000\n", 20, 4),
        ("p asn 3 0\nn 1\na 1 2 0\n", 20, 3),
        ("p asn 999 0\nn 1\na 1 2 0\n", 20, 3),
        ("p asn 3 0\na 1 2 0\n", 20, 2),
    ]);
}

#[test]
fn long_lines() {
    let long = |line: &str, byte: &str, length: usize| {
        let rest = byte.repeat(length - line.len());
        format!("{line}{rest}")
    };
    for (length, expected) in [(1_024, 0), (1_025, 20)] {
        for (line, byte, at) in [
            ("c", "x", 0),
            ("", " ", 0),
            ("p asn 5 4", " ", 1),
            ("c", "\0", 1),
            ("", "\t", 3),
            ("n 3", "\t", 4),
            ("a 3 5 4", " ", 5),
            ("cat", "c", 6),
            ("a 1 4 -12", " ", 8),
            ("", " ", 8),
            ("c", "\r", 8),
        ] {
            // In the place of such a line, or before the line that is there.
            let mut lines: Vec<String> = TEXT.lines().map(String::from).collect();
            let is_more = line.is_empty() || line.starts_with('c');
            let at = if is_more { at } else { at - 1 };
            if is_more {
                lines.insert(at, String::new());
            }
            lines[at] = long(line, byte, length);
            let text = lines.join("\n");
            let place = if expected == 0 { 0 } else { at as u64 + 1 };
            assert_eq!(refused(&text), (expected, place), "{line:?} {length}");
        }
    }
    // Before 21, 4, 6, 7 and 8 of the same line.
    let pad = " ".repeat(1_024);
    for line in ["n 2", "a 2 1 0", "a 1 2 2000000", "a 1 2 0"] {
        let text = format!("p asn 3 3\nn 1\na 1 2 0\n{line}{pad}\n");
        assert_eq!(refused(&text), (20, 4), "{line}");
    }
    assert_eq!(refused(&format!("p asn 3 3\nn 2{pad}\n")), (20, 2));
    let text = format!("p asn 999 1\nn 1\na 1 2 0{pad}\n");
    assert_eq!(refused(&text), (20, 3));
}

#[test]
fn source_nodes() {
    all_refused(&[
        ("p asn 5 0\nn 2\n", 21, 2),
        ("p asn 5 0\nn 0\n", 21, 2),
        ("p asn 5 0\nn 6\n", 21, 2),
        ("p asn 5 0\nn 999999999\n", 21, 2),
        ("p asn 5 0\nn 1\n\nn 1\n", 21, 4),
        ("p asn 5 0\nn 1\nn 3\nn 2\n", 21, 3),
        ("p asn 5 0\nn 2\nn 1\n", 21, 2),
        ("p asn 5 0\nn 1\nn 2\nc\nn 4\nx\n", 21, 5),
        // Before the sizes, which are bad.
        ("p asn 999 9999\nn 1\nn 3\na 1 1 1\n", 21, 3),
        // Malformed before it.
        ("p asn 5 0\nn 02\n", 20, 2),
    ]);
}

#[test]
fn sizes() {
    let at_1 = |nodes, arcs, rows| refused(&without_arcs(nodes, arcs, rows));
    // No source node; no node left over; more source nodes than nodes.
    assert_eq!(at_1(2, 0, 0), (4, 1));
    assert_eq!(at_1(0, 0, 0), (4, 1));
    assert_eq!(at_1(2, 0, 2), (4, 1));
    assert_eq!(at_1(2, 0, 3), (4, 1));
    assert_eq!(at_1(1, 0, 64), (4, 1));
    // The ends of the ranges.
    assert_eq!(at_1(2, 0, 1), (0, 0));
    assert_eq!(at_1(128, 0, 64), (0, 0));
    assert_eq!(at_1(66, 0, 65), (4, 1));
    assert_eq!(at_1(66, 0, 1), (4, 1));
    assert_eq!(at_1(65, 0, 1), (0, 0));
    assert_eq!(at_1(65, 0, 64), (0, 0));
    assert_eq!(at_1(129, 0, 64), (4, 1));
    assert_eq!(at_1(129, 0, 65), (4, 1));
    assert_eq!(at_1(999_999_999, 0, 1), (4, 1));
    // Before a missing arc.
    assert_eq!(at_1(128, 1_025, 64), (4, 1));
    assert_eq!(at_1(128, 1_024, 64), (20, 66));
    assert_eq!(at_1(2, 999_999_999, 1), (4, 1));
    // Placed at the `p` line, wherever it stands.
    assert_eq!(refused("c\n\nc\np asn 2 0\nc\n\n"), (4, 4));
}

#[test]
fn sizes_are_judged_at_the_first_arc() {
    all_refused(&[
        // Well formed, whatever its ends and its cost are.
        ("\np asn 2 1\nn 1\nn 2\na 1 2 0\n", 4, 2),
        ("\np asn 2 1\na 9 9 2000000\nx\n", 4, 2),
        ("p asn 66 2\nn 1\na 0 0 0\na 1 2 0\n", 4, 1),
        ("p asn 3 1025\nn 1\na 1 2 0\nx\n", 4, 1),
        // Malformed, too long or out of turn, before it.
        ("p asn 2 1\nn 1\nn 2\na 1 2\n", 20, 4),
        ("p asn 2 1\na 1 2 -0\n", 20, 2),
        ("p asn 2 1\nx\na 1 2 0\n", 20, 2),
        ("p asn 2 1\nn 1\nn 2\n c\na 1 2 0\n", 20, 4),
        // Not before the end of the `n` lines.
        ("p asn 2 1\nn 1\nn 2\nn 4\na 1 2 0\n", 21, 4),
        ("p asn 2 1\nn 1\nn 2\nn 3\nn\n", 20, 5),
    ]);
}

#[test]
fn arcs() {
    let arc = |line: &str| refused(&format!("p asn 5 2\nn 1\nn 2\na 2 4 7\n{line}\n"));
    for line in [
        "a 0 4 7",
        "a 3 4 7",
        "a 1 0 7",
        "a 1 1 7",
        "a 1 2 7",
        "a 1 6 7",
        "a 4 1 7",
        "a 3 3 7",
        "a 1 999999999 7",
        "a 999999999 4 7",
    ] {
        assert_eq!(arc(line), (6, 5), "{line}");
    }
    assert_eq!(arc("a 1 3 1000000"), (0, 0));
    assert_eq!(arc("a 1 3 -1000000"), (0, 0));
    assert_eq!(arc("a 1 3 1000001"), (7, 5));
    assert_eq!(arc("a 1 3 -1000001"), (7, 5));
    assert_eq!(arc("a 1 3 999999999"), (7, 5));
    assert_eq!(arc("a 2 4 8"), (8, 5));
    assert_eq!(arc("a 1 4 7"), (0, 0));
    assert_eq!(arc("a 2 5 7"), (0, 0));
    // 6 before 7 before 8.
    assert_eq!(arc("a 4 2 1000001"), (6, 5));
    assert_eq!(arc("a 2 4 1000001"), (7, 5));
}

#[test]
fn order_on_a_first_arc() {
    let mut rows = 0;
    let mut line = "a 0 9 1000001 7".to_string();
    for expected in [20, 4, 6, 7, 0] {
        let text = format!("p asn 5 1\n{}{line}\n", sources(1, rows));
        assert_eq!(refused(&text).0, expected, "{text}");
        match expected {
            20 => line.truncate(line.len() - 2),
            4 => rows = 2,
            6 => line = line.replace("0 9", "1 5"),
            7 => line = line.replace("1000001", "1000000"),
            _ => {}
        }
    }
}
