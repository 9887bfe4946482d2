//! One way to write a number, and what `rewrite` prints.

mod common;
use common::*;
use reference::rewrite::CANNOT_READ;
use reference::*;

/// Words that only the old rules take, with their values: as a size, an index
/// or a signed number, and as a signed number only.
const DIGITS: [(&str, i32); 5] = [
    ("00", 0),
    ("000000000", 0),
    ("01", 1),
    ("007", 7),
    ("000000012", 12),
];
const SIGNED: [(&str, i32); 8] = [
    ("-0", 0),
    ("+0", 0),
    ("-000000000", 0),
    ("+000000000", 0),
    ("+7", 7),
    ("+007", 7),
    ("-07", -7),
    ("-000000012", -12),
];

/// The graph reader of the old rules.
fn old_graph_of(text: &[u8]) -> Result<OwnedGraph, Refusal> {
    let (mut row, mut column, mut weight) = ([7; 1024], [7; 1024], [7; 1024]);
    let head = read_graph_by(Rules::Old, text, &mut row, &mut column, &mut weight)?;
    let m = head.edges as usize;
    Ok(OwnedGraph {
        kind: head.kind,
        rows: head.rows,
        columns: head.columns,
        row: row[..m].to_vec(),
        column: column[..m].to_vec(),
        weight: weight[..m].to_vec(),
    })
}

/// The number reader of the old rules.
fn old_numbers_of(text: &[u8], count: u32, what: What) -> Result<Vec<i32>, Refusal> {
    let mut out = vec![7; count as usize];
    read_numbers_by(Rules::Old, text, count, what, &mut out)?;
    Ok(out)
}

/// The subgraph reader of the old rules.
fn old_subgraph_of(text: &[u8], graph: &Graph) -> Result<Vec<u8>, Refusal> {
    let mut chosen = vec![7; graph.edges as usize];
    read_subgraph_by(Rules::Old, text, graph, &mut chosen)?;
    Ok(chosen)
}

#[test]
fn other_ways_are_malformed_on_the_size_line() {
    for (word, _) in DIGITS.iter().chain(&SIGNED) {
        for line in [
            format!("{word} 1 1"),
            format!("1 {word} 1"),
            format!("1 1 {word}"),
        ] {
            let text = sheet("general", &line);
            assert_eq!(graph_of(&text), Err(refusal(3, 2)), "{line}");
            let text = plan("general", &format!("%\n{line}"));
            let found = subgraph_of(&text, &star(&[5]).lend());
            assert_eq!(found, Err(refusal(3, 3)), "{line}");
        }
        for line in [format!("{word} 1"), format!("1 {word}")] {
            let text = numbers(&line);
            let found = numbers_of(&text, 1, What::Bounds);
            assert_eq!(found, Err(refusal(3, 2)), "{line}");
        }
    }
}

#[test]
fn other_ways_are_malformed_on_later_lines() {
    for (word, value) in DIGITS.iter().chain(&SIGNED) {
        let malformed = Err(refusal(5, 3));
        for line in [
            format!("{word} 1 5"),
            format!("1 {word} 5"),
            format!("1 1 {word}"),
        ] {
            let text = sheet("general", &format!("12 12 1\n{line}"));
            assert_eq!(graph_of(&text), malformed, "{line}");
        }
        for line in [format!("{word} 1"), format!("1 {word}")] {
            let text = plan("general", &format!("1 1 1\n{line}"));
            let found = subgraph_of(&text, &star(&[5]).lend());
            assert_eq!(found, Err(refusal(5, 3)), "{line}");
        }
        let text = numbers(&format!("1 1\n{word}"));
        for what in [What::Bounds, What::Prices] {
            let found = numbers_of(&text, 1, what);
            assert_eq!(found, Err(refusal(5, 3)), "{word}");
        }
        let text = sheet("general", &format!("1 1 1\n1 1 {word}"));
        assert_eq!(old_graph_of(&text), Ok(star(&[*value])), "{word}");
    }
}

#[test]
fn the_old_rules_take_zeros_before_sizes_and_indices_and_no_sign() {
    let text = sheet("general", "000000001 01 001\n01 000000001 5");
    assert_eq!(old_graph_of(&text), Ok(star(&[5])));
    let text = plan("general", "001 01 1\n01 0001");
    assert_eq!(old_subgraph_of(&text, &star(&[5]).lend()), Ok(vec![1]));
    let text = numbers("02 000001\n064\n+0");
    assert_eq!(old_numbers_of(&text, 2, What::Bounds), Ok(vec![64, 0]));
    for line in ["0000000001 1 1", "+1 1 1", "1 1 -0"] {
        let found = old_graph_of(&sheet("general", line));
        assert_eq!(found, Err(refusal(3, 2)), "{line}");
    }
    for line in [
        "-1 1 5",
        "1 +1 5",
        "0000000001 1 5",
        "1 1 0000000007",
        "1 1 +0000000000",
        "1 1 +-7",
    ] {
        let found = old_graph_of(&sheet("general", &format!("1 1 1\n{line}")));
        assert_eq!(found, Err(refusal(5, 3)), "{line}");
    }
}

#[test]
fn numbers_are_rewritten_and_all_else_is_copied() {
    let header = "%%MatrixMarket\tMATRIX  Coordinate integer general \t";
    let before = "\n% 007 +7 -0\n%\n \t\n\n";
    let old = "\t02 002  0003 \n 01 1\t+7\n\n \t \n2 000000001 -000\n02 02 -0000007  ";
    let new = "\t2 2  3 \n 1 1\t7\n\n \t \n2 1 0\n2 2 -7  ";
    for end in ["", "\n", "\n\n", "\n \t"] {
        let text = format!("{header}{before}{old}{end}");
        let rewritten = format!("{header}{before}{new}{end}");
        assert_eq!(rewrite(text.as_bytes()), rewritten.as_bytes());
        assert_eq!(rewrite(rewritten.as_bytes()), rewritten.as_bytes());
    }
}

#[test]
fn every_sort_is_rewritten() {
    for (old, new) in [
        (
            sheet("symmetric", "03 3 1\n3 002 +5"),
            sheet("symmetric", "3 3 1\n3 2 5"),
        ),
        (
            plan("general", "02 2 001\n1 01\n"),
            plan("general", "2 2 1\n1 1\n"),
        ),
        (
            plan("symmetric", "0128 128 1\n128 0127\n"),
            plan("symmetric", "128 128 1\n128 127\n"),
        ),
        (numbers("02 01\n+064\n-0"), numbers("2 1\n64\n0")),
        (
            // Prices, since no limit is as large.
            numbers("1 1\n+002000000\n"),
            numbers("1 1\n2000000\n"),
        ),
        (
            numbers(&format!("01152 1\n{}", "+1\n".repeat(1_152))),
            numbers(&format!("1152 1\n{}", "1\n".repeat(1_152))),
        ),
        (plan("general", "64 064 00"), plan("general", "64 64 0")),
    ] {
        assert_eq!(rewrite(&old), new);
    }
}

#[test]
fn what_the_old_rules_refuse_cannot_be_read() {
    let long = " ".repeat(1_025);
    let mut over = sheet("general", "1 1 0");
    over.resize(32_769, b'\n');
    for text in [
        b"".to_vec(),
        b"\n".to_vec(),
        b"cannot read\n".to_vec(),
        b"%%MatrixMarket matrix array integer symmetric\n1 1\n1\n".to_vec(),
        b"%%MatrixMarket matrix coordinate real general\n1 1 0\n".to_vec(),
        over,
        vec![b' '; 32_769],
        sheet("general", ""),
        sheet("general", "2 2\n"),
        sheet("general", "+2 2 0\n"),
        sheet("general", "65 1 0\n"),
        sheet("symmetric", "2 3 0\n"),
        sheet("general", "1 1 1025\n"),
        sheet("general", "2 2 1\n1 1 x7\n"),
        sheet("general", "2 2 1\n1 1 0000000007\n"),
        sheet("general", "2 2 1\n+1 1 7\n"),
        sheet("general", "2 2 1\n1 1\n"),
        sheet("general", "2 2 1\n"),
        sheet("general", "2 2 1\n1 1 5\n1 2 5\n"),
        sheet("general", "2 2 1\n3 1 5\n"),
        sheet("symmetric", "3 3 1\n1 2 5\n"),
        sheet("general", "2 2 1\n1 1 1000001\n"),
        sheet("general", "2 2 2\n1 01 5\n01 1 6\n"),
        sheet("general", &format!("2 2 0\n{long}\n")),
        plan("general", "2 2\n"),
        plan("general", "65 2 0\n"),
        plan("symmetric", "3 2 0\n"),
        plan("general", "2 2 1\n1 1 1\n"),
        plan("general", "2 2 2\n1 1\n"),
        plan("general", "2 2 0\n1 1\n"),
        plan("general", "2 2 1\n3 1\n"),
        plan("general", "2 2 1\n1 0\n"),
        plan("symmetric", "3 3 1\n2 2\n"),
        plan("general", "2 2 2\n1 01\n001 1\n"),
        plan("general", "2 2 1\n1 -1\n"),
        plan("general", &format!("2 2 0\n%{long}\n")),
        numbers("1\n1\n"),
        numbers("0 1\n"),
        numbers("1153 1\n"),
        numbers("1 2\n1\n1\n"),
        numbers("2 1\n1\n"),
        numbers("1 1\n1\n1\n"),
        numbers("1 1\n-1\n"),
        numbers("1 1\n2000001\n"),
        numbers("1 1\n0000000001\n"),
        numbers(&format!("1153 1\n{}", "1\n".repeat(1_153))),
    ] {
        let shown = String::from_utf8_lossy(&text);
        assert_eq!(rewrite(&text), CANNOT_READ, "{shown}");
    }
}

#[test]
fn prices_beyond_the_old_range_are_read_and_not_rewritten() {
    for (prices, is_rewritten) in [
        ([0, 2_000_000], true),
        ([2_000_000, 2_000_000], true),
        ([0, 2_000_001], false),
        ([2_000_001, 0], false),
        ([3_000_000, 2_000_000], false),
        ([0, 4_000_000], false),
        ([4_000_000, 4_000_000], false),
    ] {
        let [first, second] = prices;
        let text = numbers(&format!("2 1\n{first}\n{second}\n"));
        assert_eq!(numbers_of(&text, 2, What::Prices), Ok(prices.to_vec()));
        let old = numbers(&format!("02 1\n+{first}\n0{second}\n"));
        let expected = if is_rewritten { &text[..] } else { CANNOT_READ };
        assert_eq!(rewrite(&text), expected, "{prices:?}");
        assert_eq!(rewrite(&old), expected, "{prices:?} in old forms");
    }
    let text = numbers("2 1\n0\n4000001\n");
    assert_eq!(numbers_of(&text, 2, What::Prices), Err(refusal(13, 4)));
    assert_eq!(old_numbers_of(&text, 2, What::Prices), Err(refusal(13, 4)));
    let text = numbers("2 1\n0\n2000001\n");
    assert_eq!(old_numbers_of(&text, 2, What::Prices), Err(refusal(13, 4)));
}

#[test]
fn the_longest_texts_are_rewritten() {
    let mut old = sheet("general", "1 1 00");
    let mut new = sheet("general", "1 1 0");
    old.resize(32_768, b'\n');
    new.resize(32_767, b'\n');
    assert_eq!(rewrite(&old), new);
    let zeros = "0".repeat(6);
    let (mut old, mut new) = (String::from("64 64 1024\n"), String::from("64 64 1024\n"));
    for row in 1..=16 {
        for column in 1..=64 {
            old += &format!("{row:09} {column:09} -{zeros}100\n");
            new += &format!("{row} {column} -100\n");
        }
    }
    assert_eq!(rewrite(&sheet("general", &old)), sheet("general", &new));
}

/// Texts of every sort, in old and in new forms.
fn texts() -> Vec<Vec<u8>> {
    vec![
        sheet(
            "general",
            "% 07\n02 2 4\n1 01 5\n1 2 +4\n\n2 1 -0\n2 2 -1000000\n",
        ),
        sheet("symmetric", "3 3 3\n2 1 1\n3 1 1\n3 2 1"),
        plan("general", "2 2 02\n1 2\n2 01\n"),
        plan("symmetric", "3 3 2\n3 2\n2 1"),
        numbers("04 1\n1\n64\n+0\n-00\n"),
        numbers("4 1\n2000000\n7\n65\n1"),
        numbers("3 1\n4000000\n2000001\n1\n"),
    ]
}

/// Whether the old rules take a text as a subgraph of the graph with all edges
/// of its sizes, hence of any, where these are at most 1,024.
fn some_graph_takes(text: &[u8]) -> bool {
    let Some(own) = own_graph(text) else {
        return false;
    };
    if own.rows > 1_024 || own.columns > 1_024 || own.rows * own.columns > 1_024 {
        return false;
    }
    let mut random = Random::new(1);
    let graph = random_graph(&mut random, own.kind, own.rows, own.columns, 1_024, |_| 0);
    old_subgraph_of(text, &graph.lend()).is_ok()
}

/// Whether the old rules take a text of at most 12 numbers, or of a subgraph of
/// a graph with at most 1,024 places for edges.
fn old_rules_take(text: &[u8]) -> bool {
    old_graph_of(text).is_ok()
        || some_graph_takes(text)
        || (1..=12).any(|count| {
            old_numbers_of(text, count, What::Bounds).is_ok()
                || old_numbers_of(text, count, What::Prices).is_ok()
        })
}

/// Tests that the new rules read a rewritten text as the old ones read it
/// before, and that a text which both rules take is rewritten to itself.
fn same_readings(old: &[u8], new: &[u8]) {
    let mut taken = graph_of(old).is_ok();
    assert_eq!(graph_of(new), old_graph_of(old));
    for count in 1..=6 {
        for what in [What::Bounds, What::Prices] {
            let read = old_numbers_of(old, count, what);
            assert_eq!(numbers_of(new, count, what), read);
            taken |= numbers_of(old, count, what).is_ok();
        }
    }
    for graph in [case_2(), triangle()] {
        let graph = graph.lend();
        assert_eq!(subgraph_of(new, &graph), old_subgraph_of(old, &graph));
        taken |= subgraph_of(old, &graph).is_ok();
    }
    assert!(!taken || old == new);
}

/// Whether the new rules take a text that the old ones refuse. Tests that they
/// do so only as prices, with one beyond the old range.
fn has_prices_beyond(text: &[u8]) -> bool {
    assert!(graph_of(text).is_err());
    for graph in [case_2(), triangle()] {
        assert!(subgraph_of(text, &graph.lend()).is_err());
    }
    let mut taken = false;
    for count in 1..=12 {
        assert!(numbers_of(text, count, What::Bounds).is_err());
        if let Ok(prices) = numbers_of(text, count, What::Prices) {
            assert!(prices.iter().any(|&price| price > 2_000_000));
            taken = true;
        }
    }
    taken
}

#[test]
fn spoilt_texts_are_rewritten_exactly_if_the_old_rules_take_them() {
    let mut random = Random::new(8);
    let texts = texts();
    let bytes = b"00012345+-% \t\n\rxGg";
    let (mut rewritten, mut unchanged, mut unreadable, mut beyond) = (0, 0, 0, 0);
    for _ in 0..6_000 {
        let mut text = texts[random.below(texts.len() as u64) as usize].clone();
        for _ in 0..random.between(0, 3) {
            let at = random.below(text.len() as u64) as usize;
            match random.below(3) {
                0 => text[at] = random.pick(bytes),
                1 => text.insert(at, random.pick(bytes)),
                _ => drop(text.remove(at)),
            }
        }
        let found = rewrite(&text);
        assert_eq!(rewrite(&found), found);
        let taken = old_rules_take(&text);
        let has_many_places = own_graph(&text).is_some_and(|own| own.rows.max(own.columns) > 32);
        if !has_many_places {
            assert_eq!(taken, found != CANNOT_READ);
        }
        if taken {
            same_readings(&text, &found);
        }
        match taken {
            true if found == text => unchanged += 1,
            true => rewritten += 1,
            false if has_prices_beyond(&text) => beyond += 1,
            false => unreadable += 1,
        }
    }
    assert!(rewritten > 500 && unchanged > 500 && unreadable > 500 && beyond > 100);
}
