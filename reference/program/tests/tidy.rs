//! The tidy text of a graph (document 02: the tidy sheet).

mod common;
use common::*;
use reference::*;
use std::collections::BTreeMap;

/// The last word of a header.
fn last_word(kind: Kind) -> &'static str {
    match kind {
        Kind::Bipartite => "general",
        Kind::General => "symmetric",
    }
}

/// The tidy text as it is said: for each row and then each column the line of
/// the edge that is there, if one is.
fn said(graph: &OwnedGraph) -> Vec<u8> {
    let (rows, columns) = (graph.rows, graph.columns);
    let mut lines = format!("{rows} {columns} {}\n", graph.row.len());
    for row in 1..=rows {
        for column in 1..=columns {
            let mut edges = 0..graph.row.len();
            if let Some(edge) = edges.find(|&e| (graph.row[e], graph.column[e]) == (row, column)) {
                lines += &format!("{row} {column} {}\n", graph.weight[edge]);
            }
        }
    }
    sheet(last_word(graph.kind), &lines)
}

/// What a graph says, whatever the order of its edges.
fn meaning(graph: &OwnedGraph) -> (bool, u32, u32, BTreeMap<(u32, u32), i32>) {
    let ends = graph.row.iter().copied().zip(graph.column.iter().copied());
    let weights = ends.zip(graph.weight.iter().copied()).collect();
    let is_general = graph.kind == Kind::General;
    (is_general, graph.rows, graph.columns, weights)
}

/// The graph with its edges in another order.
fn shuffled(random: &mut Random, graph: &OwnedGraph) -> OwnedGraph {
    let mut other = graph.clone();
    for at in (1..graph.row.len()).rev() {
        let from = random.below(at as u64 + 1) as usize;
        other.row.swap(at, from);
        other.column.swap(at, from);
        other.weight.swap(at, from);
    }
    other
}

/// A graph of either kind, of a size up to `most`, with at most so many edges.
fn any_graph(random: &mut Random, most: i32, edges: u32) -> OwnedGraph {
    let kind = random.pick(&[Kind::Bipartite, Kind::General]);
    let rows = random.between(1, most) as u32;
    let columns = match kind {
        Kind::Bipartite => random.between(1, most) as u32,
        Kind::General => rows,
    };
    random_graph(random, kind, rows, columns, edges, |random| {
        random.pick(&[-1_000_000, -10, -1, 0, 7, 100, 999_999, 1_000_000])
    })
}

#[test]
fn worked_by_hand() {
    let edges = [(3, 2, -4), (1, 2, 0), (2, 1, 1_000_000), (1, 1, 12)];
    let graph = OwnedGraph::new(Kind::Bipartite, 3, 2, &edges);
    let tidy = sheet("general", "3 2 4\n1 1 12\n1 2 0\n2 1 1000000\n3 2 -4\n");
    assert_eq!(tidied(&graph.lend()), Ok(tidy));
    // Rows and columns are ordered as numbers, not as words.
    let edges = [(10, 2, 1), (2, 10, 2), (2, 9, 3), (9, 1, 4), (10, 1, 5)];
    let graph = OwnedGraph::new(Kind::Bipartite, 10, 64, &edges);
    let tidy = sheet("general", "10 64 5\n2 9 3\n2 10 2\n9 1 4\n10 1 5\n10 2 1\n");
    assert_eq!(tidied(&graph.lend()), Ok(tidy));
    // Merits do not count for the order.
    let edges = [(3, 2, -1_000_000), (3, 1, 5), (128, 127, -1), (2, 1, 9)];
    let graph = OwnedGraph::new(Kind::General, 128, 128, &edges);
    let tidy = sheet(
        "symmetric",
        "128 128 4\n2 1 9\n3 1 5\n3 2 -1000000\n128 127 -1\n",
    );
    assert_eq!(tidied(&graph.lend()), Ok(tidy));
}

#[test]
fn without_edges() {
    for (kind, rows, columns) in [
        (Kind::Bipartite, 1, 1),
        (Kind::Bipartite, 64, 3),
        (Kind::General, 1, 1),
        (Kind::General, 128, 128),
    ] {
        let graph = OwnedGraph::new(kind, rows, columns, &[]);
        let tidy = sheet(last_word(kind), &format!("{rows} {columns} 0\n"));
        assert_eq!(tidied(&graph.lend()), Ok(tidy));
    }
}

#[test]
fn the_most_edges() {
    let mut random = Random::new(14);
    for (kind, side) in [(Kind::Bipartite, 64), (Kind::General, 128)] {
        for weight in [0, -1_000_000, 1_000_000] {
            let graph = random_graph(&mut random, kind, side, side, 1_024, |_| weight);
            assert_eq!(tidied(&graph.lend()), Ok(said(&graph)));
        }
    }
    // The longest text: 406 pairs have six digits, and 618 more have five.
    let pairs = (100..=128).flat_map(|row| (10..row).map(move |column| (row, column)));
    let mut pairs: Vec<(u32, u32)> = pairs.collect();
    pairs.sort_by_key(|pair| pair.1 < 100);
    let edges: Vec<_> = pairs.iter().map(|&(r, c)| (r, c, -1_000_000)).collect();
    let graph = OwnedGraph::new(Kind::General, 128, 128, &edges[..1_024]);
    let tidy = tidied(&graph.lend()).unwrap();
    assert_eq!(tidy, said(&graph));
    assert_eq!(tidy.len(), 51 + 13 + 406 * 17 + 618 * 16);
}

#[test]
fn any_order_gives_the_same() {
    let mut random = Random::new(15);
    for round in 0..1_500 {
        let (most, edges) = if round % 50 == 0 {
            (64, 1_024)
        } else {
            (6, 12)
        };
        let graph = any_graph(&mut random, most, edges);
        let tidy = tidied(&graph.lend()).unwrap();
        assert_eq!(tidy, said(&graph));
        let other = shuffled(&mut random, &graph);
        assert_eq!(tidied(&other.lend()).unwrap(), tidy);
        // It is read as the same graph, and tidying that changes nothing.
        let read = graph_of(&tidy).unwrap();
        assert_eq!(meaning(&read), meaning(&graph));
        let ends: Vec<_> = read.row.iter().zip(&read.column).collect();
        assert!(ends.windows(2).all(|two| two[0] < two[1]));
        assert_eq!(tidied(&read.lend()).unwrap(), tidy);
    }
}

/// The texts of these lines in every order.
fn orders(lines: &[&str]) -> Vec<String> {
    if lines.is_empty() {
        return vec![String::new()];
    }
    let mut all = Vec::new();
    for (at, line) in lines.iter().enumerate() {
        let rest = [&lines[..at], &lines[at + 1..]].concat();
        all.extend(orders(&rest).iter().map(|rest| format!("{line}\n{rest}")));
    }
    all
}

#[test]
fn two_texts_tidy_alike_exactly_if_they_say_the_same() {
    let mut texts = Vec::new();
    for (word, sizes, lines) in [
        ("general", "3 3 3", ["2 1 4", "3 1 -4", "3 2 0"]),
        ("general", "3 3 3", ["2 1 4", "3 1 4", "3 2 0"]),
        ("general", "3 3 3", ["2 1 4", "3 1 -4", "2 2 0"]),
        ("general", "3 3 3", ["1 2 4", "1 3 -4", "2 3 0"]),
        ("general", "3 4 3", ["2 1 4", "3 1 -4", "3 2 0"]),
        ("general", "4 3 3", ["2 1 4", "3 1 -4", "3 2 0"]),
        ("symmetric", "3 3 3", ["2 1 4", "3 1 -4", "3 2 0"]),
        ("symmetric", "4 4 3", ["2 1 4", "3 1 -4", "3 2 0"]),
        ("symmetric", "3 3 3", ["2 1 -4", "3 1 4", "3 2 0"]),
    ] {
        let all = orders(&lines).into_iter();
        texts.extend(all.map(|lines| sheet(word, &format!("{sizes}\n{lines}"))));
    }
    texts.push(sheet("general", "3 3 2\n2 1 4\n3 1 -4"));
    texts.push(sheet("symmetric", "3 3 2\n2 1 4\n3 1 -4"));
    let graphs: Vec<_> = texts.iter().map(|text| graph_of(text).unwrap()).collect();
    for one in &graphs {
        for other in &graphs {
            let alike = tidied(&one.lend()) == tidied(&other.lend());
            assert_eq!(alike, meaning(one) == meaning(other));
        }
    }
}

/// The ends of the chosen edges, in order.
fn ends(graph: &OwnedGraph, chosen: &[u8]) -> Vec<(u32, u32)> {
    let edges = (0..chosen.len()).filter(|&edge| chosen[edge] == 1);
    let mut ends: Vec<_> = edges.map(|e| (graph.row[e], graph.column[e])).collect();
    ends.sort_unstable();
    ends
}

#[test]
fn plan_texts_are_read_as_the_same_pairs() {
    let mut random = Random::new(16);
    let bytes = b"0123456 \t\n-x%";
    let (mut taken, mut refused) = (0, 0);
    for _ in 0..3_000 {
        let graph = any_graph(&mut random, 5, 12);
        let tidy = graph_of(&tidied(&graph.lend()).unwrap()).unwrap();
        let marks: Vec<_> = (0..graph.row.len())
            .map(|_| random.below(2) as u8)
            .collect();
        let mut text = written(&graph.lend(), &marks).unwrap();
        if random.below(2) == 0 {
            let from = 50.min(text.len() - 1);
            let at = from + random.below((text.len() - from) as u64) as usize;
            text[at] = random.pick(bytes);
        }
        let [before, after] = [&graph, &tidy].map(|graph| {
            let chosen = subgraph_of(&text, &graph.lend());
            chosen.map(|chosen| ends(graph, &chosen))
        });
        assert_eq!(before, after);
        match before {
            Ok(_) => taken += 1,
            Err(_) => refused += 1,
        }
    }
    assert!(taken > 1_000 && refused > 500);
}

#[test]
fn price_texts_belong_to_the_order_that_they_were_made_for() {
    let untidy = sheet("general", "1 2 2\n1 2 3\n1 1 5\n");
    let tidy = tidied(&graph_of(&untidy).unwrap().lend()).unwrap();
    assert_eq!(tidy, sheet("general", "1 2 2\n1 1 5\n1 2 3\n"));
    // A price of 4 for the pair 1-1: the second before, the first after.
    let prices = numbers("5 1\n6\n0\n0\n0\n4\n");
    let mark = |sheet: &[u8]| {
        mark_output(&Files {
            graph: Some(sheet),
            bounds: Some(&numbers("3 1\n2\n1\n1\n")),
            subgraph: Some(&plan("general", "1 2 2\n1 1\n1 2\n")),
            prices: Some(&prices),
        })
    };
    assert!(mark(&untidy).ends_with(b" gap 0\n"));
    assert_eq!(mark(&tidy), b"refused 15 at 1 in input\n");
}
