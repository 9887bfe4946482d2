//! The index of a graph (document 02: pairs of each fish at hand).

mod common;
use common::*;
use reference::*;

/// The index as it is said: for each vertex, one after the other, the rising
/// numbers of its edges, found by looking at every edge.
fn said(graph: &Graph) -> Vec<u32> {
    let n = vertices(graph) as u32;
    let shift = match graph.kind {
        Kind::Bipartite => graph.rows,
        Kind::General => 0,
    };
    let (mut offsets, mut numbers) = (vec![0], Vec::new());
    for vertex in 1..=n {
        for edge in 0..graph.row.len() {
            if graph.row[edge] == vertex || graph.column[edge] + shift == vertex {
                numbers.push(edge as u32 + 1);
            }
        }
        offsets.push(numbers.len() as u32);
    }
    offsets.extend(numbers);
    offsets
}

/// A graph of either kind, small or of any size.
fn any_graph(random: &mut Random, large: bool) -> OwnedGraph {
    let kind = random.pick(&[Kind::Bipartite, Kind::General]);
    let most = match (kind, large) {
        (_, false) => 6,
        (Kind::Bipartite, true) => 64,
        (Kind::General, true) => 128,
    };
    let rows = random.between(1, most) as u32;
    let columns = match kind {
        Kind::Bipartite => random.between(1, most) as u32,
        Kind::General => rows,
    };
    let edges = random.between(0, if large { 1_024 } else { 12 }) as u32;
    random_graph(random, kind, rows, columns, edges, |_| 0)
}

/// The manual's sheet: three dams and two sires.
fn manual() -> OwnedGraph {
    let edges = [(1, 1, 12), (1, 2, 7), (2, 1, 9), (3, 2, -4)];
    OwnedGraph::new(Kind::Bipartite, 3, 2, &edges)
}

#[test]
fn worked_by_hand() {
    // Dams 1, 2, 3 have pairs 1 2, 3 and 4; sires 1 and 2 have 1 3 and 2 4.
    let index = [0, 2, 3, 4, 6, 8, 1, 2, 3, 4, 1, 3, 2, 4];
    assert_eq!(built(&manual().lend()).unwrap(), index);
    // The sheet's order counts, not that of rows and columns.
    let edges = [(2, 2, 0), (1, 3, 0), (2, 1, 0), (1, 2, 0)];
    let graph = OwnedGraph::new(Kind::Bipartite, 2, 3, &edges);
    let index = [0, 2, 4, 5, 7, 8, 2, 4, 1, 3, 3, 1, 4, 2];
    assert_eq!(built(&graph.lend()).unwrap(), index);
    // A star: its row has every edge, and each column one.
    let index = [0, 3, 4, 5, 6, 1, 2, 3, 1, 2, 3];
    assert_eq!(built(&star(&[5, 5, 5]).lend()).unwrap(), index);
    // Families 1 to 4 with pairs 4-1, 3-2, 2-1, 4-2; family 5 has none.
    let edges = [(4, 1, 0), (3, 2, 0), (2, 1, 0), (4, 2, 0)];
    let graph = OwnedGraph::new(Kind::General, 5, 5, &edges);
    let index = [0, 2, 5, 6, 8, 8, 1, 3, 2, 3, 4, 2, 1, 4];
    assert_eq!(built(&graph.lend()).unwrap(), index);
}

#[test]
fn without_edges() {
    for (kind, rows, columns, n) in [
        (Kind::Bipartite, 1, 1, 2),
        (Kind::Bipartite, 64, 64, 128),
        (Kind::General, 1, 1, 1),
        (Kind::General, 128, 128, 128),
    ] {
        let graph = OwnedGraph::new(kind, rows, columns, &[]);
        assert_eq!(built(&graph.lend()), Ok(vec![0; n + 1]));
        assert_eq!(test_index(&graph.lend(), &vec![0; n + 1]), Ok(()));
        let mut wrong = vec![0; n + 1];
        wrong[n] = 1;
        let found = test_index(&graph.lend(), &wrong);
        assert_eq!(found, Err(refusal(18, n as u64 + 1)));
    }
}

#[test]
fn the_longest() {
    for (kind, side) in [(Kind::Bipartite, 64), (Kind::General, 128)] {
        let mut random = Random::new(11);
        let graph = random_graph(&mut random, kind, side, side, 1_024, |_| 0);
        let index = built(&graph.lend()).unwrap();
        assert_eq!(index.len(), 2_177);
        assert_eq!(index[128], 2_048);
        assert_eq!(index, said(&graph.lend()));
    }
    // A family that is paired with all others.
    let edges: Vec<_> = (1..128).map(|column| (128, column, 0)).collect();
    let graph = OwnedGraph::new(Kind::General, 128, 128, &edges);
    let index = built(&graph.lend()).unwrap();
    assert_eq!(index[127..129], [127, 254]);
    assert_eq!(index[129 + 127..], (1..128).collect::<Vec<u32>>());
    assert_eq!(index, said(&graph.lend()));
}

#[test]
fn each_edge_is_listed_once_under_each_end() {
    let mut random = Random::new(12);
    for round in 0..2_000 {
        let graph = any_graph(&mut random, round % 50 == 0);
        let graph = graph.lend();
        let (n, m) = (vertices(&graph), graph.row.len());
        let index = built(&graph).unwrap();
        assert_eq!(index, said(&graph));
        let (offsets, numbers) = index.split_at(n + 1);
        assert_eq!((offsets[0], offsets[n]), (0, 2 * m as u32));
        let mut under = vec![Vec::new(); m];
        for vertex in 0..n {
            let list = &numbers[offsets[vertex] as usize..offsets[vertex + 1] as usize];
            assert!(list.windows(2).all(|two| two[0] < two[1]));
            for &number in list {
                under[number as usize - 1].push(vertex);
            }
        }
        for (edge, under) in under.iter().enumerate() {
            let (first, second) = graph.ends(edge);
            assert_eq!(*under, [first.min(second), first.max(second)]);
        }
    }
}

#[test]
fn every_changed_position_is_found() {
    let mut random = Random::new(13);
    for _ in 0..300 {
        let graph = any_graph(&mut random, false);
        let graph = graph.lend();
        let right = built(&graph).unwrap();
        assert_eq!(test_index(&graph, &right), Ok(()));
        for at in 0..right.len() {
            let own = right[at];
            let neighbours = [right[at.saturating_sub(1)], right[(at + 1) % right.len()]];
            for number in [own + 1, own.wrapping_sub(1), 0, u32::MAX]
                .into_iter()
                .chain(neighbours)
                .filter(|&number| number != own)
            {
                let mut wrong = right.clone();
                wrong[at] = number;
                let expected = refusal(18, at as u64 + 1);
                assert_eq!(test_index(&graph, &wrong), Err(expected));
                // What comes after it does not count.
                for later in &mut wrong[at + 1..] {
                    *later = random.below(9) as u32;
                }
                assert_eq!(test_index(&graph, &wrong), Err(expected));
            }
        }
    }
}

#[test]
fn wrong_orders_and_other_graphs() {
    let graph = manual();
    let call = |index: &[u32]| test_index(&graph.lend(), index);
    let at = |place| Err(refusal(18, place));
    // Dam 1's pairs falling, sire 2's pairs falling.
    let index = [0, 2, 3, 4, 6, 8, 2, 1, 3, 4, 1, 3, 2, 4];
    assert_eq!(call(&index), at(7));
    let index = [0, 2, 3, 4, 6, 8, 1, 2, 3, 4, 1, 3, 4, 2];
    assert_eq!(call(&index), at(13));
    // One pair twice under one end, or under a fish that is not its end.
    let index = [0, 2, 3, 4, 6, 8, 1, 2, 3, 4, 1, 1, 2, 4];
    assert_eq!(call(&index), at(12));
    let index = [0, 2, 3, 4, 6, 8, 1, 2, 3, 4, 1, 2, 2, 4];
    assert_eq!(call(&index), at(12));
    // Pair numbers from 0; offsets from 1; offsets as places in the whole.
    let index = [0, 2, 3, 4, 6, 8, 0, 1, 2, 3, 0, 2, 1, 3];
    assert_eq!(call(&index), at(7));
    let index = [1, 3, 4, 5, 7, 9, 1, 2, 3, 4, 1, 3, 2, 4];
    assert_eq!(call(&index), at(1));
    let index = [6, 8, 9, 10, 12, 14, 1, 2, 3, 4, 1, 3, 2, 4];
    assert_eq!(call(&index), at(1));
    // Two pairs exchanged: the second and the third.
    let mut other = manual();
    other.row.swap(1, 2);
    other.column.swap(1, 2);
    assert_eq!(call(&built(&other.lend()).unwrap()), at(8));
    // The last pair moved from dam 3 to dam 2.
    let mut other = manual();
    other.row[3] = 2;
    assert_eq!(call(&built(&other.lend()).unwrap()), at(3));
    // Weights do not count.
    let mut other = manual();
    other.weight = vec![0; 4];
    assert_eq!(call(&built(&other.lend()).unwrap()), Ok(()));
}

#[test]
fn wrong_lengths() {
    let graph = manual();
    let right = built(&graph.lend()).unwrap();
    for length in [0, 1, 5, 6, 8, 13, 15, 2_177] {
        let mut index = right.clone();
        index.resize(length, 0);
        assert_eq!(test_index(&graph.lend(), &index), Err(refusal(9, 0)));
        index.fill(7);
        let found = build_index(&graph.lend(), &mut index);
        assert_eq!(found, Err(refusal(9, 0)));
        assert!(index.iter().all(|&x| x == 0));
    }
    // Out of range counts are taken as they are.
    let graph = OwnedGraph::new(Kind::Bipartite, 70, 70, &[]);
    let call = |length: usize| test_index(&graph.lend(), &vec![0; length]);
    assert_eq!(call(129), Err(refusal(9, 0)));
    assert_eq!(call(141), Err(refusal(4, 0)));
    // A general graph has as many vertices as rows, whatever its columns.
    let graph = OwnedGraph::new(Kind::General, 2, 5, &[]);
    let call = |length: usize| build_index(&graph.lend(), &mut vec![7; length]);
    assert_eq!(call(8), Err(refusal(9, 0)));
    assert_eq!(call(3), Err(refusal(4, 0)));
    // No sum or product wraps around.
    let graph = OwnedGraph::new(Kind::Bipartite, u32::MAX, 3, &[]);
    assert_eq!(index_length(&graph.lend()), (1 << 32) + 3);
    assert_eq!(test_index(&graph.lend(), &[0; 3]), Err(refusal(9, 0)));
    let graph = OwnedGraph::new(Kind::General, 2, 2, &[]);
    let graph = Graph {
        edges: 1 << 31,
        ..graph.lend()
    };
    assert_eq!(index_length(&graph), (1 << 32) + 3);
    assert_eq!(test_index(&graph, &[0; 3]), Err(refusal(9, 0)));
}
