//! Random numbers and graphs with a fixed seed.

use crate::graph::{Kind, OwnedGraph};

/// The generator splitmix64.
#[derive(Clone, Debug)]
pub struct Random {
    state: u64,
}

impl Random {
    /// The generator of a seed.
    pub fn new(seed: u64) -> Random {
        Random { state: seed }
    }

    /// The next 64 bits.
    pub fn bits(&mut self) -> u64 {
        self.state = self.state.wrapping_add(0x9e37_79b9_7f4a_7c15);
        let mut z = self.state;
        z = (z ^ (z >> 30)).wrapping_mul(0xbf58_476d_1ce4_e5b9);
        z = (z ^ (z >> 27)).wrapping_mul(0x94d0_49bb_1331_11eb);
        z ^ (z >> 31)
    }

    /// A number from 0 to `count` - 1. Panics if `count` is 0.
    pub fn below(&mut self, count: u64) -> u64 {
        self.bits() % count
    }

    /// A number from `low` to `high`, both included.
    pub fn between(&mut self, low: i32, high: i32) -> i32 {
        let span = (i64::from(high) - i64::from(low) + 1) as u64;
        (i64::from(low) + self.below(span) as i64) as i32
    }

    /// One of some items.
    pub fn pick<T: Copy>(&mut self, items: &[T]) -> T {
        items[self.below(items.len() as u64) as usize]
    }
}

/// A random graph in range (sheet) with `edges` different edges, or with all
/// there can be if these are fewer. `weight` gives each edge's weight.
pub fn random_graph(
    random: &mut Random,
    kind: Kind,
    rows: u32,
    columns: u32,
    edges: u32,
    mut weight: impl FnMut(&mut Random) -> i32,
) -> OwnedGraph {
    let mut places = Vec::new();
    for row in 1..=rows {
        for column in 1..=columns {
            if kind == Kind::Bipartite || row > column {
                places.push((row, column));
            }
        }
    }
    let count = places.len().min(edges as usize);
    let mut taken = Vec::with_capacity(count);
    for at in 0..count {
        let from = at + random.below((places.len() - at) as u64) as usize;
        places.swap(at, from);
        let (row, column) = places[at];
        taken.push((row, column, weight(random)));
    }
    OwnedGraph::new(kind, rows, columns, &taken)
}
