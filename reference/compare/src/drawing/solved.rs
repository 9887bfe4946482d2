//! Optimal subgraphs and prices that prove them, by the separately written solver.

use reference::{index_length, Graph, Refusal};

/// What a solver gives.
pub struct Solved {
    /// The marks of an optimal subgraph.
    pub chosen: Vec<u8>,
    /// The prices of the vertices.
    pub vertex: Vec<i32>,
    /// The prices of the edges.
    pub edge: Vec<i32>,
}

impl Solved {
    /// What the separately written solver gives for a graph whose lengths are right.
    pub fn of(g: &Graph, bound: &[i32]) -> Result<Solved, Refusal> {
        let (n, m) = (bound.len(), g.edges as usize);
        let (mut chosen, mut vertex, mut edge) = (vec![0; m], vec![0; n], vec![0; m]);
        let mut workspace = vec![0; 4096];
        let mut index = vec![0; index_length(g) as usize];
        reference::build_index(g, &mut index)?;
        reference::solve(
            g,
            bound,
            &index,
            &mut chosen,
            &mut vertex,
            &mut edge,
            &mut workspace,
        )?;
        Ok(Solved {
            chosen,
            vertex,
            edge,
        })
    }
}
