//! What the readers of graphs, numbers and subgraphs give for a text: the proved ones, and the separately written ones by the new and the old rules.

use crate::drawing::sorts::Sort;
use crate::harness::proved;
use crate::harness::tally::Seen;
use reference::{read_graph_by, read_numbers_by, read_subgraph_by};
use reference::{Graph, Head, Refusal, Rules, What};

pub type ReadingGraph = fn(&[u8], &mut [u32], &mut [u32], &mut [i32]) -> Result<Head, Refusal>;
pub type ReadingNumbers = fn(&[u8], u32, What, &mut [i32]) -> Result<(), Refusal>;
pub type ReadingSubgraph = fn(&[u8], &Graph, &mut [u8]) -> Result<(), Refusal>;

/// The readers of a program.
pub struct Readers {
    graph: ReadingGraph,
    numbers: ReadingNumbers,
    subgraph: ReadingSubgraph,
}

/// The proved readers.
pub const PROVED: Readers = Readers {
    graph: proved::read_graph,
    numbers: proved::read_numbers,
    subgraph: proved::read_subgraph,
};

/// The separately written readers.
pub const NEW_RULES: Readers = Readers {
    graph: reference::read_graph,
    numbers: reference::read_numbers,
    subgraph: |text, g, out| reference::read_subgraph(text, g, out).map(|_| ()),
};

/// The separately written readers by the old rules.
pub const OLD_RULES: Readers = Readers {
    graph: |text, row, column, weight| read_graph_by(Rules::Old, text, row, column, weight),
    numbers: |text, count, what, out| read_numbers_by(Rules::Old, text, count, what, out),
    subgraph: |text, g, out| read_subgraph_by(Rules::Old, text, g, out).map(|_| ()),
};

/// The rows, columns and weights of edges.
type Edges = (Vec<u32>, Vec<u32>, Vec<i32>);

/// An answer and outputs.
type Answer<T, O> = (Result<T, Refusal>, O);

/// The answers and outputs of readers for a text.
#[derive(Clone, Debug, PartialEq, Eq)]
pub struct Readings {
    graph: Answer<Head, Edges>,
    /// As bounds and as prices, of each count.
    numbers: Vec<[Answer<(), Vec<i32>>; 2]>,
    /// Of each graph.
    subgraphs: Vec<Answer<(), Vec<u8>>>,
}

impl Readings {
    /// Reads a text as a graph, as bounds and as prices of these counts, and as a subgraph of these graphs.
    pub fn of(readers: &Readers, text: &[u8], counts: &[u32], graphs: &[Graph]) -> Readings {
        let (mut row, mut column, mut weight) = (vec![9; 1024], vec![9; 1024], vec![9; 1024]);
        let head = (readers.graph)(text, &mut row, &mut column, &mut weight);
        let numbers = counts.iter().map(|&count| {
            [What::Bounds, What::Prices].map(|what| {
                let mut out = vec![9; count as usize];
                ((readers.numbers)(text, count, what, &mut out), out)
            })
        });
        let subgraphs = graphs.iter().map(|g| {
            let mut out = vec![9; g.edges as usize];
            ((readers.subgraph)(text, g, &mut out), out)
        });
        Readings {
            graph: (head, (row, column, weight)),
            numbers: numbers.collect(),
            subgraphs: subgraphs.collect(),
        }
    }

    /// Whether one of the readings is a result.
    pub fn any_taken(&self) -> bool {
        self.graph.0.is_ok()
            || self.numbers.iter().flatten().any(|read| read.0.is_ok())
            || self.subgraphs.iter().any(|read| read.0.is_ok())
    }

    /// Whether the text is taken as prices, of which one is larger than this.
    pub fn has_price_above(&self, most: i32) -> bool {
        let prices = self.numbers.iter().map(|[_, prices]| prices);
        let mut taken = prices.filter(|read| read.0.is_ok());
        taken.any(|(_, prices)| prices.iter().any(|&price| price > most))
    }

    /// What reading as a sort of text shows, with the first count and the first graph.
    pub fn seen(&self, sort: Sort) -> Seen {
        match sort {
            Sort::Graph => Seen::of(&self.graph.0),
            Sort::Bounds => Seen::of(&self.numbers[0][0].0),
            Sort::Prices => Seen::of(&self.numbers[0][1].0),
            Sort::Subgraph => Seen::of(&self.subgraphs[0].0),
        }
    }
}
