//! The separately written program of document 01, "The crossing sheet, its
//! plans and its prices", and of document 02's requests for an index, for one
//! way to write a number, for the tidy sheet, for prices in half points, for
//! DIMACS assignment files and for a price sheet of the tanks.
//!
//! It uses the field's words. Each definition says which word of the documents
//! it is.

#![forbid(unsafe_code)]
#![warn(missing_docs)]

pub mod assignment;
pub mod brute;
pub mod graph;
pub mod index;
pub mod measure;
pub mod price;
pub mod programs;
pub mod random;
pub mod read;
pub mod refusal;
pub mod rewrite;
pub mod solve;
pub mod text;
pub mod tidy;
pub mod write;

pub use assignment::{read_assignment, write_assignment};
pub use brute::{feasible_subgraphs, largest_weight, FeasibleSubgraphs};
pub use graph::{half_points, Graph, Head, Kind, OwnedGraph};
pub use index::{build_index, index_length, test_index};
pub use measure::{measure, Measures};
pub use price::{doubled, price_general};
pub use programs::{from_dimacs_output, mark_output, price_tanks_output, solve_output};
pub use programs::{tidy_output, to_dimacs_output, Files};
pub use random::{random_graph, Random};
pub use read::{read_graph, read_graph_by, read_numbers, read_numbers_by};
pub use read::{read_subgraph, read_subgraph_by, What};
pub use refusal::Refusal;
pub use rewrite::{own_graph, rewrite};
pub use solve::solve;
pub use text::Rules;
pub use tidy::tidy_graph;
pub use write::{number_text, write_subgraph};
