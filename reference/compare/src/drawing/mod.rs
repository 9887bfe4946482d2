//! What the comparisons are run on: graphs, texts and folders that are drawn, right and wrong, and the examples.

pub mod assignment_texts;
pub mod doublings;
pub mod examples;
pub mod folders;
pub mod forms;
pub mod graphs;
pub mod noise;
pub mod old_texts;
pub mod problems;
pub mod solved;
pub mod sorts;
pub mod texts;
