//! The comparisons of the built programs with the separately written program.

pub mod dimacs_runs;
pub mod noting;
pub mod old_situations;
pub mod plan_runs;
pub mod price_runs;
pub mod rewrites;
pub mod situations;
pub mod tidy_runs;
pub mod twice;
