//! What the comparisons are made with: the proved calls linked, the programs run, what is lent to them, counting, timing and measuring the stack.

pub mod files;
pub mod guard;
#[path = "../../../../include/jangoripu.rs"]
pub mod layer;
pub mod lemon;
pub mod lending;
pub mod proved;
pub mod runs;
pub mod stack;
pub mod tally;
pub mod timing;
