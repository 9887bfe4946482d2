//! The comparisons of the proved calls with the separately written program, and the stack that the calls take.

pub mod assignments;
pub mod indexes;
pub mod measures;
pub mod prices;
pub mod readers;
pub mod readings;
pub mod solves;
pub mod spellings;
pub mod stacks;
pub mod tidies;
