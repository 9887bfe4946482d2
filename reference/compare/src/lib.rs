//! The proved calls and the built programs beside the separately written program.

pub mod calls;
pub mod drawing;
pub mod harness;
pub mod programs;
