//! What the tests of the library and of the programs share.

pub mod abc;
pub mod areas;
pub mod batch;
pub mod bench;
pub mod compare;
pub mod inputs;
pub mod listing;
pub mod nets;
pub mod pieces;
pub mod programs;
pub mod tally;
