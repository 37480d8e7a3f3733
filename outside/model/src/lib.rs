//! Document 01 and of document 02 written a second time, from their words alone, and a comparer of what both print.

pub mod compare;
pub mod edges;
pub mod history;
pub mod kernel;
pub mod layer;
pub mod make;
pub mod met;
pub mod number;
pub mod place;
pub mod plain;
pub mod program;
pub mod random;
pub mod table;
pub mod tape;
pub mod why;
