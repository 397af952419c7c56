//! A second engine, written from the rules page alone, and what is needed to
//! hold it against the Rattle engine.

pub mod engine;
pub mod lists;
pub mod plain;
pub mod plain_day;
pub mod random;
