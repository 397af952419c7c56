//! The plain engine: ordinary Rust, written from the rules page alone.

mod book;
mod price;
mod session;
mod settings;
#[cfg(test)]
mod tests;

pub use book::{Book, Order, Side};
pub use price::{Point, Rule};
pub use session::{Answer, Call, CalledPrice, Condition, Engine, Phase, Record, Session};
pub use settings::{Grid, Settings};
