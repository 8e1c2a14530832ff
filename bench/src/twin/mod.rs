//! The table, the papers and their lines, in plain Rust.

pub mod calls;
pub mod lines;
pub mod paper;
pub mod refusal;
pub mod rule;
pub mod table;
pub mod tally;

#[cfg(test)]
mod tests;
