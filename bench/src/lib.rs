//! An independent twin of the Sundrilga flow table, written from `docs/TABLE.md` and
//! `docs/PAPER.md` alone, with a naive oracle and a generator of papers.

pub mod generate;
pub mod oracle;
pub mod random;
pub mod twin;
