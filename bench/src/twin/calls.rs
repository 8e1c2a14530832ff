//! Rows of calls: pieces of a code and a key of four bytes, on a fresh table of replicas.

use super::rule::Rule;
use super::table::{Shape, Table};
use super::tally::{Kind, Tally};

pub const PIECE: usize = 5;
pub const POST: u8 = 1;
pub const REVERSE: u8 = 2;
pub const ERASE: u8 = 3;
pub const LOOK_UP: u8 = 4;
pub const WIDEN: u8 = 5;
pub const NARROW: u8 = 6;

const ONE: Tally = Tally { packets: 1, octets: 0 };

/// Makes the calls, writes the refusal number of each, or 0, and gives how many were made; none
/// if the shape is refused.
pub fn make_calls(buckets: u32, most: u32, rows: u32, calls: &[u8], numbers: &mut [u8]) -> usize {
    let Ok(shape) = Shape::check(buckets, most, rows) else {
        return 0;
    };
    let mut table = Table::open(shape, Rule::PlainNumber, Kind::Replicas);
    let (pieces, _) = calls.as_chunks::<PIECE>();
    for (piece, number) in pieces.iter().zip(numbers.iter_mut()) {
        *number = make_call(&mut table, piece);
    }
    pieces.len().min(numbers.len())
}

pub fn make_call(table: &mut Table, piece: &[u8; PIECE]) -> u8 {
    let [code, key @ ..] = piece;
    let refusal = match *code {
        POST => table.post(key, ONE).err(),
        REVERSE => table.reverse(key, ONE).err(),
        ERASE => table.erase(key).err(),
        WIDEN => table.widen().err(),
        NARROW => table.narrow().err(),
        _ => {
            std::hint::black_box(table.look_up(key));
            None
        }
    };
    refusal.map_or(0, |refusal| refusal.number())
}
