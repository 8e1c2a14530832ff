//! Rows of calls that fill a table to a wanted load.

use sundrilga_bench::random::Random;
use sundrilga_bench::twin::calls::{LOOK_UP, POST, make_call};
use sundrilga_bench::twin::rule::Rule;
use sundrilga_bench::twin::table::{Shape, Table};
use sundrilga_bench::twin::tally::Kind;

pub const ROWS: u32 = 8;

/// A row of calls, and the table and flows that it leads to.
pub struct Flows {
    pub buckets: u32,
    pub calls: Vec<u8>,
    random: Random,
    table: Table,
    held: Vec<u32>,
}

/// Which new flows are posted.
#[derive(Clone, Copy, PartialEq, Eq)]
pub enum Choice {
    Any,
    /// Bucket Q or R has a free seat.
    WithRoom,
}

impl Flows {
    pub fn new(buckets: u32, seed: u64) -> Flows {
        let shape = Shape { buckets, most: ROWS, rows: ROWS };
        Flows {
            buckets,
            calls: Vec::new(),
            random: Random::for_part(seed, u64::from(buckets)),
            table: Table::open(shape, Rule::PlainNumber, Kind::Replicas),
            held: Vec::new(),
        }
    }

    pub fn seats(&self) -> usize {
        (self.buckets * ROWS) as usize
    }

    pub fn length(&self) -> usize {
        self.calls.len() / sundrilga_bench::twin::calls::PIECE
    }

    /// Posts new flows, all of which find a seat, until `held` are held; gives how many of them
    /// had no room in bucket Q or R.
    pub fn fill(&mut self, held: usize, choice: Choice) -> usize {
        let mut without_room = 0;
        while self.held.len() < held {
            let key = self.absent_key();
            let has_room = self.table.has_room(&key.to_le_bytes());
            if choice == Choice::WithRoom && !has_room {
                continue;
            }
            if make_call(&mut self.table, &piece(POST, key)) == 0 {
                self.calls.extend_from_slice(&piece(POST, key));
                self.held.push(key);
                without_room += usize::from(!has_room);
            }
        }
        without_room
    }

    pub fn look_up_held(&mut self, times: usize) {
        self.repeat(times, |flows| piece(LOOK_UP, flows.random.pick(&flows.held)));
    }

    pub fn look_up_absent(&mut self, times: usize) {
        self.repeat(times, |flows| piece(LOOK_UP, flows.absent_key()));
    }

    pub fn post_held(&mut self, times: usize) {
        self.repeat(times, |flows| piece(POST, flows.random.pick(&flows.held)));
    }

    fn repeat(&mut self, times: usize, mut draw: impl FnMut(&mut Flows) -> [u8; 5]) {
        for _ in 0..times {
            let piece = draw(self);
            self.calls.extend_from_slice(&piece);
        }
    }

    fn absent_key(&mut self) -> u32 {
        loop {
            let key = self.random.number() as u32;
            if self.table.look_up(&key.to_le_bytes()).is_none() {
                return key;
            }
        }
    }
}

fn piece(code: u8, key: u32) -> [u8; 5] {
    let [first, second, third, fourth] = key.to_le_bytes();
    [code, first, second, third, fourth]
}
