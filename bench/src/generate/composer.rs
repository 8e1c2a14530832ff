//! Writes calls one after another while a table follows them.

use crate::random::Random;
use crate::twin::lines::{Answer, make_call};
use crate::twin::paper::{
    BLOCK, Block, COUNT, Call, Header, KEY, Key, MOST_CALLS, PLACE, RECORDS, Record, record_bytes_mut, seal,
};
use crate::twin::rule::Rule;
use crate::twin::table::Table;
use crate::twin::tally::Tally;

const NO_KEY: Key = [0; KEY];

/// Trying keys for a wanted fingerprint takes about as many tries as the range is wide.
const WIDEST_RANGE_TO_TRY: u64 = 4_100;

pub struct Composed {
    pub header: Header,
    pub records: Vec<Record>,
    pub longest_chain: u32,
}

pub struct Composer<'random> {
    pub random: &'random mut Random,
    header: Header,
    table: Table,
    /// Keys that were seated; some may have left since.
    seated: Vec<Key>,
    records: Vec<Record>,
    wanted: usize,
}

impl<'random> Composer<'random> {
    pub fn new(random: &'random mut Random, header: Header, wanted: usize) -> Composer<'random> {
        let table = Table::open(header.shape, header.rule, header.kind);
        let wanted = wanted.clamp(1, MOST_CALLS);
        Composer { random, header, table, seated: Vec::new(), records: Vec::with_capacity(wanted), wanted }
    }

    pub fn finish(self) -> Composed {
        Composed { header: self.header, records: self.records, longest_chain: self.table.longest_chain() }
    }

    pub fn is_done(&self) -> bool {
        self.records.len() == self.wanted
    }

    pub fn header(&self) -> Header {
        self.header
    }

    pub fn buckets(&self) -> u64 {
        u64::from(self.header.shape.buckets)
    }

    pub fn held(&self) -> usize {
        self.table.extent().held as usize
    }

    pub fn rows(&self) -> usize {
        self.table.extent().rows as usize
    }

    pub fn seats_in_use(&self) -> usize {
        self.rows() * self.buckets() as usize
    }

    pub fn tally_of(&self, key: &Key) -> Tally {
        self.table.look_up(key).unwrap_or_default()
    }

    /// Gives the refusal number, or 0. Nothing happens once the paper is done.
    pub fn post(&mut self, key: Key, amount: Tally) -> u8 {
        let was_held = self.table.look_up(&key).is_some();
        let answer = self.call(Call::Post, key, amount);
        if answer.refusal == 0 && !was_held {
            self.seated.push(key);
        }
        answer.refusal
    }

    pub fn reverse(&mut self, key: Key, amount: Tally) -> u8 {
        self.call(Call::Reverse, key, amount).refusal
    }

    pub fn erase(&mut self, key: Key) -> u8 {
        self.call(Call::Erase, key, Tally::EMPTY).refusal
    }

    pub fn look_up(&mut self, key: Key) {
        self.call(Call::LookUp, key, Tally::EMPTY);
    }

    pub fn widen(&mut self) -> u8 {
        self.call(Call::Widen, NO_KEY, Tally::EMPTY).refusal
    }

    pub fn narrow(&mut self) -> u8 {
        self.call(Call::Narrow, NO_KEY, Tally::EMPTY).refusal
    }

    fn call(&mut self, call: Call, key: Key, figures: Tally) -> Answer {
        if self.is_done() {
            return Answer { refusal: 0, figures: [0, 0] };
        }
        let record = Record { call, key, figures };
        self.records.push(record);
        make_call(&mut self.table, &record)
    }

    pub fn random_key(&mut self) -> Key {
        let mut key = NO_KEY;
        self.random.fill(&mut key);
        key
    }

    /// A key that is held; a random one if none is.
    pub fn held_key(&mut self) -> Key {
        while !self.seated.is_empty() {
            let place = self.random.index(self.seated.len());
            let key = self.seated[place];
            if self.table.look_up(&key).is_some() {
                return key;
            }
            self.seated.swap_remove(place);
        }
        self.random_key()
    }

    /// A key that is likely not held.
    pub fn new_key(&mut self) -> Key {
        let tries = 8;
        let mut key = self.random_key();
        for _ in 0..tries {
            if self.table.look_up(&key).is_none() {
                break;
            }
            key = self.random_key();
        }
        key
    }

    /// A new key of which both buckets are full, if one is found in some tries.
    pub fn crowded_key(&mut self) -> Key {
        let tries = 12;
        let mut key = self.new_key();
        for _ in 0..tries {
            if !self.table.has_room(&key) && self.table.look_up(&key).is_none() {
                break;
            }
            key = self.new_key();
        }
        key
    }

    /// Whether `key_of` can give a key for each fingerprint.
    pub fn can_aim(header: &Header) -> bool {
        header.rule == Rule::PlainNumber || header.shape.range() <= WIDEST_RANGE_TO_TRY
    }

    /// A key of this fingerprint; any key where the rule cannot be aimed.
    pub fn key_of(&mut self, fingerprint: u64) -> Key {
        match self.header.rule {
            Rule::PlainNumber => self.plain_key_of(fingerprint),
            Rule::Fnv1a => self.tried_key_of(fingerprint),
        }
    }

    fn plain_key_of(&mut self, fingerprint: u64) -> Key {
        let range = self.header.shape.range();
        let most_rounds = (u64::MAX - fingerprint) / range;
        let rounds = if self.random.chance(1, 2) { 0 } else { self.random.between(0, most_rounds) };
        let mut key = self.random_key();
        key[..8].copy_from_slice(&(fingerprint + rounds * range).to_le_bytes());
        key
    }

    fn tried_key_of(&mut self, fingerprint: u64) -> Key {
        let range = self.header.shape.range();
        let mut key = self.random_key();
        if range > WIDEST_RANGE_TO_TRY {
            return key;
        }
        while self.header.rule.fingerprint(&key, range) != fingerprint {
            let number = self.random.number().to_le_bytes();
            key[KEY - 8..].copy_from_slice(&number);
        }
        key
    }

    /// A fingerprint whose quotient and remainder are the same bucket.
    pub fn single_bucket_fingerprint(&mut self) -> u64 {
        let buckets = self.buckets();
        self.random.below(buckets - 1) * (buckets + 1)
    }
}

/// The blocks of a paper with these calls.
pub fn write_paper(header: &Header, records: &[Record]) -> Vec<u8> {
    let mut paper = Vec::with_capacity(records.len().div_ceil(RECORDS) * BLOCK);
    for (place, chunk) in records.chunks(RECORDS).enumerate() {
        paper.extend_from_slice(&write_block(header, place, chunk));
    }
    paper
}

fn write_block(header: &Header, place: usize, records: &[Record]) -> Block {
    let mut block = [0; BLOCK];
    header.write(&mut block);
    block[COUNT] = records.len() as u8;
    block[PLACE] = place as u8;
    for (bytes, record) in record_bytes_mut(&mut block).iter_mut().zip(records) {
        record.write(bytes);
    }
    seal(&mut block);
    block
}
