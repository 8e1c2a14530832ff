//! A deliberately naive account of a table: a map of fingerprints, and for refusals 8 and 12 a
//! seating sought from nothing by augmenting paths. It knows no carries, flags or rows of seats.

use std::collections::{BTreeMap, BTreeSet};

use crate::twin::lines::{Answer, LINES, Lines};
use crate::twin::paper::{Call, Header, Key, Paper, Record};
use crate::twin::table::Extent;
use crate::twin::tally::Tally;

/// Whether the fingerprints can be seated with at most `rows` in each bucket.
pub fn has_seating(fingerprints: impl Iterator<Item = u64>, buckets: u64, rows: usize) -> bool {
    let mut seating = Seating { buckets, rows, seated: vec![Vec::new(); buckets as usize] };
    fingerprints.into_iter().all(|fingerprint| seating.seat(fingerprint, &mut BTreeSet::new()))
}

struct Seating {
    buckets: u64,
    rows: usize,
    seated: Vec<Vec<u64>>,
}

impl Seating {
    /// Seats the fingerprint in one of its buckets, moving others on; asks no bucket twice.
    fn seat(&mut self, fingerprint: u64, asked: &mut BTreeSet<u64>) -> bool {
        let choices = [fingerprint / self.buckets, fingerprint % self.buckets];
        choices.into_iter().any(|bucket| asked.insert(bucket) && self.seat_in(bucket as usize, fingerprint, asked))
    }

    fn seat_in(&mut self, bucket: usize, fingerprint: u64, asked: &mut BTreeSet<u64>) -> bool {
        if self.seated[bucket].len() < self.rows {
            self.seated[bucket].push(fingerprint);
            return true;
        }
        for row in 0..self.rows {
            let occupant = self.seated[bucket][row];
            if self.seat(occupant, asked) {
                self.seated[bucket][row] = fingerprint;
                return true;
            }
        }
        false
    }
}

pub struct Book {
    header: Header,
    rows: u32,
    held: BTreeMap<u64, Tally>,
}

impl Book {
    pub fn open(header: Header) -> Book {
        Book { header, rows: header.shape.rows, held: BTreeMap::new() }
    }

    pub fn make_call(&mut self, record: &Record) -> Answer {
        let refusal = match record.call {
            Call::Post => self.post(&record.key, record.figures),
            Call::Reverse => self.reverse(&record.key, record.figures),
            Call::Erase => self.erase(&record.key),
            Call::LookUp => 0,
            Call::Widen => self.widen(),
            Call::Narrow => self.narrow(),
        };
        match record.call {
            Call::Widen | Call::Narrow => {
                Answer::of_extent(refusal, Extent { rows: self.rows, held: self.held.len() as u32 })
            }
            _ => {
                let fingerprint = self.fingerprint(&record.key);
                Answer::of_tally(refusal, self.held.get(&fingerprint).copied().unwrap_or_default())
            }
        }
    }

    fn fingerprint(&self, key: &Key) -> u64 {
        self.header.rule.fingerprint(key, self.header.shape.range())
    }

    fn post(&mut self, key: &Key, amount: Tally) -> u8 {
        if !self.header.kind.is_amount(amount) {
            return 6;
        }
        let fingerprint = self.fingerprint(key);
        match self.held.get(&fingerprint) {
            Some(tally) => match tally.join(amount) {
                Some(joined) => {
                    self.held.insert(fingerprint, joined);
                    0
                }
                None => 7,
            },
            None => {
                let with_new = self.held.keys().copied().chain([fingerprint]);
                if !has_seating(with_new, self.buckets(), self.rows as usize) {
                    return 8;
                }
                self.held.insert(fingerprint, amount);
                0
            }
        }
    }

    fn reverse(&mut self, key: &Key, amount: Tally) -> u8 {
        if !self.header.kind.is_amount(amount) {
            return 6;
        }
        let fingerprint = self.fingerprint(key);
        let Some(tally) = self.held.get(&fingerprint) else {
            return 9;
        };
        let Some(remaining) = tally.take_back(amount) else {
            return 10;
        };
        if remaining.is_empty() {
            self.held.remove(&fingerprint);
        } else {
            self.held.insert(fingerprint, remaining);
        }
        0
    }

    fn erase(&mut self, key: &Key) -> u8 {
        match self.held.remove(&self.fingerprint(key)) {
            Some(_) => 0,
            None => 9,
        }
    }

    fn widen(&mut self) -> u8 {
        if self.rows == self.header.shape.most {
            return 11;
        }
        self.rows += 1;
        0
    }

    fn narrow(&mut self) -> u8 {
        if self.rows == 1 {
            return 11;
        }
        if !has_seating(self.held.keys().copied(), self.buckets(), self.rows as usize - 1) {
            return 12;
        }
        self.rows -= 1;
        0
    }

    fn buckets(&self) -> u64 {
        u64::from(self.header.shape.buckets)
    }
}

/// The lines of a paper, by the book. The check of the paper is the twin's.
pub fn print_paper(bytes: &[u8]) -> Vec<u8> {
    let mut out = vec![0; LINES];
    let mut lines = Lines::new(&mut out);
    match Paper::check(bytes) {
        Ok(paper) => {
            let mut book = Book::open(paper.header());
            for (record, place) in paper.records().zip(1..) {
                lines.print_answer(place, book.make_call(&record));
            }
        }
        Err(fault) => lines.print_fault(fault),
    }
    let length = lines.length();
    out.truncate(length);
    out
}

#[cfg(test)]
mod tests {
    use super::*;
    use crate::random::Random;

    /// Hall's condition: no set of buckets has more fingerprints that sit only there than seats.
    fn keeps_halls_condition(fingerprints: &BTreeSet<u64>, buckets: u64, rows: usize) -> bool {
        (0..1u64 << buckets).all(|set| {
            let within = |bucket: u64| set >> bucket & 1 == 1;
            let bound = fingerprints.iter().filter(|&&f| within(f / buckets) && within(f % buckets)).count();
            bound <= rows * set.count_ones() as usize
        })
    }

    #[test]
    fn augmenting_paths_agree_with_halls_condition() {
        let mut random = Random::new(1);
        let mut seatings = 0;
        for _ in 0..2000 {
            let buckets = random.between(2, 7);
            let rows = random.length(1, 3);
            let seats = rows * buckets as usize;
            let held = random.length(seats / 2, 2 * seats);
            let fingerprints: BTreeSet<u64> = (0..held).map(|_| random.below(buckets * (buckets - 1))).collect();
            let expected = keeps_halls_condition(&fingerprints, buckets, rows);
            assert_eq!(has_seating(fingerprints.iter().copied(), buckets, rows), expected);
            seatings += usize::from(expected);
        }
        assert!((200..1900).contains(&seatings), "both outcomes are frequent, {seatings} seatings");
    }
}
