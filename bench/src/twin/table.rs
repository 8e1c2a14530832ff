//! The flow table: real seats, and a breadth-first search for a free one.

use super::refusal::Refusal;
use super::rule::Rule;
use super::tally::{Kind, Tally};

pub const MOST_BUCKETS: u32 = 4096;
pub const MOST_ROWS: u32 = 8;

/// The checked numbers of a table: m, B and b.
#[derive(Clone, Copy, Debug, PartialEq, Eq)]
pub struct Shape {
    pub buckets: u32,
    pub most: u32,
    pub rows: u32,
}

impl Shape {
    pub fn check(buckets: u32, most: u32, rows: u32) -> Result<Shape, Refusal> {
        if !(2..=MOST_BUCKETS).contains(&buckets) {
            return Err(Refusal::Buckets);
        }
        if !(1..=MOST_ROWS).contains(&most) || !(1..=most).contains(&rows) {
            return Err(Refusal::Rows);
        }
        Ok(Shape { buckets, most, rows })
    }

    /// N: the fingerprints are the numbers below it.
    pub fn range(self) -> u64 {
        u64::from(self.buckets) * (u64::from(self.buckets) - 1)
    }
}

/// What widen and narrow return.
#[derive(Clone, Copy, Debug, PartialEq, Eq)]
pub struct Extent {
    pub rows: u32,
    pub held: u32,
}

/// The two buckets of a fingerprint.
#[derive(Clone, Copy, PartialEq, Eq)]
struct Places {
    quotient: usize,
    remainder: usize,
}

impl Places {
    /// How the fingerprint is written in its bucket Q, or else in its bucket R.
    fn label_in(self, bucket: usize) -> Label {
        if bucket == self.quotient { Label::new(self.remainder, true) } else { Label::new(self.quotient, false) }
    }
}

/// A carry and a flag in one number.
#[derive(Clone, Copy, PartialEq, Eq)]
struct Label(u16);

impl Label {
    fn new(carry: usize, flag: bool) -> Label {
        Label((carry as u16) << 1 | u16::from(flag))
    }

    /// The other bucket of the entry.
    fn carry(self) -> usize {
        usize::from(self.0 >> 1)
    }

    fn flag(self) -> bool {
        self.0 & 1 == 1
    }

    /// How the entry is written once it has moved from `bucket` to its other one.
    fn moved_from(self, bucket: usize) -> Label {
        Label::new(bucket, !self.flag())
    }

    fn places_in(self, bucket: usize) -> Places {
        if self.flag() {
            Places { quotient: bucket, remainder: self.carry() }
        } else {
            Places { quotient: self.carry(), remainder: bucket }
        }
    }
}

#[derive(Clone, Copy)]
struct Seat {
    octets: u64,
    packets: u32,
    label: Label,
}

impl Seat {
    const EMPTY: Seat = Seat { octets: 0, packets: 0, label: Label(0) };

    fn new(label: Label, tally: Tally) -> Seat {
        Seat { octets: tally.octets, packets: tally.packets, label }
    }

    fn tally(&self) -> Tally {
        Tally { packets: self.packets, octets: self.octets }
    }

    fn set_tally(&mut self, tally: Tally) {
        self.octets = tally.octets;
        self.packets = tally.packets;
    }
}

/// Where an entry sits.
#[derive(Clone, Copy)]
struct Spot {
    bucket: usize,
    seat: usize,
}

/// A bucket that the search has reached.
#[derive(Clone, Copy)]
struct Step {
    bucket: u16,
    /// The row, in the bucket of the step before, of the entry that leads here.
    row: u16,
    /// The place in the queue of the step before, or `START`.
    before: u32,
}

const START: u32 = u32::MAX;

/// The search's memory, kept from one search to the next.
struct Search {
    queue: Vec<Step>,
    /// For each bucket, the last search that saw it.
    seen_by: Vec<u32>,
    number: u32,
}

impl Search {
    fn new(buckets: usize) -> Search {
        Search { queue: Vec::with_capacity(buckets), seen_by: vec![0; buckets], number: 0 }
    }

    fn begin(&mut self, places: Places) {
        self.queue.clear();
        self.number += 1;
        self.reach(places.quotient, 0, START);
        self.reach(places.remainder, 0, START);
    }

    /// Whether `bucket` is reached for the first time in this search.
    fn reach(&mut self, bucket: usize, row: usize, before: u32) -> bool {
        let is_new = self.seen_by[bucket] != self.number;
        if is_new {
            self.seen_by[bucket] = self.number;
            self.queue.push(Step { bucket: bucket as u16, row: row as u16, before });
        }
        is_new
    }
}

pub struct Table {
    shape: Shape,
    rule: Rule,
    kind: Kind,
    range: u64,
    /// Bucket i has the seats from i × B on, and its filled ones come first.
    seats: Vec<Seat>,
    /// How many seats of each bucket are filled.
    filled: Vec<u8>,
    held: u32,
    search: Search,
    longest_chain: u32,
}

impl Table {
    pub fn open(shape: Shape, rule: Rule, kind: Kind) -> Table {
        let buckets = shape.buckets as usize;
        Table {
            shape,
            rule,
            kind,
            range: shape.range(),
            seats: vec![Seat::EMPTY; buckets * shape.most as usize],
            filled: vec![0; buckets],
            held: 0,
            search: Search::new(buckets),
            longest_chain: 0,
        }
    }

    pub fn post(&mut self, key: &[u8], amount: Tally) -> Result<Tally, Refusal> {
        if !self.kind.is_amount(amount) {
            return Err(Refusal::NoAmount);
        }
        let places = self.places(key);
        if let Some(spot) = self.find(places) {
            let seat = &mut self.seats[spot.seat];
            let joined = seat.tally().join(amount).ok_or(Refusal::PastCeiling)?;
            seat.set_tally(joined);
            return Ok(joined);
        }
        if !self.place_entry(places, amount, self.rows()) {
            return Err(Refusal::NoSeat);
        }
        self.held += 1;
        Ok(amount)
    }

    /// What remains, empty if the entry has left.
    pub fn reverse(&mut self, key: &[u8], amount: Tally) -> Result<Tally, Refusal> {
        if !self.kind.is_amount(amount) {
            return Err(Refusal::NoAmount);
        }
        let spot = self.find(self.places(key)).ok_or(Refusal::NotHeld)?;
        let seat = &mut self.seats[spot.seat];
        let remaining = seat.tally().take_back(amount).ok_or(Refusal::TooMuchTakenBack)?;
        if remaining.is_empty() {
            self.take_out(spot);
        } else {
            seat.set_tally(remaining);
        }
        Ok(remaining)
    }

    /// The tally that the entry had.
    pub fn erase(&mut self, key: &[u8]) -> Result<Tally, Refusal> {
        let spot = self.find(self.places(key)).ok_or(Refusal::NotHeld)?;
        let tally = self.seats[spot.seat].tally();
        self.take_out(spot);
        Ok(tally)
    }

    pub fn look_up(&self, key: &[u8]) -> Option<Tally> {
        let spot = self.find(self.places(key))?;
        Some(self.seats[spot.seat].tally())
    }

    pub fn widen(&mut self) -> Result<Extent, Refusal> {
        if self.shape.rows == self.shape.most {
            return Err(Refusal::RowsAtLimit);
        }
        self.shape.rows += 1;
        Ok(self.extent())
    }

    pub fn narrow(&mut self) -> Result<Extent, Refusal> {
        if self.shape.rows == 1 {
            return Err(Refusal::RowsAtLimit);
        }
        let below = self.rows() - 1;
        for bucket in 0..self.filled.len() {
            if usize::from(self.filled[bucket]) > below && !self.clear_row(bucket, below) {
                return Err(Refusal::CannotNarrow);
            }
        }
        self.shape.rows -= 1;
        Ok(self.extent())
    }

    pub fn extent(&self) -> Extent {
        Extent { rows: self.shape.rows, held: self.held }
    }

    /// Whether bucket Q or R of the key's fingerprint has a free seat.
    pub fn has_room(&self, key: &[u8]) -> bool {
        let places = self.places(key);
        self.free_seat(places.quotient, self.rows()).is_some()
            || self.free_seat(places.remainder, self.rows()).is_some()
    }

    /// The most entries that moved to make room for one.
    pub fn longest_chain(&self) -> u32 {
        self.longest_chain
    }

    fn rows(&self) -> usize {
        self.shape.rows as usize
    }

    fn first_seat(&self, bucket: usize) -> usize {
        bucket * self.shape.most as usize
    }

    fn places(&self, key: &[u8]) -> Places {
        let fingerprint = self.rule.fingerprint(key, self.range) as u32;
        Places {
            quotient: (fingerprint / self.shape.buckets) as usize,
            remainder: (fingerprint % self.shape.buckets) as usize,
        }
    }

    fn find(&self, places: Places) -> Option<Spot> {
        self.find_in(places.quotient, places).or_else(|| self.find_in(places.remainder, places))
    }

    fn find_in(&self, bucket: usize, places: Places) -> Option<Spot> {
        let label = places.label_in(bucket);
        let first = self.first_seat(bucket);
        let filled = &self.seats[first..first + usize::from(self.filled[bucket])];
        let row = filled.iter().position(|seat| seat.label == label)?;
        Some(Spot { bucket, seat: first + row })
    }

    /// Empties a seat; the last filled seat of its bucket moves up to it.
    fn take_out(&mut self, spot: Spot) {
        self.filled[spot.bucket] -= 1;
        let last = self.first_seat(spot.bucket) + usize::from(self.filled[spot.bucket]);
        self.seats[spot.seat] = self.seats[last];
        self.held -= 1;
    }

    fn free_seat(&self, bucket: usize, rows: usize) -> Option<usize> {
        let filled = usize::from(self.filled[bucket]);
        (filled < rows).then(|| self.first_seat(bucket) + filled)
    }

    /// Writes an entry into the first `rows` rows of one of its buckets; false if there is no
    /// seating with it.
    fn place_entry(&mut self, places: Places, tally: Tally, rows: usize) -> bool {
        let Some(spot) = self.take_free_seat(places, rows) else {
            return false;
        };
        self.seats[spot.seat] = Seat::new(places.label_in(spot.bucket), tally);
        true
    }

    fn take_free_seat(&mut self, places: Places, rows: usize) -> Option<Spot> {
        for bucket in [places.quotient, places.remainder] {
            if let Some(seat) = self.free_seat(bucket, rows) {
                self.filled[bucket] += 1;
                return Some(Spot { bucket, seat });
            }
        }
        let end = self.search_free_bucket(places, rows)?;
        Some(self.move_along(end))
    }

    /// Searches from the two full buckets of `places`; gives the step, in the queue, to a bucket
    /// that is not full.
    fn search_free_bucket(&mut self, places: Places, rows: usize) -> Option<Step> {
        self.search.begin(places);
        let mut at = 0;
        while let Some(&step) = self.search.queue.get(at) {
            let first = self.first_seat(usize::from(step.bucket));
            for row in 0..rows {
                let other = self.seats[first + row].label.carry();
                if self.search.reach(other, row, at as u32) && usize::from(self.filled[other]) < rows {
                    return self.search.queue.last().copied();
                }
            }
            at += 1;
        }
        None
    }

    /// Moves the entries on the way to `end`, from the free seat backwards; gives the seat that
    /// was left last.
    fn move_along(&mut self, end: Step) -> Spot {
        let end_bucket = usize::from(end.bucket);
        let mut free = self.first_seat(end_bucket) + usize::from(self.filled[end_bucket]);
        self.filled[end_bucket] += 1;
        let mut step = end;
        let mut moved = 0;
        while step.before != START {
            let before = self.search.queue[step.before as usize];
            let bucket = usize::from(before.bucket);
            let left = self.first_seat(bucket) + usize::from(step.row);
            let seat = self.seats[left];
            self.seats[free] = Seat { label: seat.label.moved_from(bucket), ..seat };
            free = left;
            step = before;
            moved += 1;
        }
        self.longest_chain = self.longest_chain.max(moved);
        Spot { bucket: usize::from(step.bucket), seat: free }
    }

    /// Places the entry in row `row` of `bucket`, its last filled one, in the rows below.
    fn clear_row(&mut self, bucket: usize, row: usize) -> bool {
        let seat = self.seats[self.first_seat(bucket) + row];
        let placed = self.place_entry(seat.label.places_in(bucket), seat.tally(), row);
        if placed {
            self.filled[bucket] -= 1;
        }
        placed
    }
}
