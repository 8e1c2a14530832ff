//! Ways to spoil a paper.

use crate::random::Random;
use crate::twin::paper::{
    BLOCK, Block, CHECK, COUNT, Call, Cause, FIRST_RECORD, Fault, Header, KEY, MOST_BLOCKS, PAPER_BUCKETS, PLACE,
    RECORD, RECORDS, Record, TAIL, record_bytes, record_bytes_mut, seal,
};
use crate::twin::rule::Rule;
use crate::twin::tally::{Kind, Tally};

#[derive(Clone, Copy, Debug, PartialEq, Eq)]
pub enum Damage {
    Emptied,
    TooManyBlocks,
    NotWholeBlocks,
    Truncated,
    CheckWrong,
    BytesUnderCheckChanged,
    TooFewBuckets,
    TooManyBuckets,
    NoRows,
    RowsAboveMost,
    NoMost,
    MostAboveEight,
    UnknownRule,
    UnknownKind,
    CountNone,
    CountTooLarge,
    CountShortBeforeLast,
    PlaceWrong,
    BucketsDiffer,
    RowsDiffer,
    MostDiffers,
    RuleDiffers,
    KindDiffers,
    UnknownCall,
    EraseWithPackets,
    EraseWithOctets,
    LookUpWithPackets,
    LookUpWithOctets,
    WidenWithFigures,
    WidenWithKey,
    NarrowWithFigures,
    NarrowWithKey,
    ReplicasWithOctets,
    PaddingFilled,
    LastCountLowered,
    TailFilled,
    BlocksSwapped,
    BlockDoubled,
    BlockDropped,
    BitFlippedAndSealed,
    BitsFlipped,
    BlockRandomAndSealed,
}

/// What a damage makes of a sound paper.
#[derive(Clone, Copy, Debug, PartialEq, Eq)]
pub enum Outcome {
    Faulty(Fault),
    /// The damage may leave the paper sound, or its fault is not foretold.
    Open,
}

impl Damage {
    pub const ALL: [Damage; 42] = [
        Damage::Emptied,
        Damage::TooManyBlocks,
        Damage::NotWholeBlocks,
        Damage::Truncated,
        Damage::CheckWrong,
        Damage::BytesUnderCheckChanged,
        Damage::TooFewBuckets,
        Damage::TooManyBuckets,
        Damage::NoRows,
        Damage::RowsAboveMost,
        Damage::NoMost,
        Damage::MostAboveEight,
        Damage::UnknownRule,
        Damage::UnknownKind,
        Damage::CountNone,
        Damage::CountTooLarge,
        Damage::CountShortBeforeLast,
        Damage::PlaceWrong,
        Damage::BucketsDiffer,
        Damage::RowsDiffer,
        Damage::MostDiffers,
        Damage::RuleDiffers,
        Damage::KindDiffers,
        Damage::UnknownCall,
        Damage::EraseWithPackets,
        Damage::EraseWithOctets,
        Damage::LookUpWithPackets,
        Damage::LookUpWithOctets,
        Damage::WidenWithFigures,
        Damage::WidenWithKey,
        Damage::NarrowWithFigures,
        Damage::NarrowWithKey,
        Damage::ReplicasWithOctets,
        Damage::PaddingFilled,
        Damage::LastCountLowered,
        Damage::TailFilled,
        Damage::BlocksSwapped,
        Damage::BlockDoubled,
        Damage::BlockDropped,
        Damage::BitFlippedAndSealed,
        Damage::BitsFlipped,
        Damage::BlockRandomAndSealed,
    ];

    /// Spoils the paper; nothing, and no change, where the damage does not fit the paper.
    pub fn apply(self, paper: &mut Vec<u8>, random: &mut Random) -> Option<Outcome> {
        match self {
            Damage::Emptied | Damage::TooManyBlocks | Damage::NotWholeBlocks | Damage::Truncated => {
                self.change_length(paper, random)
            }
            Damage::BlocksSwapped | Damage::BlockDoubled | Damage::BlockDropped => self.change_blocks(paper, random),
            Damage::BitsFlipped => flip_bits(paper, random),
            _ => self.change_a_block(paper, random),
        }
    }

    fn change_length(self, paper: &mut Vec<u8>, random: &mut Random) -> Option<Outcome> {
        let length = paper.len();
        match self {
            Damage::Emptied => paper.clear(),
            Damage::TooManyBlocks => lengthen(paper, random),
            Damage::NotWholeBlocks => change_to_broken_length(paper, random),
            _ => paper.truncate(random.index(length + 1)),
        }
        let blocks = paper.len() / BLOCK;
        let is_faulty = !paper.len().is_multiple_of(BLOCK) || !(1..=MOST_BLOCKS).contains(&blocks);
        Some(if is_faulty { faulty(Cause::Length, 0, 0) } else { Outcome::Open })
    }

    fn change_blocks(self, paper: &mut Vec<u8>, random: &mut Random) -> Option<Outcome> {
        let blocks = paper.len() / BLOCK;
        if blocks < 2 {
            return None;
        }
        let first = random.index(blocks);
        let second = random.index(blocks);
        match self {
            Damage::BlocksSwapped => swap_blocks(paper, first, second),
            Damage::BlockDoubled => {
                let doubled = paper[first * BLOCK..(first + 1) * BLOCK].to_vec();
                paper.splice(second * BLOCK..second * BLOCK, doubled);
            }
            _ => {
                paper.drain(first * BLOCK..(first + 1) * BLOCK);
            }
        }
        Some(Outcome::Open)
    }

    fn change_a_block(self, paper: &mut [u8], random: &mut Random) -> Option<Outcome> {
        let (blocks, _) = paper.as_chunks_mut::<BLOCK>();
        if blocks.is_empty() {
            return None;
        }
        let last = blocks.len() - 1;
        let place = self.draw_place(last, random)?;
        let block = &mut blocks[place];
        match self {
            Damage::CheckWrong => {
                flip_bit(&mut block[CHECK..], random);
                return Some(faulty(Cause::Check, place, 0));
            }
            Damage::BytesUnderCheckChanged => {
                flip_bit(&mut block[..CHECK], random);
                return Some(faulty(Cause::Check, place, 0));
            }
            _ => {}
        }
        let outcome = self.change_sealed(block, place, random)?;
        seal(block);
        Some(outcome)
    }

    fn draw_place(self, last: usize, random: &mut Random) -> Option<usize> {
        let (low, high) = match self {
            Damage::BucketsDiffer
            | Damage::RowsDiffer
            | Damage::MostDiffers
            | Damage::RuleDiffers
            | Damage::KindDiffers => (1, last),
            Damage::CountShortBeforeLast => (0, last.checked_sub(1)?),
            Damage::LastCountLowered | Damage::PaddingFilled => (last, last),
            _ => (0, last),
        };
        (low <= high).then(|| random.length(low, high))
    }

    /// Changes a block whose check is then written anew.
    fn change_sealed(self, block: &mut Block, place: usize, random: &mut Random) -> Option<Outcome> {
        match self {
            Damage::TailFilled => {
                block[random.length(TAIL, CHECK - 1)] = random.between(1, 255) as u8;
                Some(faulty(Cause::Record, place, 0))
            }
            Damage::PaddingFilled => fill_padding(block, place, random),
            Damage::LastCountLowered => lower_count(block, place, random),
            Damage::BitFlippedAndSealed => {
                flip_bit(&mut block[..CHECK], random);
                Some(Outcome::Open)
            }
            Damage::BlockRandomAndSealed => {
                random.fill(&mut block[FIRST_RECORD..CHECK]);
                Some(Outcome::Open)
            }
            _ if self.spoils_a_record() => self.spoil_record(block, place, random),
            _ => {
                self.spoil_header(block, random)?;
                Some(faulty(Cause::Header, place, 0))
            }
        }
    }

    fn spoil_header(self, block: &mut Block, random: &mut Random) -> Option<()> {
        let header = Header::read(block)?;
        let shape = header.shape;
        match self {
            Damage::TooFewBuckets => write_buckets(block, random.below(2)),
            Damage::TooManyBuckets => {
                let buckets = if random.chance(1, 2) { 257 } else { random.between(257, 65_535) };
                write_buckets(block, buckets);
            }
            Damage::NoRows => block[2] = 0,
            Damage::RowsAboveMost => block[2] = random.between(u64::from(shape.most) + 1, 255) as u8,
            Damage::NoMost => block[3] = 0,
            Damage::MostAboveEight => block[3] = random.between(9, 255) as u8,
            Damage::UnknownRule => block[4] = unknown_number(random),
            Damage::UnknownKind => block[5] = unknown_number(random),
            Damage::CountNone => block[COUNT] = 0,
            Damage::CountTooLarge => block[COUNT] = random.between(RECORDS as u64 + 1, 255) as u8,
            Damage::CountShortBeforeLast => block[COUNT] = random.between(0, RECORDS as u64 - 1) as u8,
            Damage::PlaceWrong => block[PLACE] = other_than(block[PLACE].into(), 0, 255, random)? as u8,
            Damage::BucketsDiffer => {
                let buckets = other_than(shape.buckets.into(), 2, PAPER_BUCKETS.into(), random)?;
                write_buckets(block, buckets);
            }
            Damage::RowsDiffer => block[2] = other_than(shape.rows.into(), 1, shape.most.into(), random)? as u8,
            Damage::MostDiffers => block[3] = other_than(shape.most.into(), shape.rows.into(), 8, random)? as u8,
            Damage::RuleDiffers => {
                let other = if header.rule == Rule::PlainNumber { Rule::Fnv1a } else { Rule::PlainNumber };
                block[4] = other.number();
            }
            Damage::KindDiffers => {
                let other = if header.kind == Kind::Replicas { Kind::Traffic } else { Kind::Replicas };
                block[5] = other.number();
            }
            _ => return None,
        }
        Some(())
    }

    fn spoils_a_record(self) -> bool {
        matches!(
            self,
            Damage::UnknownCall
                | Damage::EraseWithPackets
                | Damage::EraseWithOctets
                | Damage::LookUpWithPackets
                | Damage::LookUpWithOctets
                | Damage::WidenWithFigures
                | Damage::WidenWithKey
                | Damage::NarrowWithFigures
                | Damage::NarrowWithKey
                | Damage::ReplicasWithOctets
        )
    }

    fn spoil_record(self, block: &mut Block, place: usize, random: &mut Random) -> Option<Outcome> {
        let kind = Kind::from_number(block[5])?;
        let count = usize::from(block[COUNT]).clamp(1, RECORDS);
        let at = random.index(count);
        let bytes = &mut record_bytes_mut(block)[at];
        if self == Damage::UnknownCall {
            bytes[0] = if random.chance(1, 3) { 0 } else { random.between(7, 255) as u8 };
        } else {
            self.draw_unfit_record(kind, random)?.write(bytes);
        }
        Some(faulty(Cause::Record, place, at + 1))
    }

    fn draw_unfit_record(self, kind: Kind, random: &mut Random) -> Option<Record> {
        let mut key = [0; KEY];
        random.fill(&mut key);
        let no_key = [0; KEY];
        let mut part_of_key = no_key;
        part_of_key[random.index(KEY)] = random.between(1, 255) as u8;
        let packets = Tally { packets: draw_bit(random, 32) as u32, octets: 0 };
        let octets = Tally { packets: 0, octets: draw_bit(random, 64) };
        let either = if random.chance(1, 2) { packets } else { octets };
        let record = |call, key, figures| Some(Record { call, key, figures });
        match self {
            Damage::EraseWithPackets => record(Call::Erase, key, packets),
            Damage::EraseWithOctets => record(Call::Erase, key, octets),
            Damage::LookUpWithPackets => record(Call::LookUp, key, packets),
            Damage::LookUpWithOctets => record(Call::LookUp, key, octets),
            Damage::WidenWithFigures => record(Call::Widen, no_key, either),
            Damage::WidenWithKey => record(Call::Widen, part_of_key, Tally::EMPTY),
            Damage::NarrowWithFigures => record(Call::Narrow, no_key, either),
            Damage::NarrowWithKey => record(Call::Narrow, part_of_key, Tally::EMPTY),
            Damage::ReplicasWithOctets if kind == Kind::Replicas => {
                let call = random.pick(&[Call::Post, Call::Reverse]);
                record(call, key, Tally { packets: random.below(2) as u32, ..octets })
            }
            _ => None,
        }
    }
}

fn faulty(cause: Cause, block: usize, record: usize) -> Outcome {
    Outcome::Faulty(Fault { cause, block, record })
}

/// A number with one bit set, or with many.
fn draw_bit(random: &mut Random, bits: u64) -> u64 {
    let bit = 1 << random.below(bits);
    if random.chance(1, 2) { bit } else { bit | random.number() >> (64 - bits) }
}

fn unknown_number(random: &mut Random) -> u8 {
    if random.chance(1, 3) { 0 } else { random.between(3, 255) as u8 }
}

/// A number between the limits that is not `taken`, if there is one.
fn other_than(taken: u64, low: u64, high: u64, random: &mut Random) -> Option<u64> {
    if high <= low {
        return None;
    }
    let number = random.between(low, high - 1);
    Some(if number >= taken { number + 1 } else { number })
}

fn write_buckets(block: &mut Block, buckets: u64) {
    block[0..2].copy_from_slice(&(buckets as u16).to_le_bytes());
}

fn flip_bit(bytes: &mut [u8], random: &mut Random) {
    bytes[random.index(bytes.len())] ^= 1 << random.below(8);
}

fn flip_bits(paper: &mut [u8], random: &mut Random) -> Option<Outcome> {
    if paper.is_empty() {
        return None;
    }
    for _ in 0..random.length(1, 4) {
        flip_bit(paper, random);
    }
    Some(Outcome::Open)
}

fn lengthen(paper: &mut Vec<u8>, random: &mut Random) {
    let blocks = random.pick(&[MOST_BLOCKS + 1, MOST_BLOCKS + 2, 2 * MOST_BLOCKS, 300]);
    let block = match paper.first_chunk::<BLOCK>() {
        Some(first) => *first,
        None => [0; BLOCK],
    };
    while paper.len() < blocks * BLOCK {
        paper.extend_from_slice(&block);
    }
}

fn change_to_broken_length(paper: &mut Vec<u8>, random: &mut Random) {
    let excess = random.pick(&[1, 2, 26, 256, BLOCK - 1]);
    match random.below(3) {
        0 => paper.resize(paper.len() / BLOCK * BLOCK + excess, 0),
        1 => paper.resize(MOST_BLOCKS * BLOCK + excess, 0),
        _ => paper.truncate((paper.len() / BLOCK).saturating_sub(1) * BLOCK + excess),
    }
}

fn swap_blocks(paper: &mut [u8], first: usize, second: usize) {
    paper.as_chunks_mut::<BLOCK>().0.swap(first, second);
}

fn fill_padding(block: &mut Block, place: usize, random: &mut Random) -> Option<Outcome> {
    let count = usize::from(block[COUNT]);
    if count >= RECORDS {
        return None;
    }
    let at = random.length(count, RECORDS - 1);
    let bytes = &mut record_bytes_mut(block)[at];
    if random.chance(1, 3) {
        Record { call: Call::LookUp, key: [0; KEY], figures: Tally::EMPTY }.write(bytes);
    } else {
        bytes[random.index(RECORD)] = random.between(1, 255) as u8;
    }
    let first_filled = record_bytes(block)[count..].iter().position(|bytes| *bytes != [0; RECORD])?;
    Some(faulty(Cause::Record, place, count + first_filled + 1))
}

fn lower_count(block: &mut Block, place: usize, random: &mut Random) -> Option<Outcome> {
    let count = usize::from(block[COUNT]);
    if !(2..=RECORDS).contains(&count) {
        return None;
    }
    let lowered = random.length(1, count - 1);
    block[COUNT] = lowered as u8;
    Some(faulty(Cause::Record, place, lowered + 1))
}
