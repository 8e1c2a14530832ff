//! Papers: their layout, and the check of a whole paper.

use super::rule::{Rule, fnv1a};
use super::table::Shape;
use super::tally::{Kind, Tally};

pub const BLOCK: usize = 512;
pub const MOST_BLOCKS: usize = 100;
pub const RECORD: usize = 26;
pub const RECORDS: usize = 19;
pub const MOST_CALLS: usize = MOST_BLOCKS * RECORDS;
pub const PAPER_BUCKETS: u32 = 256;

pub const COUNT: usize = 6;
pub const PLACE: usize = 7;
pub const FIRST_RECORD: usize = 8;
pub const TAIL: usize = FIRST_RECORD + RECORDS * RECORD;
pub const CHECK: usize = 504;

pub const KEY: usize = 13;
const KEY_START: usize = 1;
const PACKETS_START: usize = KEY_START + KEY;
const OCTETS_START: usize = PACKETS_START + 4;

pub type Block = [u8; BLOCK];
pub type Key = [u8; KEY];

#[derive(Clone, Copy, Debug, PartialEq, Eq)]
#[repr(u8)]
pub enum Cause {
    Length = 13,
    Check = 14,
    Header = 15,
    Record = 16,
}

/// The first fault of a paper.
#[derive(Clone, Copy, Debug, PartialEq, Eq)]
pub struct Fault {
    pub cause: Cause,
    pub block: usize,
    /// From 1 on, or 0 where no record is meant.
    pub record: usize,
}

impl Fault {
    pub fn number(self) -> u8 {
        self.cause as u8
    }
}

#[derive(Clone, Copy, Debug, PartialEq, Eq)]
#[repr(u8)]
pub enum Call {
    Post = 1,
    Reverse = 2,
    Erase = 3,
    LookUp = 4,
    Widen = 5,
    Narrow = 6,
}

impl Call {
    pub fn from_number(number: u8) -> Option<Call> {
        match number {
            1 => Some(Call::Post),
            2 => Some(Call::Reverse),
            3 => Some(Call::Erase),
            4 => Some(Call::LookUp),
            5 => Some(Call::Widen),
            6 => Some(Call::Narrow),
            _ => None,
        }
    }

    fn has_key(self) -> bool {
        !matches!(self, Call::Widen | Call::Narrow)
    }

    fn has_figures(self) -> bool {
        matches!(self, Call::Post | Call::Reverse)
    }
}

/// One call of a paper, with its key and its figures.
#[derive(Clone, Copy, Debug, PartialEq, Eq)]
pub struct Record {
    pub call: Call,
    pub key: Key,
    pub figures: Tally,
}

impl Record {
    /// Nothing if the record is unfit.
    pub fn read(bytes: &[u8; RECORD], kind: Kind) -> Option<Record> {
        let record = Record::read_fields(bytes)?;
        record.keeps_zeros(kind).then_some(record)
    }

    fn read_fields(bytes: &[u8; RECORD]) -> Option<Record> {
        Some(Record {
            call: Call::from_number(bytes[0])?,
            key: take(bytes, KEY_START),
            figures: Tally {
                packets: u32::from_le_bytes(take(bytes, PACKETS_START)),
                octets: u64::from_le_bytes(take(bytes, OCTETS_START)),
            },
        })
    }

    fn keeps_zeros(&self, kind: Kind) -> bool {
        (self.call.has_figures() || self.figures.is_empty())
            && (self.call.has_key() || self.key == [0; KEY])
            && (kind == Kind::Traffic || self.figures.octets == 0)
    }

    pub fn write(&self, bytes: &mut [u8; RECORD]) {
        bytes[0] = self.call as u8;
        bytes[KEY_START..PACKETS_START].copy_from_slice(&self.key);
        bytes[PACKETS_START..OCTETS_START].copy_from_slice(&self.figures.packets.to_le_bytes());
        bytes[OCTETS_START..].copy_from_slice(&self.figures.octets.to_le_bytes());
    }
}

fn take<const LENGTH: usize>(bytes: &[u8], start: usize) -> [u8; LENGTH] {
    bytes[start..start + LENGTH].try_into().expect("the slice has the array's length")
}

/// The part of a block's header that is the same in every block.
#[derive(Clone, Copy, Debug, PartialEq, Eq)]
pub struct Header {
    pub shape: Shape,
    pub rule: Rule,
    pub kind: Kind,
}

impl Header {
    /// Nothing if a field is outside its limits.
    pub fn read(block: &Block) -> Option<Header> {
        let buckets = u32::from(u16::from_le_bytes([block[0], block[1]]));
        let shape = Shape::check(buckets, u32::from(block[3]), u32::from(block[2])).ok()?;
        if shape.buckets > PAPER_BUCKETS {
            return None;
        }
        Some(Header { shape, rule: Rule::from_number(block[4])?, kind: Kind::from_number(block[5])? })
    }

    pub fn write(&self, block: &mut Block) {
        block[0..2].copy_from_slice(&(self.shape.buckets as u16).to_le_bytes());
        block[2] = self.shape.rows as u8;
        block[3] = self.shape.most as u8;
        block[4] = self.rule.number();
        block[5] = self.kind.number();
    }
}

/// Writes the check of a block.
pub fn seal(block: &mut Block) {
    let check = fnv1a(&block[..CHECK]).to_le_bytes();
    block[CHECK..].copy_from_slice(&check);
}

pub fn record_bytes(block: &Block) -> &[[u8; RECORD]] {
    block[FIRST_RECORD..TAIL].as_chunks().0
}

pub fn record_bytes_mut(block: &mut Block) -> &mut [[u8; RECORD]] {
    block[FIRST_RECORD..TAIL].as_chunks_mut().0
}

/// A paper without a fault.
pub struct Paper<'bytes> {
    header: Header,
    blocks: &'bytes [Block],
}

impl<'bytes> Paper<'bytes> {
    pub fn check(bytes: &'bytes [u8]) -> Result<Paper<'bytes>, Fault> {
        let (blocks, rest) = bytes.as_chunks::<BLOCK>();
        if !(1..=MOST_BLOCKS).contains(&blocks.len()) || !rest.is_empty() {
            return Err(Fault { cause: Cause::Length, block: 0, record: 0 });
        }
        let mut first_header = None;
        for place in 0..blocks.len() {
            let header = check_block(blocks, place)?;
            first_header.get_or_insert(header);
        }
        let header = first_header.expect("a paper has a first block");
        Ok(Paper { header, blocks })
    }

    pub fn header(&self) -> Header {
        self.header
    }

    pub fn records(&self) -> impl Iterator<Item = Record> + use<'bytes> {
        let kind = self.header.kind;
        self.blocks.iter().flat_map(move |block| {
            let records = &record_bytes(block)[..usize::from(block[COUNT])];
            records.iter().filter_map(move |bytes| Record::read(bytes, kind))
        })
    }
}

fn check_block(blocks: &[Block], place: usize) -> Result<Header, Fault> {
    let block = &blocks[place];
    let fault = |cause, record| Fault { cause, block: place, record };
    if fnv1a(&block[..CHECK]).to_le_bytes() != block[CHECK..] {
        return Err(fault(Cause::Check, 0));
    }
    let header = check_header(blocks, place).ok_or(fault(Cause::Header, 0))?;
    let (used, unused) = record_bytes(block).split_at(usize::from(block[COUNT]));
    if let Some(unfit) = used.iter().position(|bytes| Record::read(bytes, header.kind).is_none()) {
        return Err(fault(Cause::Record, unfit + 1));
    }
    if let Some(unfit) = unused.iter().position(|bytes| *bytes != [0; RECORD]) {
        return Err(fault(Cause::Record, used.len() + unfit + 1));
    }
    if block[TAIL..CHECK] != [0; CHECK - TAIL] {
        return Err(fault(Cause::Record, 0));
    }
    Ok(header)
}

fn check_header(blocks: &[Block], place: usize) -> Option<Header> {
    let block = &blocks[place];
    let header = Header::read(block)?;
    let count = usize::from(block[COUNT]);
    let is_last = place + 1 == blocks.len();
    let count_fits = if is_last { (1..=RECORDS).contains(&count) } else { count == RECORDS };
    let agrees = block[..COUNT] == blocks[0][..COUNT];
    let place_fits = usize::from(block[PLACE]) == place;
    (count_fits && agrees && place_fits).then_some(header)
}
