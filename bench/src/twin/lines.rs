//! Running a paper, and printing its lines.

use super::paper::{Call, Fault, Paper, Record};
use super::refusal::Refusal;
use super::table::{Extent, Table};
use super::tally::Tally;

/// As many bytes hold the lines of every paper.
pub const LINES: usize = 68_400;

/// Runs a paper, prints its lines and gives how many bytes it printed; none if `out` has fewer
/// than `LINES`.
pub fn print_paper(bytes: &[u8], out: &mut [u8]) -> usize {
    if out.len() < LINES {
        return 0;
    }
    let mut lines = Lines::new(out);
    match Paper::check(bytes) {
        Ok(paper) => print_calls(&paper, &mut lines),
        Err(fault) => lines.print_fault(fault),
    }
    lines.length
}

fn print_calls(paper: &Paper, lines: &mut Lines) {
    let header = paper.header();
    let mut table = Table::open(header.shape, header.rule, header.kind);
    for (record, place) in paper.records().zip(1..) {
        let answer = make_call(&mut table, &record);
        lines.print_answer(place, answer);
    }
}

/// What a line tells of a call.
#[derive(Clone, Copy, Debug, PartialEq, Eq)]
pub struct Answer {
    pub refusal: u8,
    pub figures: [u64; 2],
}

impl Answer {
    pub fn of_tally(refusal: u8, tally: Tally) -> Answer {
        Answer { refusal, figures: [u64::from(tally.packets), tally.octets] }
    }

    pub fn of_extent(refusal: u8, extent: Extent) -> Answer {
        Answer { refusal, figures: [u64::from(extent.rows), u64::from(extent.held)] }
    }
}

pub fn make_call(table: &mut Table, record: &Record) -> Answer {
    let key = &record.key;
    match record.call {
        Call::Post => {
            let posted = table.post(key, record.figures);
            tally_answer(table, record, posted)
        }
        Call::Reverse => {
            let reversed = table.reverse(key, record.figures);
            tally_answer(table, record, reversed)
        }
        Call::Erase => {
            let erased = table.erase(key).map(|_| Tally::EMPTY);
            tally_answer(table, record, erased)
        }
        Call::LookUp => Answer::of_tally(0, table.look_up(key).unwrap_or(Tally::EMPTY)),
        Call::Widen => {
            let widened = table.widen();
            extent_answer(table, widened)
        }
        Call::Narrow => {
            let narrowed = table.narrow();
            extent_answer(table, narrowed)
        }
    }
}

/// `outcome` has the tally that is held after the call.
fn tally_answer(table: &Table, record: &Record, outcome: Result<Tally, Refusal>) -> Answer {
    match outcome {
        Ok(tally) => Answer::of_tally(0, tally),
        Err(refusal) => {
            let held = table.look_up(&record.key).unwrap_or(Tally::EMPTY);
            Answer::of_tally(refusal.number(), held)
        }
    }
}

fn extent_answer(table: &Table, outcome: Result<Extent, Refusal>) -> Answer {
    match outcome {
        Ok(extent) => Answer::of_extent(0, extent),
        Err(refusal) => Answer::of_extent(refusal.number(), table.extent()),
    }
}

/// Lines printed into a buffer.
pub struct Lines<'out> {
    out: &'out mut [u8],
    length: usize,
}

const MOST_DIGITS: usize = 20;

impl<'out> Lines<'out> {
    pub fn new(out: &'out mut [u8]) -> Lines<'out> {
        Lines { out, length: 0 }
    }

    pub fn length(&self) -> usize {
        self.length
    }

    pub fn print_answer(&mut self, place: u64, answer: Answer) {
        self.print_number(place, b' ');
        self.print_number(u64::from(answer.refusal), b' ');
        self.print_number(answer.figures[0], b' ');
        self.print_number(answer.figures[1], b'\n');
    }

    pub fn print_fault(&mut self, fault: Fault) {
        self.print_bytes(b"F ");
        self.print_number(u64::from(fault.number()), b' ');
        self.print_number(fault.block as u64, b' ');
        self.print_number(fault.record as u64, b'\n');
    }

    fn print_number(&mut self, number: u64, end: u8) {
        let mut digits = [0; MOST_DIGITS + 1];
        digits[MOST_DIGITS] = end;
        let mut first = MOST_DIGITS;
        let mut rest = number;
        loop {
            first -= 1;
            digits[first] = b'0' + (rest % 10) as u8;
            rest /= 10;
            if rest == 0 {
                break;
            }
        }
        self.print_bytes(&digits[first..]);
    }

    fn print_bytes(&mut self, bytes: &[u8]) {
        self.out[self.length..self.length + bytes.len()].copy_from_slice(bytes);
        self.length += bytes.len();
    }
}
