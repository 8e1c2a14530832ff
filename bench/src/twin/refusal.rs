/// Why a call, or the opening of a table, is turned away.
///
/// Refusals 3, 4 and 5 have no place here: the twin owns its seats and work words, and neither
/// papers nor rows of calls can hold a key of more than 64 bytes.
#[derive(Clone, Copy, Debug, PartialEq, Eq)]
#[repr(u8)]
pub enum Refusal {
    Buckets = 1,
    Rows = 2,
    NoAmount = 6,
    PastCeiling = 7,
    NoSeat = 8,
    NotHeld = 9,
    TooMuchTakenBack = 10,
    RowsAtLimit = 11,
    CannotNarrow = 12,
}

impl Refusal {
    pub fn number(self) -> u8 {
        self as u8
    }
}
