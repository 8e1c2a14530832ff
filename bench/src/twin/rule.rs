/// A fingerprint rule.
#[derive(Clone, Copy, Debug, PartialEq, Eq)]
pub enum Rule {
    PlainNumber,
    Fnv1a,
}

impl Rule {
    pub const ALL: [Rule; 2] = [Rule::PlainNumber, Rule::Fnv1a];

    pub fn from_number(number: u8) -> Option<Rule> {
        match number {
            1 => Some(Rule::PlainNumber),
            2 => Some(Rule::Fnv1a),
            _ => None,
        }
    }

    pub fn number(self) -> u8 {
        match self {
            Rule::PlainNumber => 1,
            Rule::Fnv1a => 2,
        }
    }

    pub fn fingerprint(self, key: &[u8], range: u64) -> u64 {
        let number = match self {
            Rule::PlainNumber => plain_number(key),
            Rule::Fnv1a => fnv1a(key),
        };
        number % range
    }
}

fn plain_number(key: &[u8]) -> u64 {
    match key.first_chunk::<8>() {
        Some(first) => u64::from_le_bytes(*first),
        None => key.iter().rev().fold(0, |number, &byte| number << 8 | u64::from(byte)),
    }
}

const FNV_START: u64 = 14_695_981_039_346_656_037;
const FNV_FACTOR: u64 = 1_099_511_628_211;

pub fn fnv1a(bytes: &[u8]) -> u64 {
    bytes.iter().fold(FNV_START, |number, &byte| (number ^ u64::from(byte)).wrapping_mul(FNV_FACTOR))
}
