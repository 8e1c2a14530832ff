/// How much of a flow was seen. Replicas are counted in `packets`, with no octets.
#[derive(Clone, Copy, Debug, Default, PartialEq, Eq)]
pub struct Tally {
    pub packets: u32,
    pub octets: u64,
}

pub const OCTETS_CEILING: u64 = 1_000_000_000_000_000;

impl Tally {
    pub const EMPTY: Tally = Tally { packets: 0, octets: 0 };

    pub fn is_empty(self) -> bool {
        self == Tally::EMPTY
    }

    /// Nothing where a part would pass its ceiling.
    pub fn join(self, amount: Tally) -> Option<Tally> {
        let packets = self.packets.checked_add(amount.packets)?;
        let octets = self.octets.checked_add(amount.octets)?;
        (octets <= OCTETS_CEILING).then_some(Tally { packets, octets })
    }

    /// Nothing where `amount` is more than is held of a part.
    pub fn take_back(self, amount: Tally) -> Option<Tally> {
        let packets = self.packets.checked_sub(amount.packets)?;
        let octets = self.octets.checked_sub(amount.octets)?;
        Some(Tally { packets, octets })
    }
}

/// A kind of tally.
#[derive(Clone, Copy, Debug, PartialEq, Eq)]
pub enum Kind {
    Replicas,
    Traffic,
}

impl Kind {
    pub const ALL: [Kind; 2] = [Kind::Replicas, Kind::Traffic];

    pub fn from_number(number: u8) -> Option<Kind> {
        match number {
            1 => Some(Kind::Replicas),
            2 => Some(Kind::Traffic),
            _ => None,
        }
    }

    pub fn number(self) -> u8 {
        match self {
            Kind::Replicas => 1,
            Kind::Traffic => 2,
        }
    }

    pub fn is_amount(self, tally: Tally) -> bool {
        match self {
            Kind::Replicas => tally.packets > 0 && tally.octets == 0,
            Kind::Traffic => !tally.is_empty() && tally.octets <= OCTETS_CEILING,
        }
    }
}
