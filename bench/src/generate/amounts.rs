//! Amounts, and figures that are none, chosen by what is held.

use crate::random::Random;
use crate::twin::tally::{Kind, OCTETS_CEILING, Tally};

/// What a post or a reversal is meant to bring about.
#[derive(Clone, Copy)]
pub enum Aim {
    Small,
    NoAmount,
    /// As much as still joins, of one part or of both.
    ToCeiling,
    /// One more than still joins, of one part or of both.
    PastCeiling,
    /// All that is held.
    All,
    /// More than is held, of one part or of both.
    TooMuch,
    Any,
}

impl Aim {
    pub fn draw_for_post(random: &mut Random) -> Aim {
        match random.below(40) {
            0 => Aim::NoAmount,
            1 => Aim::ToCeiling,
            2 => Aim::PastCeiling,
            3 => Aim::Any,
            _ => Aim::Small,
        }
    }

    pub fn draw_for_reverse(random: &mut Random) -> Aim {
        match random.below(20) {
            0 => Aim::NoAmount,
            1..4 => Aim::TooMuch,
            4 => Aim::Any,
            5..12 => Aim::Small,
            _ => Aim::All,
        }
    }

    pub fn draw_for_ceilings(random: &mut Random) -> Aim {
        random.pick(&[
            Aim::Small,
            Aim::NoAmount,
            Aim::ToCeiling,
            Aim::ToCeiling,
            Aim::PastCeiling,
            Aim::PastCeiling,
            Aim::All,
            Aim::TooMuch,
            Aim::Any,
        ])
    }

    pub fn figures(self, kind: Kind, held: Tally, random: &mut Random) -> Tally {
        let figures = self.parts(held, random);
        match kind {
            Kind::Replicas => Tally { octets: 0, ..figures },
            Kind::Traffic => figures,
        }
    }

    fn parts(self, held: Tally, random: &mut Random) -> Tally {
        let packets_left = u32::MAX - held.packets;
        let octets_left = OCTETS_CEILING - held.octets;
        match self {
            Aim::Small => Tally { packets: random.between(1, 5) as u32, octets: random.below(2) * random.below(1_500) },
            Aim::NoAmount => draw_no_amount(random),
            Aim::ToCeiling => one_or_both(packets_left, octets_left, random),
            Aim::PastCeiling => {
                let past = Tally { packets: packets_left.saturating_add(1), octets: octets_left + 1 };
                mix(past, Tally { packets: packets_left.min(3), octets: octets_left.min(3) }, random)
            }
            Aim::All => held,
            Aim::TooMuch => {
                let more =
                    Tally { packets: held.packets.saturating_add(1), octets: (held.octets + 1).min(OCTETS_CEILING) };
                mix(more, held, random)
            }
            Aim::Any => draw_any(random),
        }
    }
}

fn draw_no_amount(random: &mut Random) -> Tally {
    let octets = match random.below(4) {
        0 => OCTETS_CEILING + 1,
        1 => u64::MAX,
        2 => random.between(OCTETS_CEILING + 1, u64::MAX),
        _ => return Tally::EMPTY,
    };
    // Replicas keep the packets alone, which must be none then.
    let packets = if random.chance(1, 2) { 0 } else { random.below(3) as u32 };
    Tally { packets, octets }
}

fn one_or_both(packets: u32, octets: u64, random: &mut Random) -> Tally {
    mix(Tally { packets, octets }, Tally { packets: packets.min(1), octets: 0 }, random)
}

/// Each part from `first` or `second`, at least one from `first`.
fn mix(first: Tally, second: Tally, random: &mut Random) -> Tally {
    match random.below(3) {
        0 => first,
        1 => Tally { packets: first.packets, octets: second.octets },
        _ => Tally { packets: second.packets, octets: first.octets },
    }
}

fn draw_any(random: &mut Random) -> Tally {
    let packets = match random.below(3) {
        0 => random.below(4) as u32,
        1 => u32::MAX - random.below(4) as u32,
        _ => random.number() as u32,
    };
    let octets = match random.below(4) {
        0 => random.below(4),
        1 => OCTETS_CEILING - random.below(4),
        2 => random.between(0, OCTETS_CEILING),
        _ => random.number(),
    };
    Tally { packets, octets }
}
