//! Papers drawn from a seed, built with knowledge of the table that they run on.

mod amounts;
mod composer;
mod damage;
mod scenario;

#[cfg(test)]
mod tests;

pub use composer::write_paper;
pub use damage::Damage;
pub use scenario::Scenario;

use crate::random::Random;
use crate::twin::paper::Header;

pub struct GeneratedPaper {
    pub bytes: Vec<u8>,
    pub scenario: Scenario,
    /// The header before any damage.
    pub header: Header,
    pub calls: usize,
    pub longest_chain: u32,
    pub damages: Vec<Damage>,
}

/// The paper at `place` in the row of papers drawn by `seed`.
pub fn generate(seed: u64, place: u64) -> GeneratedPaper {
    let mut random = Random::for_part(seed, place);
    let scenario = Scenario::draw(&mut random);
    let composed = scenario.compose(&mut random);
    let mut bytes = write_paper(&composed.header, &composed.records);
    let damages = draw_damages(&mut bytes, &mut random);
    GeneratedPaper {
        bytes,
        scenario,
        header: composed.header,
        calls: composed.records.len(),
        longest_chain: composed.longest_chain,
        damages,
    }
}

/// Most papers stay sound; some get one damage, a few two or three.
fn draw_damages(bytes: &mut Vec<u8>, random: &mut Random) -> Vec<Damage> {
    let wanted = match random.below(20) {
        0..14 => 0,
        14..18 => 1,
        18 => 2,
        _ => random.length(2, 3),
    };
    let mut damages = Vec::new();
    while damages.len() < wanted {
        let damage = random.pick(&Damage::ALL);
        if damage.apply(bytes, random).is_some() {
            damages.push(damage);
        } else if bytes.len() < crate::twin::paper::BLOCK {
            break;
        }
    }
    damages
}
