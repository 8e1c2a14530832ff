use std::collections::BTreeSet;

use super::damage::Outcome;
use super::{Damage, generate};
use crate::oracle;
use crate::random::Random;
use crate::twin::lines::{LINES, print_paper};
use crate::twin::paper::Paper;

const SEED: u64 = 2;

fn printed(paper: &[u8]) -> Vec<u8> {
    let mut out = vec![0; LINES];
    let length = print_paper(paper, &mut out);
    out.truncate(length);
    out
}

#[test]
fn papers_without_damage_are_sound() {
    for place in 0..2000 {
        let paper = generate(SEED, place);
        if paper.damages.is_empty() {
            assert!(Paper::check(&paper.bytes).is_ok(), "paper {place}");
        }
    }
}

#[test]
fn the_twin_agrees_with_the_oracle() {
    for place in 0..3000 {
        let paper = generate(SEED, place);
        if paper.calls * paper.header.shape.buckets as usize <= 20_000 || place % 100 == 0 {
            assert!(printed(&paper.bytes) == oracle::print_paper(&paper.bytes), "paper {place}, {:?}", paper.scenario);
        }
    }
}

#[test]
fn each_damage_gives_the_fault_it_foretells() {
    let mut random = Random::new(3);
    let mut foretold = BTreeSet::new();
    for place in 0..4000 {
        let paper = generate(SEED, place);
        if !paper.damages.is_empty() {
            continue;
        }
        for (number, damage) in Damage::ALL.into_iter().enumerate() {
            let mut bytes = paper.bytes.clone();
            let Some(Outcome::Faulty(fault)) = damage.apply(&mut bytes, &mut random) else {
                continue;
            };
            assert_eq!(Paper::check(&bytes).err(), Some(fault), "paper {place}, {damage:?}");
            foretold.insert(number);
        }
    }
    let not_foretold: Vec<Damage> = Damage::ALL
        .into_iter()
        .enumerate()
        .filter(|(number, _)| !foretold.contains(number))
        .map(|(_, damage)| damage)
        .collect();
    assert_eq!(
        not_foretold,
        [
            Damage::BlocksSwapped,
            Damage::BlockDoubled,
            Damage::BlockDropped,
            Damage::BitFlippedAndSealed,
            Damage::BitsFlipped,
            Damage::BlockRandomAndSealed
        ]
    );
}

#[test]
fn chains_get_long() {
    let longest = (0..3000).map(|place| generate(SEED, place).longest_chain).max();
    assert!(longest >= Some(200), "{longest:?}");
}
