//! What a generated paper is about.

use super::amounts::Aim;
use super::composer::{Composed, Composer};
use crate::random::Random;
use crate::twin::paper::{Header, Key, MOST_CALLS, RECORDS};
use crate::twin::rule::Rule;
use crate::twin::table::Shape;
use crate::twin::tally::{Kind, Tally};

#[derive(Clone, Copy, Debug, PartialEq, Eq)]
pub enum Scenario {
    /// Few buckets and rows, so that seats are scarce.
    ScarceSeats,
    /// Buckets in a row, each leading to the next, so that one post moves many entries.
    LongChains,
    /// Many fingerprints with one bucket.
    SingleBuckets,
    /// Tallies near their ceilings.
    Ceilings,
    /// Narrowing, erasing and widening at the edge of what can be seated.
    Narrowing,
    /// Wide tables filled as far as they can be.
    NearlyFull,
    /// All calls on any table.
    Mixed,
    /// Random keys and figures, with no thought of the table.
    Thoughtless,
}

impl Scenario {
    pub const ALL: [Scenario; 8] = [
        Scenario::ScarceSeats,
        Scenario::LongChains,
        Scenario::SingleBuckets,
        Scenario::Ceilings,
        Scenario::Narrowing,
        Scenario::NearlyFull,
        Scenario::Mixed,
        Scenario::Thoughtless,
    ];

    pub fn draw(random: &mut Random) -> Scenario {
        match random.below(100) {
            0..35 => Scenario::ScarceSeats,
            35..42 => Scenario::LongChains,
            42..52 => Scenario::SingleBuckets,
            52..67 => Scenario::Ceilings,
            67..79 => Scenario::Narrowing,
            79..83 => Scenario::NearlyFull,
            83..97 => Scenario::Mixed,
            _ => Scenario::Thoughtless,
        }
    }

    pub fn compose(self, random: &mut Random) -> Composed {
        match self {
            Scenario::ScarceSeats => scarce_seats(random),
            Scenario::LongChains => long_chains(random),
            Scenario::SingleBuckets => single_buckets(random),
            Scenario::Ceilings => ceilings(random),
            Scenario::Narrowing => narrowing(random),
            Scenario::NearlyFull => nearly_full(random),
            Scenario::Mixed => mixed(random),
            Scenario::Thoughtless => thoughtless(random),
        }
    }
}

fn draw_shape(random: &mut Random, buckets: (u64, u64), most: (u64, u64)) -> Shape {
    let most = random.between(most.0, most.1) as u32;
    Shape {
        buckets: random.between(buckets.0, buckets.1) as u32,
        most,
        rows: random.between(1, u64::from(most)) as u32,
    }
}

fn draw_header(random: &mut Random, shape: Shape) -> Header {
    Header { shape, rule: random.pick(&Rule::ALL), kind: random.pick(&Kind::ALL) }
}

/// The header for a scenario that chooses fingerprints.
fn draw_aimed_header(random: &mut Random, shape: Shape) -> Header {
    let header = draw_header(random, shape);
    if Composer::can_aim(&header) { header } else { Header { rule: Rule::PlainNumber, ..header } }
}

/// How many calls; mostly few, with the ends of blocks and of papers more often than by chance.
fn draw_length(random: &mut Random) -> usize {
    match random.below(20) {
        0 => random.pick(&[1, RECORDS - 1, RECORDS, RECORDS + 1, 2 * RECORDS, 2 * RECORDS + 1]),
        1..8 => random.length(1, 2 * RECORDS),
        8..15 => random.length(1, 200),
        15..18 => random.length(1, 600),
        18 => random.length(1, MOST_CALLS),
        _ if random.chance(1, 6) => random.length(MOST_CALLS - RECORDS - 1, MOST_CALLS),
        _ => random.length(1, 60),
    }
}

fn small(composer: &mut Composer) -> Tally {
    Aim::Small.figures(composer.header().kind, Tally::EMPTY, composer.random)
}

fn post_new(composer: &mut Composer) -> u8 {
    let key = composer.new_key();
    let aim = Aim::draw_for_post(composer.random);
    let amount = aim.figures(composer.header().kind, Tally::EMPTY, composer.random);
    composer.post(key, amount)
}

fn post_held(composer: &mut Composer) {
    let key = composer.held_key();
    let aim = Aim::draw_for_post(composer.random);
    post_with(composer, key, aim);
}

fn post_with(composer: &mut Composer, key: Key, aim: Aim) {
    let held = composer.tally_of(&key);
    let amount = aim.figures(composer.header().kind, held, composer.random);
    composer.post(key, amount);
}

fn reverse_with(composer: &mut Composer, key: Key, aim: Aim) {
    let held = composer.tally_of(&key);
    let amount = aim.figures(composer.header().kind, held, composer.random);
    composer.reverse(key, amount);
}

fn reverse_held(composer: &mut Composer) {
    let key = composer.held_key();
    let aim = Aim::draw_for_reverse(composer.random);
    reverse_with(composer, key, aim);
}

fn erase_held(composer: &mut Composer) {
    let key = composer.held_key();
    composer.erase(key);
}

/// A call on a key that is likely not held.
fn touch_absent(composer: &mut Composer) {
    let key = composer.new_key();
    match composer.random.below(3) {
        0 => composer.look_up(key),
        1 => reverse_with(composer, key, Aim::Small),
        _ => {
            composer.erase(key);
        }
    }
}

fn any_step(composer: &mut Composer) {
    match composer.random.below(100) {
        0..45 => {
            post_new(composer);
        }
        45..57 => post_held(composer),
        57..69 => reverse_held(composer),
        69..77 => erase_held(composer),
        77..83 => {
            let key = composer.held_key();
            composer.look_up(key);
        }
        83..89 => touch_absent(composer),
        89..94 => {
            composer.widen();
        }
        _ => {
            composer.narrow();
        }
    }
}

fn scarce_seats(random: &mut Random) -> Composed {
    let shape = draw_shape(random, (2, 8), (1, 3));
    let header = draw_header(random, shape);
    let length = draw_length(random);
    let mut composer = Composer::new(random, header, length);
    while !composer.is_done() {
        if composer.random.chance(1, 5) {
            let key = composer.crowded_key();
            let amount = small(&mut composer);
            composer.post(key, amount);
        } else {
            any_step(&mut composer);
        }
    }
    composer.finish()
}

fn mixed(random: &mut Random) -> Composed {
    let widest = random.pick(&[8, 32, 100, 256]);
    let shape = draw_shape(random, (2, widest), (1, 8));
    let header = draw_header(random, shape);
    let length = draw_length(random);
    let mut composer = Composer::new(random, header, length);
    while !composer.is_done() {
        any_step(&mut composer);
    }
    composer.finish()
}

fn single_buckets(random: &mut Random) -> Composed {
    let widest = random.pick(&[4, 12, 60, 256]);
    let shape = draw_shape(random, (2, widest), (1, 4));
    let header = draw_aimed_header(random, shape);
    let length = draw_length(random);
    let mut composer = Composer::new(random, header, length);
    while !composer.is_done() {
        if composer.random.chance(1, 2) {
            let fingerprint = composer.single_bucket_fingerprint();
            touch_fingerprint(&mut composer, fingerprint);
        } else {
            any_step(&mut composer);
        }
    }
    composer.finish()
}

/// Mostly a post, else another call on a key of this fingerprint.
fn touch_fingerprint(composer: &mut Composer, fingerprint: u64) {
    let key = composer.key_of(fingerprint);
    match composer.random.below(8) {
        0 => {
            let aim = Aim::draw_for_reverse(composer.random);
            reverse_with(composer, key, aim);
        }
        1 => {
            composer.erase(key);
        }
        2 => composer.look_up(key),
        _ => {
            let aim = Aim::draw_for_post(composer.random);
            post_with(composer, key, aim);
        }
    }
}

fn ceilings(random: &mut Random) -> Composed {
    let shape = draw_shape(random, (2, 20), (1, 8));
    let header = draw_header(random, shape);
    let length = draw_length(random);
    let mut composer = Composer::new(random, header, length);
    let keys: Vec<Key> = (0..composer.random.length(1, 6)).map(|_| composer.random_key()).collect();
    while !composer.is_done() {
        let key = composer.random.pick(&keys);
        let aim = Aim::draw_for_ceilings(composer.random);
        match composer.random.below(10) {
            0..6 => post_with(&mut composer, key, aim),
            6..9 => reverse_with(&mut composer, key, aim),
            _ => any_step(&mut composer),
        }
    }
    composer.finish()
}

/// Fills up to a share of the seats in use with new flows.
fn fill(composer: &mut Composer, percent: usize) {
    let goal = composer.seats_in_use() * percent / 100;
    let mut tries = 2 * goal;
    while composer.held() < goal && tries > 0 && !composer.is_done() {
        post_new(composer);
        tries -= 1;
    }
}

fn narrowing(random: &mut Random) -> Composed {
    let widest = random.pick(&[4, 10, 30]);
    let shape = draw_shape(random, (2, widest), (2, 8));
    let header = draw_header(random, shape);
    let length = draw_length(random).max(40);
    let mut composer = Composer::new(random, header, length);
    while !composer.is_done() {
        for _ in 0..composer.random.length(0, 3) {
            composer.widen();
        }
        let rows = composer.rows();
        let percent = 100 * (rows - 1).max(1) / rows;
        let spread = composer.random.length(0, 15);
        fill(&mut composer, (percent + 5).saturating_sub(spread));
        narrow_and_erase(&mut composer);
    }
    composer.finish()
}

/// Narrows again and again; after a refusal, takes some entries out first.
fn narrow_and_erase(composer: &mut Composer) {
    for _ in 0..composer.random.length(1, 12) {
        if composer.narrow() != 0 {
            for _ in 0..composer.random.length(1, 3) {
                erase_held(composer);
            }
        } else if composer.random.chance(1, 2) {
            post_new(composer);
        }
    }
}

fn nearly_full(random: &mut Random) -> Composed {
    let shape = draw_shape(random, (30, 256), (1, 8));
    let header = draw_header(random, shape);
    let length = (shape.buckets * shape.rows) as usize + random.length(0, 400);
    let mut composer = Composer::new(random, header, length);
    let percent = composer.random.length(85, 100);
    fill(&mut composer, percent);
    while !composer.is_done() {
        match composer.random.below(10) {
            0..4 => {
                let key = composer.crowded_key();
                let amount = small(&mut composer);
                composer.post(key, amount);
            }
            4..6 => erase_held(&mut composer),
            _ => any_step(&mut composer),
        }
    }
    composer.finish()
}

fn thoughtless(random: &mut Random) -> Composed {
    let shape = draw_shape(random, (2, 256), (1, 8));
    let header = draw_header(random, shape);
    let length = draw_length(random);
    let mut composer = Composer::new(random, header, length);
    while !composer.is_done() {
        let key = composer.random_key();
        match composer.random.below(8) {
            0..3 => post_with(&mut composer, key, Aim::Any),
            3 => reverse_with(&mut composer, key, Aim::Any),
            4 => {
                composer.erase(key);
            }
            5 => composer.look_up(key),
            6 => {
                composer.widen();
            }
            _ => {
                composer.narrow();
            }
        }
    }
    composer.finish()
}

/// How many rows of a bucket `fill_chain` can fill.
const CHAIN_ROWS: u64 = 3;

fn long_chains(random: &mut Random) -> Composed {
    let widest = random.pick(&[40, 64, 256, 256]);
    let mut shape = draw_shape(random, (8, widest), (1, 8));
    shape.rows = random.between(1, CHAIN_ROWS.min(u64::from(shape.most))) as u32;
    let header = draw_aimed_header(random, shape);
    let length = (shape.buckets * shape.rows) as usize + random.length(10, 150);
    let mut composer = Composer::new(random, header, length);
    let chain = draw_chain(&mut composer);
    fill_chain(&mut composer, &chain);
    while !composer.is_done() {
        push_along(&mut composer, &chain);
    }
    composer.finish()
}

/// Most buckets in some order. The last bucket is no quotient, so it stays out.
fn draw_chain(composer: &mut Composer) -> Vec<u64> {
    let mut chain: Vec<u64> = (0..composer.buckets() - 1).collect();
    if composer.random.chance(2, 3) {
        composer.random.shuffle(&mut chain);
    }
    let spared = composer.random.length(0, 3);
    chain.truncate(chain.len() - spared);
    chain
}

/// Fills each bucket of the chain but the last with an entry that leads to the next bucket, then
/// one that leads nowhere, then one that leads back.
fn fill_chain(composer: &mut Composer, chain: &[u64]) {
    let rows = composer.rows();
    let buckets = composer.buckets();
    for (place, pair) in chain.windows(2).enumerate() {
        let [bucket, next] = [pair[0], pair[1]];
        let before = chain[place.saturating_sub(1)];
        for other in [next, bucket, before].into_iter().take(rows) {
            post_fingerprint(composer, bucket * buckets + other);
        }
    }
}

fn post_fingerprint(composer: &mut Composer, fingerprint: u64) {
    let key = composer.key_of(fingerprint);
    let amount = small(composer);
    composer.post(key, amount);
}

/// Asks for a seat at the start of the chain, or makes one free further on.
fn push_along(composer: &mut Composer, chain: &[u64]) {
    let buckets = composer.buckets();
    let start = chain[composer.random.index(3)];
    match composer.random.below(10) {
        0..3 => {
            let near = chain[composer.random.index(3)];
            post_fingerprint(composer, start * buckets + near);
        }
        3..5 => {
            let far = composer.random.pick(chain);
            post_fingerprint(composer, start * buckets + far);
        }
        5..7 => {
            let last = chain.len() - 1;
            let end = chain[last - composer.random.index(3)];
            let key = composer.key_of(end * buckets + end);
            composer.erase(key);
        }
        7..9 => erase_held(composer),
        _ => any_step(composer),
    }
}
