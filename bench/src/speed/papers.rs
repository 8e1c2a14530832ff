//! Papers of 1,900 calls at 256 buckets.

use sundrilga_bench::generate::write_paper;
use sundrilga_bench::random::Random;
use sundrilga_bench::twin;
use sundrilga_bench::twin::lines::LINES;
use sundrilga_bench::twin::paper::{Call, Header, KEY, Key, MOST_CALLS, Record};
use sundrilga_bench::twin::rule::Rule;
use sundrilga_bench::twin::table::{Shape, Table};
use sundrilga_bench::twin::tally::{Kind, Tally};

use super::measure::{Figure, mean, nanoseconds, repeat};
use crate::library;

const REPETITIONS: usize = 51;
const PAPERS_PER_LOAD: u64 = 20;
const BUCKETS: u32 = 256;
const MOST: u32 = 8;

struct Load {
    percent: usize,
    rows: u32,
}

const LOADS: [Load; 3] = [Load { percent: 50, rows: 8 }, Load { percent: 90, rows: 8 }, Load { percent: 98, rows: 7 }];

const SETTINGS: [(Rule, Kind); 2] = [(Rule::PlainNumber, Kind::Replicas), (Rule::Fnv1a, Kind::Traffic)];

pub fn print_papers() {
    println!("\n### Papers of 1,900 calls, 256 buckets, B = 8\n");
    println!("Each paper posts new flows up to the share of the seats in use, then mixes look ups, posts and");
    println!("reversals at that load. A paper has too few calls for 98 % of 8 rows, so b is 7 there.");
    println!(
        "Each figure is the mean over {PAPERS_PER_LOAD} papers, run in turn, of the median of {REPETITIONS} repetitions.\n"
    );
    println!(
        "| load | b | rule, kind | library, ns a paper | twin, ns a paper | library, ns a call | twin, ns a call | library / twin |"
    );
    println!("|---|---|---|---|---|---|---|---|");
    for (rule, kind) in SETTINGS {
        for load in &LOADS {
            print_load(load, rule, kind);
        }
    }
}

fn print_load(load: &Load, rule: Rule, kind: Kind) {
    let shape = Shape { buckets: BUCKETS, most: MOST, rows: load.rows };
    let header = Header { shape, rule, kind };
    let papers: Vec<Vec<u8>> = (0..PAPERS_PER_LOAD).map(|seed| compose(header, load.percent, seed)).collect();
    let [library, twin] = measure(&papers);
    let calls = MOST_CALLS as f64;
    println!(
        "| {} % | {} | {rule:?}, {kind:?} | {library:.0} | {twin:.0} | {:.1} | {:.1} | {:.2} |",
        load.percent,
        load.rows,
        library / calls,
        twin / calls,
        library / twin
    );
}

/// Nanoseconds a paper, for the library and the twin.
fn measure(papers: &[Vec<u8>]) -> [f64; 2] {
    let mut out = vec![0; LINES];
    let medians: [Vec<f64>; 2] = repeat(Figure::Median, REPETITIONS, papers.len(), |side, case| {
        out.fill(0);
        let paper = &papers[case];
        nanoseconds(|| {
            let printed = match side {
                0 => library::print_paper(paper, &mut out),
                _ => twin::lines::print_paper(paper, &mut out),
            };
            std::hint::black_box(printed);
        })
    });
    medians.map(|by_paper| mean(&by_paper))
}

/// Composes a paper while a table follows it.
struct Composer {
    random: Random,
    kind: Kind,
    table: Table,
    held: Vec<Key>,
    records: Vec<Record>,
}

fn compose(header: Header, percent: usize, seed: u64) -> Vec<u8> {
    let mut composer = Composer {
        random: Random::for_part(seed, percent as u64),
        kind: header.kind,
        table: Table::open(header.shape, header.rule, header.kind),
        held: Vec::new(),
        records: Vec::new(),
    };
    let seats = (header.shape.buckets * header.shape.rows) as usize;
    while composer.held.len() < seats * percent / 100 {
        composer.post_new();
    }
    while composer.records.len() < MOST_CALLS {
        composer.mixed_step();
    }
    composer.records.truncate(MOST_CALLS);
    write_paper(&header, &composer.records)
}

impl Composer {
    fn amount(&mut self, packets: u32) -> Tally {
        let octets = match self.kind {
            Kind::Replicas => 0,
            Kind::Traffic => u64::from(packets) * 700,
        };
        Tally { packets, octets }
    }

    fn push(&mut self, call: Call, key: Key, figures: Tally) {
        self.records.push(Record { call, key, figures });
    }

    fn absent_key(&mut self) -> Key {
        loop {
            let mut key = [0; KEY];
            self.random.fill(&mut key);
            if self.table.look_up(&key).is_none() {
                return key;
            }
        }
    }

    /// Posts a new flow that finds a seat.
    fn post_new(&mut self) {
        let amount = self.amount(1000);
        loop {
            let key = self.absent_key();
            if self.table.post(&key, amount).is_ok() {
                self.held.push(key);
                self.push(Call::Post, key, amount);
                return;
            }
        }
    }

    fn mixed_step(&mut self) {
        let place = self.random.index(self.held.len());
        let key = self.held[place];
        let one = self.amount(1);
        match self.random.below(10) {
            0..2 => self.push(Call::LookUp, key, Tally::EMPTY),
            2..4 => {
                let absent = self.absent_key();
                self.push(Call::LookUp, absent, Tally::EMPTY);
            }
            4..6 => self.join_or_take_back(Call::Post, key, one),
            6..8 => self.join_or_take_back(Call::Reverse, key, one),
            _ => {
                let tally = self.table.look_up(&key).unwrap_or_default();
                self.join_or_take_back(Call::Reverse, key, tally);
                self.held.swap_remove(place);
                self.post_new();
            }
        }
    }

    fn join_or_take_back(&mut self, call: Call, key: Key, amount: Tally) {
        let outcome = match call {
            Call::Post => self.table.post(&key, amount),
            _ => self.table.reverse(&key, amount),
        };
        assert!(outcome.is_ok(), "a held flow takes a small amount");
        self.push(call, key, amount);
    }
}
