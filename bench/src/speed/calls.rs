//! The cost of single calls, as the difference between a row of calls and the part of it that only
//! fills the table.

use std::collections::HashMap;
use std::hint::black_box;

use sundrilga_bench::twin;
use sundrilga_bench::twin::calls::{PIECE, POST};

use super::flows::{Choice, Flows, ROWS};
use super::measure::{Figure, mean, nanoseconds, repeat};
use crate::library;

/// Who makes the calls. The cost of each is found by its place here.
const SIDES: [Side; 3] = [Side::Library, Side::Twin, Side::Map];

#[derive(Clone, Copy)]
enum Side {
    Library,
    Twin,
    Map,
}

/// Nanoseconds a call.
struct Cost {
    library: f64,
    twin: f64,
    map: f64,
}

const REPETITIONS: usize = 101;

/// A window of new flows takes the load from so many percent below to the load itself.
const WINDOW_PERCENT: usize = 2;

const LONG_WINDOW: usize = 20_000;

/// A row of calls, of which the first `prefix` calls fill the table.
struct Measured {
    buckets: u32,
    calls: Vec<u8>,
    prefix: usize,
}

impl Measured {
    fn from_flows(flows: Flows, prefix: usize) -> Measured {
        Measured { buckets: flows.buckets, calls: flows.calls, prefix }
    }

    fn whole(&self) -> usize {
        self.calls.len() / PIECE
    }

    fn window(&self) -> usize {
        self.whole() - self.prefix
    }

    fn run(&self, side: Side, length: usize, numbers: &mut [u8]) {
        let calls = &self.calls[..length * PIECE];
        black_box(make_calls(side, self.buckets, calls, numbers));
    }
}

/// How many rows are drawn for one figure: the more, the shorter they are, for a processor
/// remembers the turns that a short row takes.
fn draws(buckets: u32) -> u64 {
    u64::from(8192 / buckets).clamp(5, 32)
}

/// The cost of a call behind the prefix. Each side runs the prefixes and the whole rows in series
/// of their own.
fn cost(rows: &[Measured]) -> Cost {
    let longest = rows.iter().map(Measured::whole).max().unwrap_or(0);
    let mut numbers = vec![0; longest];
    let times: [Vec<f64>; 2 * SIDES.len()] = repeat(Figure::Least, REPETITIONS, rows.len(), |series, case| {
        let row = &rows[case];
        let length = if series < SIDES.len() { row.prefix } else { row.whole() };
        numbers.fill(0);
        nanoseconds(|| row.run(SIDES[series % SIDES.len()], length, &mut numbers))
    });
    let (prefixes, wholes) = times.split_at(SIDES.len());
    let [library, twin, map] = SIDES.map(|side| {
        let costs: Vec<f64> = (0..rows.len())
            .map(|case| (wholes[side as usize][case] - prefixes[side as usize][case]) / rows[case].window() as f64)
            .collect();
        mean(&costs)
    });
    Cost { library, twin, map }
}

fn make_calls(side: Side, buckets: u32, calls: &[u8], numbers: &mut [u8]) -> usize {
    match side {
        Side::Library => library::make_calls(buckets, ROWS, ROWS, calls, numbers),
        Side::Twin => twin::calls::make_calls(buckets, ROWS, ROWS, calls, numbers),
        Side::Map => make_calls_on_map(buckets, calls, numbers),
    }
}

fn make_calls_on_map(buckets: u32, calls: &[u8], numbers: &mut [u8]) -> usize {
    let range = buckets * (buckets - 1);
    let mut map: HashMap<u32, u32> = HashMap::with_capacity((buckets * ROWS) as usize);
    let (pieces, _) = calls.as_chunks::<PIECE>();
    for (piece, number) in pieces.iter().zip(numbers.iter_mut()) {
        let [code, key @ ..] = *piece;
        let fingerprint = u32::from_le_bytes(key) % range;
        *number = match code {
            POST => post_on_map(&mut map, fingerprint),
            _ => {
                black_box(map.get(&fingerprint));
                0
            }
        };
    }
    pieces.len()
}

fn post_on_map(map: &mut HashMap<u32, u32>, fingerprint: u32) -> u8 {
    let tally = map.entry(fingerprint).or_insert(0);
    match tally.checked_add(1) {
        Some(joined) => {
            *tally = joined;
            0
        }
        None => 7,
    }
}

#[derive(Clone, Copy)]
enum Window {
    LookUpHeld,
    LookUpAbsent,
    PostHeld,
    PostNew,
}

impl Window {
    const ALL: [Window; 4] = [Window::LookUpHeld, Window::LookUpAbsent, Window::PostHeld, Window::PostNew];

    fn name(self) -> &'static str {
        match self {
            Window::LookUpHeld => "look up, held",
            Window::LookUpAbsent => "look up, not held",
            Window::PostHeld => "post of a held flow",
            Window::PostNew => "post of a new flow",
        }
    }

    fn draw(self, buckets: u32, percent: usize, seed: u64) -> Measured {
        if let Window::PostNew = self {
            return draw_new_flows(buckets, percent, Choice::Any, seed).measured;
        }
        let mut flows = Flows::new(buckets, seed);
        flows.fill(flows.seats() * percent / 100, Choice::Any);
        let prefix = flows.length();
        match self {
            Window::LookUpHeld => flows.look_up_held(LONG_WINDOW),
            Window::LookUpAbsent => flows.look_up_absent(LONG_WINDOW),
            _ => flows.post_held(LONG_WINDOW),
        }
        Measured::from_flows(flows, prefix)
    }
}

pub fn print_against_map() {
    println!("\n### Single calls against `HashMap<u32, u32>` by fingerprint, 8 rows\n");
    println!("Nanoseconds a call: the time of a row of calls less that of its first part, which fills the table,");
    println!(
        "by the calls behind; both times are the least of {REPETITIONS} repetitions, and the figure is the mean over several"
    );
    println!(
        "rows, 32 for 256 buckets, 8 for 1,024 and 5 for 4,096. New flows are those from {WINDOW_PERCENT} percent of the"
    );
    println!("seats below the load up to it.\n");
    println!("| m | load | call | library | twin | map | library / twin | library / map |");
    println!("|---|---|---|---|---|---|---|---|");
    for buckets in [256, 4096] {
        for percent in [50, 90] {
            for window in Window::ALL {
                let rows: Vec<Measured> = (0..draws(buckets)).map(|seed| window.draw(buckets, percent, seed)).collect();
                let cost = cost(&rows);
                println!(
                    "| {buckets} | {percent} % | {} | {:.1} | {:.1} | {:.1} | {:.2} | {:.2} |",
                    window.name(),
                    cost.library,
                    cost.twin,
                    cost.map,
                    cost.library / cost.twin,
                    cost.library / cost.map
                );
            }
        }
    }
}

struct NewFlows {
    measured: Measured,
    without_room: usize,
}

fn draw_new_flows(buckets: u32, percent: usize, choice: Choice, seed: u64) -> NewFlows {
    let mut flows = Flows::new(buckets, seed);
    let seats = flows.seats();
    flows.fill(seats * (percent - WINDOW_PERCENT) / 100, Choice::Any);
    let prefix = flows.length();
    let without_room = flows.fill(seats * percent / 100, choice);
    NewFlows { measured: Measured::from_flows(flows, prefix), without_room }
}

pub fn print_new_flows() {
    println!("\n### Post of a new flow by buckets and load, 8 rows\n");
    println!(
        "Nanoseconds a post, over the posts from {WINDOW_PERCENT} percent of the seats below the load up to it.\n"
    );
    println!("| m | load | without room in Q or R | library | twin | library / twin |");
    println!("|---|---|---|---|---|---|");
    for percent in [10, 50, 75, 90, 95, 98] {
        for buckets in [256, 1024, 4096] {
            print_new_flows_line(buckets, percent, Choice::Any);
        }
    }
}

pub fn print_new_flows_with_room() {
    println!("\n### Post of a new flow with room in Q or R, by buckets, 8 rows\n");
    println!("As above, but only flows with a free seat in bucket Q or R are posted behind the first part.\n");
    println!("| m | load | without room in Q or R | library | twin | library / twin |");
    println!("|---|---|---|---|---|---|");
    for percent in [50, 90, 98] {
        for buckets in [256, 1024, 4096] {
            print_new_flows_line(buckets, percent, Choice::WithRoom);
        }
    }
}

fn print_new_flows_line(buckets: u32, percent: usize, choice: Choice) {
    let mut without_room = 0;
    let mut rows = Vec::new();
    for seed in 0..draws(buckets) {
        let new_flows = draw_new_flows(buckets, percent, choice, seed);
        without_room += new_flows.without_room;
        rows.push(new_flows.measured);
    }
    let posts: usize = rows.iter().map(Measured::window).sum();
    let cost = cost(&rows);
    println!(
        "| {buckets} | {percent} % | {:.1} % | {:.1} | {:.1} | {:.2} |",
        100.0 * without_room as f64 / posts as f64,
        cost.library,
        cost.twin,
        cost.library / cost.twin
    );
}
