//! Holds the library's rows of calls against the twin's.

use sundrilga_bench::random::Random;
use sundrilga_bench::twin;
use sundrilga_bench::twin::calls::{ERASE, LOOK_UP, NARROW, PIECE, POST, REVERSE, WIDEN};

use crate::library;
use crate::progress::Progress;
use crate::saved::save;

const ROWS: u64 = 800;
const UNTOUCHED: u8 = 0xa5;

#[derive(Default)]
pub struct CallsSummary {
    pub rows: u64,
    pub refused_shapes: u64,
    pub wide: u64,
    pub calls: u64,
}

struct RowOfCalls {
    buckets: u32,
    most: u32,
    rows: u32,
    calls: Vec<u8>,
    places: usize,
}

pub fn compare_rows(seed: u64) -> Result<CallsSummary, String> {
    let mut summary = CallsSummary::default();
    let mut progress = Progress::new("rows of calls", ROWS);
    for place in 0..ROWS {
        let mut random = Random::for_part(!seed, place);
        let row = draw_row(&mut random);
        let made = compare_row(&row).map_err(|what| {
            let saved = save(&format!("difference_{seed}_{place}.calls"), &row.calls);
            format!("row {place}: {what}; its calls are {saved}")
        })?;
        summary.rows += 1;
        summary.calls += made as u64;
        summary.wide += u64::from(row.buckets > 256 && made > 0);
        summary.refused_shapes += u64::from(made == 0 && row.places > 0 && row.calls.len() >= PIECE);
        progress.show(place + 1, "");
    }
    progress.end(ROWS, "");
    Ok(summary)
}

fn compare_row(row: &RowOfCalls) -> Result<usize, String> {
    let mut by_twin = vec![UNTOUCHED; row.places];
    let mut by_library = by_twin.clone();
    let twin_made = twin::calls::make_calls(row.buckets, row.most, row.rows, &row.calls, &mut by_twin);
    let library_made = library::make_calls(row.buckets, row.most, row.rows, &row.calls, &mut by_library);
    let shape = format!("m = {}, B = {}, b = {}", row.buckets, row.most, row.rows);
    if twin_made != library_made {
        return Err(format!("{shape}: the twin made {twin_made} calls, the library {library_made}"));
    }
    match by_twin.iter().zip(&by_library).position(|(twin, library)| twin != library) {
        Some(at) => {
            let [twin, library] = [by_twin[at], by_library[at]];
            Err(format!("{shape}: call {at} gives {twin} by the twin, {library} by the library"))
        }
        None => Ok(twin_made),
    }
}

fn draw_row(random: &mut Random) -> RowOfCalls {
    let most = random.between(1, 8) as u32;
    let mut row = RowOfCalls {
        buckets: draw_buckets(random),
        most,
        rows: random.between(1, u64::from(most)) as u32,
        calls: Vec::new(),
        places: 0,
    };
    let length = draw_length(random, &row);
    draw_calls(random, &mut row, length);
    row.places = match random.below(8) {
        0 => random.length(0, length),
        1 => length + random.length(1, 20),
        _ => length,
    };
    if random.chance(1, 10) {
        refuse_shape(random, &mut row);
    }
    row
}

fn draw_buckets(random: &mut Random) -> u32 {
    let (low, high) = random.pick(&[(2, 8), (9, 256), (257, 600), (257, 4096), (4096, 4096)]);
    random.between(low, high) as u32
}

/// Often enough calls to fill the rows in use.
fn draw_length(random: &mut Random, row: &RowOfCalls) -> usize {
    let seats = (row.buckets * row.rows) as usize;
    match random.below(4) {
        0 => random.length(0, 100),
        1 => random.length(0, seats),
        _ => seats + random.length(0, seats / 2 + 50),
    }
}

fn draw_calls(random: &mut Random, row: &mut RowOfCalls, length: usize) {
    let range = u64::from(row.buckets) * (u64::from(row.buckets) - 1);
    // Narrow ranges make keys meet again, and crowd the low buckets.
    let keys = random.pick(&[range, range, range / 2 + 1, u64::from(u32::MAX)]);
    let posts = random.between(40, 95);
    let mut used: Vec<u32> = Vec::new();
    for _ in 0..length {
        let is_known = !used.is_empty() && random.chance(1, 4);
        let key = if is_known { random.pick(&used) } else { random.below(keys) as u32 };
        let code = draw_code(random, posts);
        used.push(key);
        row.calls.push(code);
        row.calls.extend_from_slice(&key.to_le_bytes());
    }
    let excess = random.index(PIECE);
    row.calls.extend_from_slice(&[POST; PIECE][..excess]);
}

fn draw_code(random: &mut Random, posts_percent: u64) -> u8 {
    if random.chance(posts_percent, 100) {
        return POST;
    }
    match random.below(12) {
        0..3 => REVERSE,
        3..6 => ERASE,
        6..8 => LOOK_UP,
        8 => WIDEN,
        9 => NARROW,
        10 => 0,
        _ => random.between(7, 255) as u8,
    }
}

fn refuse_shape(random: &mut Random, row: &mut RowOfCalls) {
    match random.below(6) {
        0 => row.buckets = random.below(2) as u32,
        1 => row.buckets = random.pick(&[4097, 5000, 65_536, u32::MAX]),
        2 => row.most = 0,
        3 => row.most = random.pick(&[9, 10, 256, u32::MAX]),
        4 => row.rows = 0,
        _ => row.rows = random.pick(&[row.most + 1, 9, u32::MAX]),
    }
}
