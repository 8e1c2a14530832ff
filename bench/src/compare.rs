//! Holds the library against the twin, and the twin against the oracle.

use sundrilga_bench::generate::{Damage, GeneratedPaper, Scenario, generate};
use sundrilga_bench::oracle;
use sundrilga_bench::random::Random;
use sundrilga_bench::twin;
use sundrilga_bench::twin::lines::LINES;

use crate::compare_calls::{CallsSummary, compare_rows};
use crate::library;
use crate::progress::Progress;
use crate::saved::save;

pub struct Comparison {
    pub papers: u64,
    pub seed: u64,
}

/// The refusals and faults that a comparison must have seen.
const EXPECTED_NUMBERS: [usize; 12] = [0, 6, 7, 8, 9, 10, 11, 12, 13, 14, 15, 16];
const NUMBERS: usize = 17;

/// The oracle takes small papers often, and large ones, which take it long, seldom.
const ORACLE_EVERY_SMALL: u64 = 5;
const ORACLE_EVERY_LARGE: u64 = 400;
const SMALL_WORK: usize = 20_000;

const SHORT_BUFFER_EVERY: u64 = 50;

struct Counts {
    numbers: [u64; NUMBERS],
    scenarios: [u64; Scenario::ALL.len()],
    damages: [u64; Damage::ALL.len()],
    sound: u64,
    calls: u64,
    by_oracle: u64,
    short_buffers: u64,
    longest_chain: u32,
    most_blocks: usize,
}

impl Counts {
    fn new() -> Counts {
        Counts {
            numbers: [0; NUMBERS],
            scenarios: [0; Scenario::ALL.len()],
            damages: [0; Damage::ALL.len()],
            sound: 0,
            calls: 0,
            by_oracle: 0,
            short_buffers: 0,
            longest_chain: 0,
            most_blocks: 0,
        }
    }

    fn add(&mut self, paper: &GeneratedPaper, lines: &[u8]) {
        self.scenarios[paper.scenario as usize] += 1;
        for &damage in &paper.damages {
            self.damages[damage as usize] += 1;
        }
        self.longest_chain = self.longest_chain.max(paper.longest_chain);
        if lines.starts_with(b"F") {
            self.add_number(lines);
            return;
        }
        self.sound += 1;
        self.most_blocks = self.most_blocks.max(paper.bytes.len() / twin::paper::BLOCK);
        for line in lines.split(|&byte| byte == b'\n').filter(|line| !line.is_empty()) {
            self.calls += 1;
            self.add_number(line);
        }
    }

    /// Both kinds of line have the number of the refusal or of the fault second.
    fn add_number(&mut self, line: &[u8]) {
        let second = line.split(|&byte| byte == b' ').nth(1).unwrap_or_default();
        let number = second.iter().fold(0, |number, digit| 10 * number + usize::from(digit - b'0'));
        self.numbers[number] += 1;
    }

    fn missing(&self) -> Vec<usize> {
        EXPECTED_NUMBERS.into_iter().filter(|&number| self.numbers[number] == 0).collect()
    }
}

/// Two answers to one paper that are not the same.
struct Difference {
    what: String,
    paper: Vec<u8>,
    place: u64,
}

/// Whether all comparisons agreed and every number occurred.
pub fn run(comparison: &Comparison) -> bool {
    println!("comparison: {} papers by seed {}", comparison.papers, comparison.seed);
    let counts = match compare_papers(comparison) {
        Ok(counts) => counts,
        Err(difference) => {
            report_difference(comparison.seed, &difference);
            return false;
        }
    };
    let rows = match compare_rows(comparison.seed) {
        Ok(rows) => rows,
        Err(what) => {
            println!("DIFFERENCE in rows of calls: {what}");
            return false;
        }
    };
    print_summary(&counts, &rows);
    let missing = counts.missing();
    if !missing.is_empty() {
        println!("FAILED: these numbers never occurred: {missing:?}");
    }
    missing.is_empty()
}

fn compare_papers(comparison: &Comparison) -> Result<Counts, Box<Difference>> {
    let mut counts = Counts::new();
    let mut buffers = Buffers::new();
    let mut progress = Progress::new("papers", comparison.papers);
    for place in 0..comparison.papers {
        let paper = generate(comparison.seed, place);
        compare_paper(place, &paper, &mut buffers, &mut counts)
            .map_err(|what| Box::new(Difference { what, paper: paper.bytes, place }))?;
        progress.show(place + 1, &progress_note(&counts));
    }
    progress.end(comparison.papers, &progress_note(&counts));
    Ok(counts)
}

fn progress_note(counts: &Counts) -> String {
    format!(", {} calls, {} papers by the oracle too", counts.calls, counts.by_oracle)
}

/// The outputs of both sides, and what the buffers hold before.
struct Buffers {
    pattern: Vec<u8>,
    twin: Vec<u8>,
    library: Vec<u8>,
}

/// How much longer than need be a buffer may be.
const MOST_EXCESS: usize = 300;

impl Buffers {
    fn new() -> Buffers {
        let mut pattern = vec![0; LINES + MOST_EXCESS];
        Random::new(0).fill(&mut pattern);
        Buffers { twin: pattern.clone(), library: pattern.clone(), pattern }
    }
}

fn compare_paper(place: u64, paper: &GeneratedPaper, buffers: &mut Buffers, counts: &mut Counts) -> Result<(), String> {
    let printed = twin::lines::print_paper(&paper.bytes, &mut buffers.twin);
    let excess = if place.is_multiple_of(2) { 0 } else { place as usize % MOST_EXCESS };
    compare_with_library(&paper.bytes, buffers, printed, LINES + excess)?;
    let lines = &buffers.twin[..printed];
    if is_for_oracle(place, paper) {
        counts.by_oracle += 1;
        let by_oracle = oracle::print_paper(&paper.bytes);
        if lines != by_oracle {
            return Err(describe(["twin", "oracle"], lines, &by_oracle));
        }
    }
    counts.add(paper, lines);
    if place.is_multiple_of(SHORT_BUFFER_EVERY) {
        counts.short_buffers += 1;
        let shorter = Random::for_part(1, place).length(1, LINES);
        let too_short = LINES - if place.is_multiple_of(2 * SHORT_BUFFER_EVERY) { 1 } else { shorter };
        compare_short_buffer(&paper.bytes, buffers, too_short)?;
    }
    Ok(())
}

fn is_for_oracle(place: u64, paper: &GeneratedPaper) -> bool {
    let work = paper.calls * paper.header.shape.buckets as usize;
    place.is_multiple_of(if work <= SMALL_WORK { ORACLE_EVERY_SMALL } else { ORACLE_EVERY_LARGE })
}

fn compare_with_library(paper: &[u8], buffers: &mut Buffers, printed: usize, length: usize) -> Result<(), String> {
    let Buffers { pattern, twin, library } = buffers;
    library.copy_from_slice(pattern);
    let by_library = library::print_paper(paper, &mut library[..length]);
    if by_library > length {
        return Err(format!("the library says it printed {by_library} bytes into {length}"));
    }
    if twin[..printed] != library[..by_library] {
        return Err(describe(["twin", "library"], &twin[..printed], &library[..by_library]));
    }
    if library[by_library..] != pattern[by_library..] {
        return Err("the library changed bytes behind the printed ones".to_string());
    }
    Ok(())
}

fn compare_short_buffer(paper: &[u8], buffers: &mut Buffers, length: usize) -> Result<(), String> {
    let Buffers { pattern, library, .. } = buffers;
    library.copy_from_slice(pattern);
    let printed = library::print_paper(paper, &mut library[..length]);
    if printed != 0 || library != pattern {
        return Err(format!("the library printed {printed} bytes, or changed some, in a buffer of {length}"));
    }
    Ok(())
}

fn describe(names: [&str; 2], first: &[u8], second: &[u8]) -> String {
    let [first_text, second_text] = [first, second].map(String::from_utf8_lossy);
    let mut seconds = second_text.lines();
    for line in first_text.lines() {
        let other = seconds.next().unwrap_or("(no line)");
        if line != other {
            return format!("first differing line\n  {}: {line}\n  {}: {other}", names[0], names[1]);
        }
    }
    let other = seconds.next().unwrap_or("(no line)");
    format!("first differing line\n  {}: (no line)\n  {}: {other}", names[0], names[1])
}

fn report_difference(seed: u64, difference: &Difference) {
    println!("DIFFERENCE at paper {} of seed {seed}: {}", difference.place, difference.what);
    println!("{}", save(&format!("difference_{seed}_{}.paper", difference.place), &difference.paper));
}

fn print_summary(counts: &Counts, rows: &CallsSummary) {
    let papers: u64 = counts.scenarios.iter().sum();
    println!("papers compared, with no difference: {papers}, of them {} sound, {} calls", counts.sound, counts.calls);
    println!("most blocks in a sound paper: {}; longest chain of moves: {}", counts.most_blocks, counts.longest_chain);
    println!("papers that the oracle ran too, with no difference: {}", counts.by_oracle);
    println!("buffers too short, refused and untouched: {}", counts.short_buffers);
    println!(
        "rows of calls compared, with no difference: {}, of them {} with a refused shape, {} with more than 256 buckets; {} calls",
        rows.rows, rows.refused_shapes, rows.wide, rows.calls
    );
    println!();
    println!("| refusal or fault | times |\n|---|---|");
    for number in EXPECTED_NUMBERS {
        println!("| {number} | {} |", counts.numbers[number]);
    }
    println!("\n| scenario | papers |\n|---|---|");
    for scenario in Scenario::ALL {
        println!("| {scenario:?} | {} |", counts.scenarios[scenario as usize]);
    }
    println!("\n| damage | times |\n|---|---|");
    for damage in Damage::ALL {
        println!("| {damage:?} | {} |", counts.damages[damage as usize]);
    }
}
