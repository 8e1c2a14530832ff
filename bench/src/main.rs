mod compare;
mod compare_calls;
mod library;
mod progress;
mod saved;
mod speed;

use std::env;
use std::process::ExitCode;

use compare::Comparison;

const USAGE: &str = "usage: bench/run [compare [--papers N] [--seed S] | speed]";
const PAPERS: u64 = 100_000;
const SEED: u64 = 20_240_229;

enum Task {
    Compare(Comparison),
    Speed,
    Both,
}

fn main() -> ExitCode {
    let arguments: Vec<String> = env::args().skip(1).collect();
    let Some(task) = read_task(&arguments) else {
        eprintln!("{USAGE}");
        return ExitCode::from(2);
    };
    if run(&task) { ExitCode::SUCCESS } else { ExitCode::FAILURE }
}

fn run(task: &Task) -> bool {
    match task {
        Task::Compare(comparison) => compare::run(comparison),
        Task::Speed => {
            speed::run();
            true
        }
        Task::Both => run(&Task::Compare(Comparison { papers: PAPERS, seed: SEED })) && run(&Task::Speed),
    }
}

fn read_task(arguments: &[String]) -> Option<Task> {
    match arguments.split_first() {
        None => Some(Task::Both),
        Some((first, rest)) if first == "compare" => read_comparison(rest).map(Task::Compare),
        Some((first, [])) if first == "speed" => Some(Task::Speed),
        _ => None,
    }
}

fn read_comparison(arguments: &[String]) -> Option<Comparison> {
    let mut comparison = Comparison { papers: PAPERS, seed: SEED };
    let (pairs, rest) = arguments.as_chunks::<2>();
    for [name, value] in pairs {
        let number = value.parse().ok()?;
        match name.as_str() {
            "--papers" => comparison.papers = number,
            "--seed" => comparison.seed = number,
            _ => return None,
        }
    }
    rest.is_empty().then_some(comparison)
}
