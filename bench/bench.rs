//! Compares the proved library with the plain Rust version in `plain.rs` and `runs.rs` and the C version in `sets.c` and
//! `setruns.c`: first that they answer the same, then their speed. `bench BOARDS RUNS` reads the test boards and the test runs
//! that the model made. `bench count KIND DEVICES PROGRAM ROUNDS` only makes calls, for `count` to have their instructions
//! counted.

mod boards;
mod calls;
mod clock;
mod compare;
mod plain;
mod proved;
mod runs;
mod sets;

use calls::{Files, KINDS, Kind, PROGRAMS, Program, SIZES, files, repeat};
use clock::processor_time;

/// Calls per second of processor time.
fn speed(program: Program, kind: Kind, files: &mut [Files], rounds: usize) -> f64 {
    let start = processor_time();
    repeat(program, kind, files, rounds);
    let taken = processor_time() - start;
    (rounds * files.len()) as f64 / taken.as_secs_f64()
}

fn median(mut values: Vec<f64>) -> f64 {
    values.sort_by(f64::total_cmp);
    values[values.len() / 2]
}

/// Times all three in turns, and prints the medians.
fn race(name: &str, kind: Kind, size: (usize, usize)) {
    let mut files = files(kind, size);
    let rounds = 20_000 / size.0;
    let mut speeds = [const { Vec::new() }; 3];
    for _ in 0..15 {
        for (found, (_, program)) in speeds.iter_mut().zip(PROGRAMS) {
            found.push(speed(program, kind, &mut files, rounds));
        }
    }
    let [proved, rust, c] = speeds.map(median);
    let ratios = format!("{:.2} | {:.2}", proved / rust, proved / c);
    println!("| {name} | {} | {} | {proved:.0} | {rust:.0} | {c:.0} | {ratios} |", size.0, size.1);
}

fn compare_and_race(boards: &str, runs: &str) {
    let boards = std::fs::read(boards).expect("the test boards");
    let runs = std::fs::read(runs).expect("the test runs");
    println!("the same answers for {} boards, good and damaged", compare::orders(&boards));
    let (ran, asked) = compare::runs(&runs);
    println!("the same answers for {ran} runs and {asked} what-ifs, good and damaged");
    println!("\nCalls per second of processor time, and the ratios of the speeds:\n");
    println!("| Call | Devices | Links | Proved | Rust | C | Proved / Rust | Proved / C |");
    println!("|---|---|---|---|---|---|---|---|");
    for (name, kind) in KINDS {
        for size in SIZES {
            race(name, kind, size);
        }
    }
}

fn named<T>(list: impl IntoIterator<Item = (&'static str, T)>, wanted: &str) -> T {
    let mut list = list.into_iter();
    let found = list.find(|(name, _)| *name == wanted);
    found.unwrap_or_else(|| panic!("no such thing: {wanted}")).1
}

fn only_call(kind: &str, devices: &str, program: &str, rounds: &str) {
    let (kind, program) = (named(KINDS, kind), named(PROGRAMS, program));
    let devices: usize = devices.parse().expect("a number of devices");
    let size = SIZES.into_iter().find(|size| size.0 == devices).expect("one of the sizes");
    repeat(program, kind, &mut files(kind, size), rounds.parse().expect("a number of rounds"));
}

fn main() {
    let arguments: Vec<String> = std::env::args().skip(1).collect();
    let words: Vec<&str> = arguments.iter().map(String::as_str).collect();
    match words[..] {
        [boards, runs] => compare_and_race(boards, runs),
        ["count", kind, devices, program, rounds] => only_call(kind, devices, program, rounds),
        _ => panic!("usage: bench BOARDS RUNS, or bench count KIND DEVICES PROGRAM ROUNDS"),
    }
}
