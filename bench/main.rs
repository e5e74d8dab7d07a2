//! Compares Survey with the explorer: a line for each table, and the ratio of their speeds.
//!
//! usage: bench TABLE K [TABLE K]..

mod explorer;

use std::hint::black_box;
use std::path::Path;
use std::process::exit;
use std::time::Instant;

const RUNS: u32 = 5;

extern "C" {
    /// `survey` of the static library `surveys_c`, whose first parameter takes no memory.
    fn survey(file: *const u8, file_length: usize, rounds: u32, b: u32, out: *mut u8, out_length: usize) -> u32;
}

fn main() {
    let args: Vec<String> = std::env::args().skip(1).collect();
    if args.is_empty() || args.len() % 2 != 0 {
        stop("usage: bench TABLE K [TABLE K]..");
    }
    println!(
        "{:<14} {:>2} {:>7} {:>9} {:>8} {:>8} {:>9} {:>12} {:>12} {:>6}",
        "table", "K", "threads", "leaves", "failed", "cut", "full", "explorer/s", "Survey/s", "ratio"
    );
    for pair in args.chunks_exact(2) {
        let path = &pair[0];
        let file = std::fs::read(path).unwrap_or_else(|error| stop(&format!("{path}: {error}")));
        let rounds = pair[1].parse().unwrap_or_else(|_| stop(&format!("{}: K is a number", pair[1])));
        let (counts, seconds) = best(|| explorer::explore(black_box(&file), black_box(rounds)));
        let (own, own_seconds) = best(|| survey_all(black_box(&file), black_box(rounds)));
        if own != [counts.failed, counts.cut, counts.full] {
            stop(&format!("{path}: Survey counts {own:?}, the explorer {counts:?}"));
        }
        let leaves = counts.visited as f64;
        println!(
            "{:<14} {:>2} {:>7} {:>9} {:>8} {:>8} {:>9} {:>12.0} {:>12.0} {:>6.2}",
            Path::new(path).file_stem().unwrap_or_default().to_string_lossy(),
            rounds,
            file[5],
            counts.visited,
            counts.failed,
            counts.cut,
            counts.full,
            leaves / seconds,
            leaves / own_seconds,
            seconds / own_seconds
        );
    }
}

/// Failed, cut and full of all schedules.
fn survey_all(file: &[u8], rounds: u32) -> [u64; 3] {
    let mut out = [0u8; 12];
    // The library reads `file` and writes `out` within the lengths that are passed.
    let answer = unsafe { survey(file.as_ptr(), file.len(), rounds, 16_777_216, out.as_mut_ptr(), out.len()) };
    if answer != 0 {
        stop(&format!("Survey answers {answer}"));
    }
    let total = |at: usize| u64::from(u32::from_be_bytes([out[at], out[at + 1], out[at + 2], out[at + 3]]));
    [total(0), total(4), total(8)]
}

/// What the work answers, and the seconds of its fastest run.
fn best<A>(mut work: impl FnMut() -> A) -> (A, f64) {
    let mut fastest = f64::INFINITY;
    let mut run = || {
        let start = Instant::now();
        let answer = black_box(work());
        fastest = fastest.min(start.elapsed().as_secs_f64());
        answer
    };
    for _ in 1..RUNS {
        run();
    }
    let answer = run();
    (answer, fastest)
}

fn stop(message: &str) -> ! {
    eprintln!("{message}");
    exit(2)
}
