//! Fuzzing on demand: `cargo run --release --bin fuzz SEED MINUTES` runs the cases of a seed, of all calls, until the
//! minutes are over.
//!
//! A difference stops it and names the case. At the end it prints how often each refusal was met.

use std::io::{stderr, IsTerminal};
use std::time::{Duration, Instant};

use mazhoketh_tests::cases::{self, Seen};
use mazhoketh_tests::progress::Progress;

/// The cases between two looks at the clock.
const ROUND: u64 = 10_000;

/// The most minutes: a year.
const MOST: f64 = 60.0 * 24.0 * 365.0;

/// Runs a seed's cases for so long.
fn fuzz(seed: u64, minutes: f64) {
    let start = Instant::now();
    let length = Duration::from_secs_f64(60.0 * minutes);
    let mut progress = Progress::new(stderr().is_terminal());
    let mut seen = Seen::default();
    let mut cases = 0;
    while start.elapsed() < length {
        seen.add(&cases::each(seed, cases..cases + ROUND, cases::any));
        cases += ROUND;
        let passed = start.elapsed().as_secs_f64() / 60.0;
        progress.tell(|| format!("{cases} cases, {passed:.1} of {minutes} minutes"));
    }
    drop(progress);
    print!("{cases} cases of seed {seed}\n{seen}");
}

/// The seed, 0 to 4,294,967,295, and the minutes, if the arguments are these.
fn numbers(arguments: &[String]) -> Option<(u64, f64)> {
    let [seed, minutes] = arguments else {
        return None;
    };
    let (seed, minutes): (u32, f64) = (seed.parse().ok()?, minutes.parse().ok()?);
    (minutes > 0.0 && minutes <= MOST).then_some((seed.into(), minutes))
}

fn main() {
    let arguments: Vec<String> = std::env::args().skip(1).collect();
    let Some((seed, minutes)) = numbers(&arguments) else {
        eprintln!("usage: fuzz SEED MINUTES (0 to 4294967295, and above 0 to {MOST})");
        std::process::exit(2);
    };
    fuzz(seed, minutes);
}
