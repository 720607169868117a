//! Random cases of each call, made to the library and to the other implementation and compared.

pub mod barrier;
pub mod control;
pub mod crews;
pub mod join;
pub mod matrix;
pub mod numbers;
pub mod plan;
pub mod plan_file;
pub mod prepared;
pub mod run;
pub mod survey;
pub mod upkeep;

use std::fmt::{self, Display, Formatter};
use std::ops::Range;
use std::panic::resume_unwind;
use std::thread::{self, Builder, ScopedJoinHandle};

use crate::both::MatrixTwins;
use crate::files;
use crate::guarded::{Twin, STACK};
use crate::lists::{bytes, refusal_number, REFUSALS};
use crate::oracle::matrix::Matrix;
use crate::oracle::prng::Prng;
use crate::progress::Progress;

/// How often each refusal's number was met; at 0, how many calls were accepted.
#[derive(Default)]
pub struct Seen([usize; REFUSALS + 1]);

impl Seen {
    /// Counts an answer word.
    pub fn note(&mut self, word: u64) {
        self.0[refusal_number(word)] += 1;
    }

    /// Adds what another has counted.
    pub fn add(&mut self, other: &Seen) {
        for (count, more) in self.0.iter_mut().zip(other.0) {
            *count += more;
        }
    }

    /// Panics unless each of these numbers was met at least so often.
    pub fn require(&self, numbers: impl IntoIterator<Item = usize>, least: usize) {
        for number in numbers {
            let count = self.0[number];
            assert!(count >= least, "refusal {number} was met {count} times");
        }
    }
}

impl Display for Seen {
    /// A line for each number.
    fn fmt(&self, out: &mut Formatter) -> fmt::Result {
        writeln!(out, "accepted: {}", self.0[0])?;
        for (number, count) in self.0.iter().enumerate().skip(1) {
            writeln!(out, "refusal {number}: {count}")?;
        }
        Ok(())
    }
}

/// Names the case at hand if it fails.
struct Case {
    seed: u64,
    number: u64,
}

impl Drop for Case {
    fn drop(&mut self) {
        if thread::panicking() {
            eprintln!("in case {} of seed {}", self.number, self.seed);
        }
    }
}

/// Runs a seed's cases with these numbers.
///
/// Each has a generator of its own, so that a seed's cases are the same on every machine.
pub fn each(seed: u64, numbers: Range<u64>, case: impl Fn(&mut Prng, &mut Seen) + Sync) -> Seen {
    numbered(seed, numbers, |_, rng, seen| case(rng, seen))
}

/// Runs a case for each matrix file: its text, and the matrix that it stands for.
pub fn each_file(seed: u64, case: impl Fn(&mut Prng, &[u8], &Matrix) + Sync) {
    let files = files::matrix_files();
    numbered(seed, 0..files.len() as u64, |number, rng, _| {
        let (text, matrix) = files::read(&files[number as usize]);
        case(rng, &text, &matrix);
    });
}

/// Runs numbered cases on all cores, on threads with room for the library's local arrays.
pub fn numbered(
    seed: u64,
    numbers: Range<u64>,
    case: impl Fn(u64, &mut Prng, &mut Seen) + Sync,
) -> Seen {
    let cores = thread::available_parallelism().map_or(1, |cores| cores.get());
    let share = |core: usize| {
        let mut seen = Seen::default();
        let mut progress = Progress::new(false);
        for number in numbers.clone().skip(core).step_by(cores) {
            let _named = Case { seed, number };
            let mut rng = Prng::new((seed << 32) + number);
            case(number, &mut rng, &mut seen);
            if core == 0 {
                progress.tell(|| format!("seed {seed}: case {number} of {numbers:?}"));
            }
        }
        seen
    };
    let share = &share;
    let mut seen = Seen::default();
    thread::scope(|scope| {
        let start = |core| {
            let thread = Builder::new().stack_size(STACK);
            let thread = thread.spawn_scoped(scope, move || share(core));
            thread.expect("a thread can be started")
        };
        let threads: Vec<ScopedJoinHandle<Seen>> = (0..cores).map(start).collect();
        for thread in threads {
            let share = thread.join();
            seen.add(&share.unwrap_or_else(|panic| resume_unwind(panic)));
        }
    });
    seen
}

/// A length in bytes for a list that so many numbers of a width are to be written to: now and then too short.
fn room_about(rng: &mut Prng, needed: usize, width: usize) -> usize {
    let numbers = match rng.below(20) {
        0 => needed.saturating_sub(1),
        1 => rng.below(needed + 1),
        2..8 => needed,
        _ => needed + rng.below(8),
    };
    numbers * width + rng.below(width)
}

/// The bytes of numbers, ended by fewer stray bytes than make another number.
pub fn with_stray<T: Copy, const W: usize>(
    rng: &mut Prng,
    numbers: &[T],
    word: fn(T) -> [u8; W],
) -> Twin {
    let tail = rng.below(W);
    with_tail(rng, numbers, word, tail)
}

/// The bytes of numbers in a list that may be longer than what is read, now and then by far.
fn with_rest<T: Copy, const W: usize>(
    rng: &mut Prng,
    numbers: &[T],
    word: fn(T) -> [u8; W],
) -> Twin {
    let tail = match rng.below(100) {
        0 => 600_000,
        1..5 => rng.below(20_000),
        _ => rng.below(W),
    };
    with_tail(rng, numbers, word, tail)
}

/// The bytes of numbers, and so many bytes after them.
fn with_tail<T: Copy, const W: usize>(
    rng: &mut Prng,
    numbers: &[T],
    word: fn(T) -> [u8; W],
    tail: usize,
) -> Twin {
    let mut list = bytes(numbers, word);
    list.resize(list.len() + tail, rng.one_of(&[0, 1, 0xee, 0xff]));
    Twin::new(list)
}

/// The lists of a matrix.
pub fn matrix_twins(rng: &mut Prng, matrix: &Matrix) -> MatrixTwins {
    MatrixTwins {
        n: matrix.n,
        row_starts: with_rest(rng, &matrix.starts, u32::to_le_bytes),
        columns: with_rest(rng, &matrix.columns, u32::to_le_bytes),
        values: with_rest(rng, &matrix.values, i32::to_le_bytes),
    }
}

/// The cases of every call, and how many of them there are among so many of all.
#[rustfmt::skip]
const WEIGHTS: &[(u64, fn(&mut Prng, &mut Seen))] = &[
    (8, matrix::read),
    (3, matrix::write),
    (3, matrix::product),
    (3, survey::survey),
    (4, upkeep::set_movement),
    (4, upkeep::set_entry),
    (7, join::join),
    (3, plan::plan),
    (3, plan::check),
    (1, plan_file::write),
    (1, plan_file::read),
    (5, run::picks),
    (3, run::preview),
    (3, run::rounds),
    (3, run::ready),
    (3, run::forces),
    (1, run::whole),
    (1, prepared::prepare),
    (4, prepared::picks),
    (2, prepared::rounds),
    (2, prepared::ready),
    (2, prepared::forces),
    (1, prepared::whole),
    (4, crews::picks),
    (2, crews::ready),
    (1, crews::whole),
    (1, barrier::unit),
    (1, control::control),
    (2, numbers::read),
    (1, numbers::write),
];

/// How many cases there are when each call has as many as its weight.
pub fn all_weights() -> u64 {
    WEIGHTS.iter().map(|(weight, _)| weight).sum()
}

/// A case of any call.
pub fn any(rng: &mut Prng, seen: &mut Seen) {
    let mut left = rng.below(all_weights() as usize) as u64;
    for (weight, case) in WEIGHTS {
        if left < *weight {
            return case(rng, seen);
        }
        left -= weight;
    }
}
