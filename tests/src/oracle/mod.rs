//! Documents 01 and 02 a second time, in plain Rust with lists on the heap.

pub mod barrier;
pub mod book;
pub mod calls;
pub mod control;
pub mod crews;
pub mod damage;
pub mod join;
pub mod leaves;
pub mod machine;
pub mod matrix;
pub mod netplan;
pub mod nets;
pub mod numbers;
pub mod plan_file;
pub mod planner;
pub mod plans;
pub mod prepared;
pub mod prng;
pub mod soundness;
pub mod states;
pub mod survey;
pub mod text;
pub mod upkeep;

/// The most workers of a plan, and the workers that a state has room for.
pub const WORKERS: usize = 16;

/// The numbers of a group's record, and a record: start, length, first worker, worker count, colour (0 whole, 1 red,
/// 2 blue), parent's index, depth.
pub const FIELDS: usize = 7;
pub type Fields = [u32; FIELDS];

/// A refusal: "Each is a number and a place (0 unless named)".
#[derive(Clone, Copy, Debug, PartialEq, Eq)]
pub struct Refusal {
    pub number: u32,
    pub place: u32,
}

impl Refusal {
    /// The refusal of a number at a place.
    pub const fn at(number: u32, place: usize) -> Refusal {
        let place = place as u32;
        Refusal { number, place }
    }
}

/// Refusal 9 at the length needed if a lent list has room for less.
pub fn room(lent: usize, needed: usize) -> Result<(), Refusal> {
    if lent < needed {
        return Err(Refusal::at(9, needed));
    }
    Ok(())
}
