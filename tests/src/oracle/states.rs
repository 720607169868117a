//! Generators of made-up states: any counts up to each worker's moves, with held numbers and sums at the ends of 64
//! bits.

use super::leaves::Leaves;
use super::machine::State;
use super::matrix::Matrix;
use super::planner::Plan;
use super::prng::Prng;
use super::{soundness, WORKERS};

/// Numbers that a sum may pass 64 bits from, and some that it may not.
const ODD_SUMS: [i64; 6] = [i64::MAX, i64::MIN, i64::MAX - 1_000, 0, 1, -1];

/// The moves of each worker of a sound plan.
pub fn moves(matrix: &Matrix, plan: &Plan) -> [u32; WORKERS] {
    let (groups, count) = (plan.flat(), plan.group_count());
    let sound = soundness::check(matrix.rows(), &plan.order, &groups, count);
    let sound = sound.expect("the plan is sound");
    Leaves::of(matrix.rows(), &sound).moves
}

/// A made-up state in which each worker has made some of its moves.
pub fn made_up(rng: &mut Prng, moves: [u32; WORKERS]) -> State {
    let made = moves.map(|moves| rng.below(moves as usize + 1) as u32);
    finished(rng, made)
}

/// A made-up state in which each worker stands between two of its rows, or at its end.
pub fn between_rows(rng: &mut Prng, leaves: &Leaves) -> State {
    let mut state = made_up(rng, leaves.moves);
    for (worker, made) in state.made.iter_mut().enumerate() {
        *made -= leaves.moves_in_row(worker, *made).0;
    }
    state
}

/// A made-up state in which each worker has made all its moves.
pub fn finished(rng: &mut Prng, moves: [u32; WORKERS]) -> State {
    State {
        made: moves,
        held: moves.map(|_| rng.one_of(&ODD_SUMS)),
    }
}

/// Made-up sums of n freedoms.
pub fn sums(rng: &mut Prng, n: u32) -> Vec<i64> {
    (0..n).map(|_| rng.one_of(&ODD_SUMS)).collect()
}
