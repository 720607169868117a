//! Cases of picks, previews, the ready set and the force list: single calls from any state, and runs to their end.

use super::matrix::{movements, perhaps_damaged};
use super::plan::plan_twins;
use super::{matrix_twins, numbered, room_about, with_stray, Seen};
use crate::both::{self, RunTwins, StateTwins};
use crate::files;
use crate::guarded::Twin;
use crate::lists::{bytes, refusal_number};
use crate::oracle::machine::State;
use crate::oracle::matrix::Matrix;
use crate::oracle::nets::{self, Roof};
use crate::oracle::planner::{self, Plan};
use crate::oracle::prng::Prng;
use crate::oracle::{calls, plans, states, WORKERS};

/// A run in some state, every list twice.
pub struct Run {
    pub lists: RunTwins,
    pub at: StateTwins,
    /// The number of the plan's workers, and the moves of each.
    workers: usize,
    moves: [u32; WORKERS],
}

/// Takes random picks from any state.
pub fn picks(rng: &mut Prng, seen: &mut Seen) {
    let mut run = Run::any(rng, 10);
    let most = rng.one_of(&[4, 12, 40]);
    let picks = Twin::new(run.any_picks(rng, most));
    seen.note(both::picks(&run.lists, &mut run.at, &picks));
}

/// Takes random picks from any state, and passes over those whose workers cannot move.
pub fn rounds(rng: &mut Prng, seen: &mut Seen) {
    let mut run = Run::any(rng, 10);
    let most = rng.one_of(&[4, 12, 40]);
    let picks = Twin::new(run.any_picks(rng, most));
    seen.note(both::rounds(&run.lists, &mut run.at, &picks));
}

/// Asks in any state what random picks would do; then that is done on a copy.
pub fn preview(rng: &mut Prng, seen: &mut Seen) {
    let run = Run::any(rng, 10);
    let most = rng.one_of(&[4, 12, 40]);
    let picks = run.any_picks(rng, most);
    seen.note(run.previewed(picks));
}

/// Asks for the ready set in any state.
pub fn ready(rng: &mut Prng, seen: &mut Seen) {
    let run = Run::any(rng, 20);
    seen.note(both::ready(&run.lists, &run.at));
}

/// Asks for the force list in any state, often a finished one.
pub fn forces(rng: &mut Prng, seen: &mut Seen) {
    let run = Run::any(rng, 60);
    let mut forces = Twin::blank(room_about(rng, run.at.sums.theirs.len() / 8, 8));
    seen.note(both::forces(&run.lists, &run.at, &mut forces));
}

/// Takes a fresh run to its end in lists of random lengths, with calls of all kinds between them.
pub fn whole(rng: &mut Prng, seen: &mut Seen) {
    let mut whole = WholeRun::random(rng);
    let most = rng.one_of(&[10, 100, 1_000]);
    whole.finish(rng, most, |rng, run, picked| {
        let mut forces = Twin::blank(room_about(rng, run.at.sums.theirs.len() / 8, 8));
        seen.note(picked);
        seen.note(run.previewed(run.any_picks(rng, most)));
        seen.note(both::ready(&run.lists, &run.at));
        seen.note(both::forces(&run.lists, &run.at, &mut forces));
    });
}

impl Run {
    /// A run of a random net in any state, finished in so many cases of a hundred; any list is now and then damaged.
    pub fn any(rng: &mut Prng, finished: usize) -> Run {
        let most = rng.one_of(&[2, 10, 30]);
        let matrix = nets::random_net(rng, most);
        let plan = plans::random_plan(rng, &matrix);
        let moves = states::moves(&matrix, &plan);
        let state = match rng.below(100) {
            k if k < finished => states::finished(rng, moves),
            k if k < finished + 20 => State::fresh(),
            _ => states::made_up(rng, moves),
        };
        let sums = states::sums(rng, matrix.n);
        let movements = movements(rng, matrix.n);
        let damages = usize::from(rng.chance(12));
        let lent = perhaps_damaged(rng, matrix);
        Run {
            lists: RunTwins {
                matrix: matrix_twins(rng, &lent),
                movements,
                plan: plan_twins(rng, &plan, damages),
            },
            at: perhaps_damaged_state(rng, state, sums),
            workers: plan.groups[0][3] as usize,
            moves,
        }
    }

    /// The fresh run of a matrix and a plan.
    fn fresh(rng: &mut Prng, matrix: &Matrix, movements: &[i32], plan: &Plan) -> Run {
        Run {
            lists: RunTwins {
                matrix: matrix_twins(rng, matrix),
                movements: with_stray(rng, movements, i32::to_le_bytes),
                plan: plan_twins(rng, plan, 0),
            },
            at: fresh_twins(rng, matrix.n),
            workers: plan.groups[0][3] as usize,
            moves: states::moves(matrix, plan),
        }
    }

    /// At most so many picks: of workers that are ready, not at their end, of the plan, or perhaps not of it.
    pub fn any_picks(&self, rng: &mut Prng, most: usize) -> Vec<u8> {
        let among = match rng.below(10) {
            0..4 => self.ready_workers(),
            4..8 => self.unfinished_workers(),
            8 => (0..self.workers as u8).collect(),
            _ => (0..=self.workers as u8).chain([255]).collect(),
        };
        if among.is_empty() {
            return vec![0];
        }
        plans::random_picks(rng, &among, most)
    }

    /// What picks would do, which is what they do on a copy, and the ready set there.
    pub fn previewed(&self, picks: Vec<u8>) -> u64 {
        let lists = self.lists.theirs();
        let mut state = self.at.state.theirs.clone();
        let mut sums = self.at.sums.theirs.clone();
        let word = calls::picks(lists, &mut state, &mut sums, &picks);
        let ready = calls::ready(lists, &state, &sums);
        let set = if refusal_number(ready) == 0 { ready } else { 0 };
        let told = both::preview(&self.lists, &self.at, &Twin::new(picks));
        assert_eq!(told, word | (set >> 16) << 40 | set << 48, "a preview");
        told
    }

    /// The workers that have not made all their moves.
    fn unfinished_workers(&self) -> Vec<u8> {
        let words = self.at.state.theirs.as_chunks().0;
        let made = words.iter().map(|&word| u32::from_le_bytes(word));
        let workers = (0u8..).zip(made.zip(self.moves));
        let unfinished = workers.filter(|(_, (made, moves))| made < moves);
        unfinished.map(|(worker, _)| worker).collect()
    }

    /// The ready workers, as the other implementation tells them; none if it refuses.
    fn ready_workers(&self) -> Vec<u8> {
        let StateTwins { state, sums } = &self.at;
        let word = calls::ready(self.lists.theirs(), &state.theirs, &sums.theirs);
        let accepted = refusal_number(word) == 0;
        let is_ready = |worker: &u8| accepted && word >> worker & 1 == 1;
        (0..WORKERS as u8).filter(is_ready).collect()
    }
}

/// The lists of the fresh state of a run over n freedoms.
pub fn fresh_twins(rng: &mut Prng, n: u32) -> StateTwins {
    StateTwins {
        state: Twin::new(state_bytes(&State::fresh())),
        sums: with_stray(rng, &vec![0; n as usize], i64::to_le_bytes),
    }
}

/// The lists of a state and sums; now and then a count is past its moves, or a list is too short or too long.
pub fn perhaps_damaged_state(rng: &mut Prng, mut state: State, mut sums: Vec<i64>) -> StateTwins {
    let mut length = calls::STATE_BYTES;
    match rng.below(40) {
        0 => state.made[rng.below(WORKERS)] = rng.one_of(&[1 << 12, 1 << 20, u32::MAX]),
        1 => state.made[rng.below(WORKERS)] += 1,
        2 => drop(sums.pop()),
        3 => sums.resize(sums.len() + rng.one_of(&[1, 2, 5_000]), 0),
        4 => length = rng.one_of(&[0, length - 1, length + 1, 2 * length]),
        _ => (),
    }
    let mut state = state_bytes(&state);
    state.resize(length, 0);
    StateTwins {
        state: Twin::new(state),
        sums: with_stray(rng, &sums, i64::to_le_bytes),
    }
}

/// A state's bytes.
fn state_bytes(state: &State) -> Vec<u8> {
    let made = bytes(&state.made, u32::to_le_bytes);
    [made, bytes(&state.held, i64::to_le_bytes)].concat()
}

/// The moves that rounds made, in their word.
pub fn moves_made(word: u64) -> u64 {
    word >> 40
}

/// A run from fresh to its end.
pub struct WholeRun {
    pub run: Run,
    /// The moves of all workers: two a freedom, and four a joined pair.
    moves: u64,
    /// The full product.
    pub product: Vec<u8>,
}

impl WholeRun {
    /// The run of a matrix and a plan, with random movements.
    pub fn new(rng: &mut Prng, matrix: &Matrix, plan: &Plan) -> WholeRun {
        let movements = nets::random_movements(rng, matrix.n);
        let rows = matrix.rows();
        WholeRun {
            run: Run::fresh(rng, matrix, &movements, plan),
            moves: 2 * u64::from(matrix.n) + 4 * rows.joined_pairs() as u64,
            product: bytes(&rows.product(&movements), i64::to_le_bytes),
        }
    }

    /// The run of a random net and a random plan.
    pub fn random(rng: &mut Prng) -> WholeRun {
        let most = rng.one_of(&[3, 10, 30]);
        let matrix = nets::random_net(rng, most);
        let plan = plans::random_plan(rng, &matrix);
        WholeRun::new(rng, &matrix, &plan)
    }

    /// Runs to the end in rounds of all workers in any order, each named at least once: each makes a move until then,
    /// and none after it.
    pub fn finish_by_rounds(&mut self, rng: &mut Prng, most: usize) {
        let everyone: Vec<u8> = (0..self.run.workers as u8).collect();
        let mut made = 0;
        while made < self.moves {
            let more = plans::random_picks(rng, &everyone, most);
            let mut picks = [more, everyone.clone()].concat();
            rng.shuffle(&mut picks);
            let word = both::rounds(&self.run.lists, &mut self.run.at, &Twin::new(picks));
            assert_eq!(refusal_number(word), 0, "a round");
            assert!(moves_made(word) > 0, "a round that makes no move");
            made += moves_made(word);
        }
        let word = both::rounds(&self.run.lists, &mut self.run.at, &Twin::new(everyone));
        assert_eq!((made, word), (self.moves, 0), "rounds of a whole run");
        self.check_end();
    }

    /// Runs to the end in lists of at most so many picks; what comes after each list is told its answer word.
    pub fn finish(
        &mut self,
        rng: &mut Prng,
        most: usize,
        mut after: impl FnMut(&mut Prng, &Run, u64),
    ) {
        let mut taken = 0;
        while !self.run.ready_workers().is_empty() {
            let picks = Twin::new(self.run.any_picks(rng, most));
            let word = both::picks(&self.run.lists, &mut self.run.at, &picks);
            let stopped_by = refusal_number(word);
            assert!([0, 10, 12, 13].contains(&stopped_by), "picks: {stopped_by}");
            // Accepted or stopped, the low half is the number taken.
            taken += word & 0xffff_ffff;
            after(rng, &self.run, word);
        }
        assert_eq!(taken, self.moves, "the moves of a whole run");
        self.check_end();
    }

    /// The forces of the finished run are the product.
    fn check_end(&self) {
        let StateTwins { state, sums } = &self.run.at;
        let mut forces = vec![0; self.product.len()];
        let word = calls::forces(
            self.run.lists.theirs(),
            &state.theirs,
            &sums.theirs,
            &mut forces,
        );
        assert_eq!(
            (word, &forces),
            (0, &self.product),
            "the end of a whole run"
        );
    }
}

/// Runs a case for a roof and a public matrix, both large, and their plans for few and for many workers.
pub fn each_large(seed: u64, case: impl Fn(&mut Prng, &Matrix, &Plan) + Sync) {
    let roof = nets::roof(&mut Prng::new(seed), Roof::default());
    let (_, bcsstk14) = files::read(&files::folder().join("bcsstk14.mtx"));
    let runs = [(&roof, 5), (&roof, 16), (&bcsstk14, 5), (&bcsstk14, 16)];
    numbered(seed, 0..runs.len() as u64, |number, rng, _| {
        let (matrix, workers) = runs[number as usize];
        let plan = planner::plan(matrix.rows(), workers, 60);
        case(rng, matrix, &plan);
    });
}
