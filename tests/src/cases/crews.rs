//! Cases of picks and ready sets for two crews: single calls from any states, and both runs to their end.

use super::matrix::{movements, perhaps_damaged};
use super::plan::plan_twins;
use super::run::{fresh_twins, perhaps_damaged_state};
use super::{matrix_twins, with_stray, Seen};
use crate::both::{self, CrewTwins, RunTwins, StateTwins};
use crate::guarded::Twin;
use crate::library;
use crate::lists::{bytes, refusal_number};
use crate::oracle::leaves::{self, Leaves};
use crate::oracle::machine::State;
use crate::oracle::matrix::Matrix;
use crate::oracle::planner::Plan;
use crate::oracle::prng::Prng;
use crate::oracle::{calls, nets, plans, states, WORKERS};

/// Two crews in some states, every list twice.
pub struct Crews {
    pub lists: CrewTwins,
    pub at: [StateTwins; 2],
    leaves: Leaves,
}

/// Takes random picks from any states.
pub fn picks(rng: &mut Prng, seen: &mut Seen) {
    let mut crews = Crews::any(rng);
    let most = rng.one_of(&[4, 12, 40]);
    let picks = Twin::new(crews.any_picks(rng, most));
    seen.note(both::picks_both(&crews.lists, &mut crews.at, &picks));
}

/// Asks for the ready sets in any states.
pub fn ready(rng: &mut Prng, seen: &mut Seen) {
    let crews = Crews::any(rng);
    seen.note(both::ready_both(&crews.lists, &crews.at));
}

/// Takes two fresh runs to their ends in lists of random lengths, with ready sets between them.
pub fn whole(rng: &mut Prng, seen: &mut Seen) {
    let mut whole = WholeRuns::random(rng);
    let most = rng.one_of(&[10, 100, 1_000]);
    whole.finish(rng, most, |_, crews, picked| {
        seen.note(picked);
        seen.note(both::ready_both(&crews.lists, &crews.at));
    });
}

impl Crews {
    /// Two crews of a random net in any states; any list is now and then damaged.
    fn any(rng: &mut Prng) -> Crews {
        let most = rng.one_of(&[2, 10, 30]);
        let matrix = nets::random_net(rng, most);
        let plan = plans::random_plan(rng, &matrix);
        let leaves = leaves::leaves_of(&matrix, &plan);
        let at = [(); 2].map(|_| {
            let state = any_state(rng, &leaves);
            let sums = states::sums(rng, matrix.n);
            perhaps_damaged_state(rng, state, sums)
        });
        let [movements, movements1] = [(); 2].map(|_| movements(rng, matrix.n));
        let damages = usize::from(rng.chance(12));
        let lent = perhaps_damaged(rng, matrix);
        let run = RunTwins {
            matrix: matrix_twins(rng, &lent),
            movements,
            plan: plan_twins(rng, &plan, damages),
        };
        Crews {
            lists: CrewTwins { run, movements1 },
            at,
            leaves,
        }
    }

    /// The fresh runs of two crews over a matrix and a plan, with the movements of each.
    pub fn fresh(rng: &mut Prng, matrix: &Matrix, movements: [&[i32]; 2], plan: &Plan) -> Crews {
        let [movements, movements1] =
            movements.map(|movements| with_stray(rng, movements, i32::to_le_bytes));
        let run = RunTwins {
            matrix: matrix_twins(rng, matrix),
            movements,
            plan: plan_twins(rng, plan, 0),
        };
        Crews {
            lists: CrewTwins { run, movements1 },
            at: [(); 2].map(|_| fresh_twins(rng, matrix.n)),
            leaves: leaves::leaves_of(matrix, plan),
        }
    }

    /// At most so many picks: of ready workers, a row at a time or not, of workers not at their end, of the plan's, or
    /// perhaps of no worker or crew.
    pub fn any_picks(&self, rng: &mut Prng, most: usize) -> Vec<u8> {
        let workers = self.leaves.workers as u8;
        let among = match rng.below(20) {
            0..6 => return self.rows_of_picks(rng, most),
            6..10 => self.ready_picks(),
            10..16 => self.unfinished_picks(),
            16..18 => (0..workers).chain(16..16 + workers).collect(),
            _ => {
                let nobody = [workers, 16 + workers, 16 + workers, 32, 32 + workers, 255];
                self.ready_picks().into_iter().chain(nobody).collect()
            }
        };
        if among.is_empty() {
            return vec![rng.one_of(&[0, 16])];
        }
        plans::random_picks(rng, &among, most)
    }

    /// At most so many picks that are all taken in fresh runs: a ready worker to the end of its row, then another.
    fn rows_of_picks(&self, rng: &mut Prng, most: usize) -> Vec<u8> {
        let mut made = [0, 1].map(|crew| self.made(crew));
        let mut ready = self.ready_picks();
        let mut picks = Vec::new();
        while picks.len() < most && !ready.is_empty() {
            let at = rng.below(ready.len());
            let (crew, worker) = crew_and_worker(ready[at]);
            let count = &mut made[crew][worker];
            let row = self.leaves.moves_in_row(worker, *count).1;
            picks.extend(std::iter::repeat_n(ready[at], row as usize));
            *count += row;
            if self.is_leaf_end(worker, *count) {
                ready.swap_remove(at);
            }
        }
        picks.truncate(most);
        picks
    }

    /// Whether a worker has finished a leaf with so many moves.
    fn is_leaf_end(&self, worker: usize, made: u32) -> bool {
        let mut leaves = self.leaves.leaves.iter();
        leaves.any(|leaf| leaf.worker == worker && leaf.moves_end == made)
    }

    /// The moves that each worker has made for a crew; 0 where the state is too short to tell.
    fn made(&self, crew: usize) -> [u32; WORKERS] {
        let words = self.at[crew].state.theirs.as_chunks().0;
        let mut made = [0; WORKERS];
        for (count, &word) in made.iter_mut().zip(words) {
            *count = u32::from_le_bytes(word);
        }
        made
    }

    /// The picks of workers that have not made all their moves for a crew.
    fn unfinished_picks(&self) -> Vec<u8> {
        let made = [0, 1].map(|crew| self.made(crew));
        let is_unfinished = |&pick: &u8| {
            let (crew, worker) = crew_and_worker(pick);
            made[crew][worker] < self.leaves.moves[worker]
        };
        (0..32).filter(is_unfinished).collect()
    }

    /// The ready picks, as the other implementation tells them; none if it refuses.
    fn ready_picks(&self) -> Vec<u8> {
        let [at0, at1] = &self.at;
        let word = calls::ready_both(
            self.lists.theirs(),
            [&at0.state.theirs, &at1.state.theirs],
            [&at0.sums.theirs, &at1.sums.theirs],
        );
        let accepted = refusal_number(word) == 0;
        let is_ready = |pick: &u8| accepted && word >> pick & 1 == 1;
        (0..32).filter(is_ready).collect()
    }
}

/// The crew and the worker that a pick below 32 names.
fn crew_and_worker(pick: u8) -> (usize, usize) {
    (usize::from(pick) / WORKERS, usize::from(pick) % WORKERS)
}

/// A state of a crew: fresh, at its end, between rows, or any.
fn any_state(rng: &mut Prng, leaves: &Leaves) -> State {
    match rng.below(10) {
        0..2 => State::fresh(),
        2 => states::finished(rng, leaves.moves),
        3..6 => states::between_rows(rng, leaves),
        _ => states::made_up(rng, leaves.moves),
    }
}

/// Two runs from fresh to their ends.
pub struct WholeRuns {
    pub crews: Crews,
    /// The moves of all workers for one crew.
    moves: u64,
    /// The full product of each crew.
    products: [Vec<u8>; 2],
}

impl WholeRuns {
    /// The runs of a matrix and a plan, with random movements.
    pub fn new(rng: &mut Prng, matrix: &Matrix, plan: &Plan) -> WholeRuns {
        let movements = [(); 2].map(|_| nets::random_movements(rng, matrix.n));
        let rows = matrix.rows();
        let product = |list: &Vec<i32>| bytes(&rows.product(list), i64::to_le_bytes);
        WholeRuns {
            crews: Crews::fresh(rng, matrix, [&movements[0], &movements[1]], plan),
            moves: 2 * u64::from(matrix.n) + 4 * rows.joined_pairs() as u64,
            products: movements.each_ref().map(product),
        }
    }

    /// The runs of a random net and a random plan.
    pub fn random(rng: &mut Prng) -> WholeRuns {
        let most = rng.one_of(&[3, 10, 30]);
        let matrix = nets::random_net(rng, most);
        let plan = plans::random_plan(rng, &matrix);
        WholeRuns::new(rng, &matrix, &plan)
    }

    /// Runs both to the end in lists of at most so many picks; what comes after each list is told its answer word.
    pub fn finish(
        &mut self,
        rng: &mut Prng,
        most: usize,
        mut after: impl FnMut(&mut Prng, &Crews, u64),
    ) {
        let mut taken = 0;
        while !self.crews.ready_picks().is_empty() {
            let picks = Twin::new(self.crews.any_picks(rng, most));
            let word = both::picks_both(&self.crews.lists, &mut self.crews.at, &picks);
            let number = refusal_number(word);
            assert!([0, 10, 12, 13, 18, 19].contains(&number), "picks: {number}");
            // Accepted or stopped, the low half is the number taken.
            taken += word & 0xffff_ffff;
            after(rng, &self.crews, word);
        }
        assert_eq!(taken, 2 * self.moves, "the moves of two whole runs");
        for crew in 0..2 {
            self.check_forces(crew);
        }
    }

    /// Panics unless a crew's own force list is its own product.
    fn check_forces(&self, crew: usize) {
        let StateTwins { state, sums } = &self.crews.at[crew];
        let mut forces = vec![0; self.products[crew].len()];
        let run = self.crews.lists.ours().own(crew);
        let word = library::forces(run, state.ours(), sums.ours(), &mut forces);
        assert_eq!((word, &forces), (0, &self.products[crew]), "crew {crew}");
    }
}
