//! Cases of prepared runs: the list of a run, and calls on lists that are now and then damaged.

use super::run::{Run, WholeRun};
use super::{room_about, Seen};
use crate::both::{self, StateTwins};
use crate::guarded::Twin;
use crate::oracle::prng::Prng;
use crate::oracle::{calls, damage, plans, WORKERS};

/// A run and its prepared list.
struct Prepared {
    run: Run,
    list: Twin,
}

/// How many bytes the prepared list of a run has; a run that is refused has some number of them.
fn needed(run: &Run) -> usize {
    calls::prepare(run.lists.theirs(), &mut []) as u32 as usize
}

/// The prepared list of a run, which may be followed by other bytes.
fn list_of(rng: &mut Prng, run: &Run) -> Vec<u8> {
    let mut list = vec![0xee; needed(run) + rng.below(20)];
    calls::prepare(run.lists.theirs(), &mut list);
    list
}

impl Prepared {
    /// A run in any state, finished in so many cases of a hundred, with a list that is often damaged.
    fn any(rng: &mut Prng, finished: usize) -> Prepared {
        let run = Run::any(rng, finished);
        let mut list = list_of(rng, &run);
        while rng.chance(30) {
            damage::damage_prepared(rng, &mut list);
        }
        let list = Twin::new(list);
        Prepared { run, list }
    }

    /// Picks of any workers of the run.
    fn any_picks(&self, rng: &mut Prng) -> Twin {
        let most = rng.one_of(&[4, 12, 40]);
        if rng.chance(20) {
            let everyone: Vec<u8> = (0..=WORKERS as u8).collect();
            return Twin::new(plans::random_picks(rng, &everyone, most));
        }
        Twin::new(self.run.any_picks(rng, most))
    }
}

/// Prepares any run.
pub fn prepare(rng: &mut Prng, seen: &mut Seen) {
    let run = Run::any(rng, 10);
    let mut list = Twin::blank(room_about(rng, needed(&run), 1));
    seen.note(both::prepare(&run.lists, &mut list));
}

/// Takes random picks from any state.
pub fn picks(rng: &mut Prng, seen: &mut Seen) {
    let mut prepared = Prepared::any(rng, 10);
    let picks = prepared.any_picks(rng);
    seen.note(both::prepared_picks(
        &prepared.list,
        &mut prepared.run.at,
        &picks,
    ));
}

/// Takes random picks from any state, and passes over those whose workers cannot move.
pub fn rounds(rng: &mut Prng, seen: &mut Seen) {
    let mut prepared = Prepared::any(rng, 10);
    let picks = prepared.any_picks(rng);
    seen.note(both::prepared_rounds(
        &prepared.list,
        &mut prepared.run.at,
        &picks,
    ));
}

/// Asks for the ready set in any state.
pub fn ready(rng: &mut Prng, seen: &mut Seen) {
    let Prepared { run, list } = Prepared::any(rng, 20);
    seen.note(both::prepared_ready(&list, &run.at));
}

/// Asks for the force list in any state, often a finished one.
pub fn forces(rng: &mut Prng, seen: &mut Seen) {
    let Prepared { run, list } = Prepared::any(rng, 60);
    let mut forces = Twin::blank(room_about(rng, run.at.sums.theirs.len() / 8, 8));
    seen.note(both::prepared_forces(&list, &run.at, &mut forces));
}

/// Takes a fresh run to its end by its prepared list.
pub fn whole(rng: &mut Prng, seen: &mut Seen) {
    let most = rng.one_of(&[10, 100, 1_000]);
    let whole = WholeRun::random(rng);
    finish(rng, seen, whole, most);
}

/// Runs to the end in lists of at most so many picks: each call does what it does on the run's own lists, and the
/// forces are the product.
pub fn finish(rng: &mut Prng, seen: &mut Seen, whole: WholeRun, most: usize) {
    let WholeRun {
        mut run, product, ..
    } = whole;
    let list = Twin::new(list_of(rng, &run));
    while both::prepared_ready(&list, &run.at) != 0 {
        let picks = Twin::new(run.any_picks(rng, most));
        let StateTwins { state, sums } = &run.at;
        let (mut state, mut sums) = (state.theirs.clone(), sums.theirs.clone());
        let word = calls::picks(run.lists.theirs(), &mut state, &mut sums, &picks.theirs);
        let told = both::prepared_picks(&list, &mut run.at, &picks);
        assert_eq!(told, word, "picks by a prepared list");
        assert!(state == run.at.state.theirs, "the state of a prepared run");
        assert!(sums == run.at.sums.theirs, "the sums of a prepared run");
        seen.note(word);
    }
    let mut forces = Twin::blank(product.len());
    let word = both::prepared_forces(&list, &run.at, &mut forces);
    assert_eq!(
        (word, &forces.theirs),
        (0, &product),
        "the end of a prepared run"
    );
}
