//! `mzk_preview` beside the other implementation, and beside the same picks on a copy and a look there.

use mazhoketh_tests::cases;
use mazhoketh_tests::cases::run::{self, Run, WholeRun};
use mazhoketh_tests::lists::refusal_number;
use mazhoketh_tests::oracle::prng::Prng;

/// Asks in a begun run what picks would do.
fn ask(rng: &mut Prng, run: &Run, most: usize) {
    let stopped_by = refusal_number(run.previewed(run.any_picks(rng, most)));
    assert!([0, 10, 12, 13].contains(&stopped_by), "{stopped_by}");
}

#[test]
fn random_states() {
    let seen = cases::each(211, 0..60_000, run::preview);
    seen.require([0, 5, 6, 8, 10, 11, 12, 13, 14], 1_000);
}

#[test]
fn random_runs() {
    cases::each(212, 0..3_000, |rng, _| {
        let most = rng.one_of(&[10, 100, 1_000]);
        WholeRun::random(rng).finish(rng, most, |rng, run, _| ask(rng, run, most));
    });
}

#[test]
fn large_runs() {
    run::each_large(213, |rng, matrix, plan| {
        WholeRun::new(rng, matrix, plan).finish(rng, 20_000, |rng, run, _| ask(rng, run, 20_000))
    });
}
