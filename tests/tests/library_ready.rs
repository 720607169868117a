//! `mzk_ready` beside the other implementation, in states of its own and of whole runs.

use mazhoketh_tests::cases::run::{self, Run, WholeRun};
use mazhoketh_tests::lists::refusal_number;
use mazhoketh_tests::oracle::prng::Prng;
use mazhoketh_tests::{both, cases};

/// Asks for the ready set in a begun run.
fn ask(_: &mut Prng, run: &Run, _: u64) {
    let word = both::ready(&run.lists, &run.at);
    assert_eq!(refusal_number(word), 0);
}

#[test]
fn random_states() {
    let seen = cases::each(161, 0..40_000, run::ready);
    seen.require([0, 5, 6, 8, 11], 1_000);
}

#[test]
fn random_runs() {
    cases::each(162, 0..5_000, |rng, _| {
        let most = rng.one_of(&[10, 100, 1_000]);
        WholeRun::random(rng).finish(rng, most, ask);
    });
}

#[test]
fn large_runs() {
    run::each_large(163, |rng, matrix, plan| {
        WholeRun::new(rng, matrix, plan).finish(rng, 20_000, ask);
    });
}
