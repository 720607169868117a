//! `mzk_rounds` beside the other implementation; and whole runs by rounds, each of which gets on.

use mazhoketh_tests::cases;
use mazhoketh_tests::cases::run::{self, WholeRun};

#[test]
fn random_states() {
    let seen = cases::each(221, 0..60_000, run::rounds);
    seen.require([0, 5, 6, 8, 10, 11, 14], 1_000);
}

#[test]
fn random_runs() {
    cases::each(222, 0..3_000, |rng, _| {
        let most = rng.one_of(&[1, 10, 100]);
        WholeRun::random(rng).finish_by_rounds(rng, most);
    });
}

#[test]
fn large_runs() {
    run::each_large(223, |rng, matrix, plan| {
        WholeRun::new(rng, matrix, plan).finish_by_rounds(rng, 20_000)
    });
}
