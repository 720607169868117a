//! `mzk_prepare` and the calls on a prepared list beside the other implementation.

use mazhoketh_tests::cases;
use mazhoketh_tests::cases::prepared;
use mazhoketh_tests::cases::run::{self, WholeRun};
use mazhoketh_tests::cases::Seen;

#[test]
fn random_lists() {
    let seen = cases::each(231, 0..20_000, prepared::prepare);
    seen.require([0, 5, 6, 8, 9], 500);
}

#[test]
fn random_picks() {
    let seen = cases::each(232, 0..60_000, prepared::picks);
    seen.require([0, 10, 11, 12, 13, 14, 26], 1_000);
}

#[test]
fn random_rounds() {
    let seen = cases::each(233, 0..40_000, prepared::rounds);
    seen.require([0, 10, 11, 14, 26], 500);
}

#[test]
fn random_ready_sets() {
    let seen = cases::each(234, 0..40_000, prepared::ready);
    seen.require([0, 11, 26], 500);
}

#[test]
fn random_forces() {
    let seen = cases::each(235, 0..40_000, prepared::forces);
    seen.require([0, 9, 11, 15, 26], 500);
}

#[test]
fn random_runs() {
    cases::each(236, 0..3_000, prepared::whole);
}

#[test]
fn large_runs() {
    run::each_large(237, |rng, matrix, plan| {
        let whole = WholeRun::new(rng, matrix, plan);
        prepared::finish(rng, &mut Seen::default(), whole, 20_000);
    });
}
