//! `mzk_picks` beside the other implementation.

use mazhoketh_tests::cases;
use mazhoketh_tests::cases::run::{self, WholeRun};
use mazhoketh_tests::oracle::{nets, planner};

#[test]
fn random_states() {
    let seen = cases::each(151, 0..60_000, run::picks);
    seen.require([0, 5, 6, 8, 10, 11, 12, 13, 14], 1_000);
}

#[test]
fn random_runs() {
    cases::each(152, 0..5_000, |rng, _| {
        let most = rng.one_of(&[3, 10, 100, 1_000]);
        WholeRun::random(rng).finish(rng, most, |_, _, _| ());
    });
}

/// Lists that reach the rows of few updates.
#[test]
fn large_runs_in_short_lists() {
    run::each_large(154, |rng, matrix, plan| {
        WholeRun::new(rng, matrix, plan).finish(rng, 1_000, |_, _, _| ());
    });
}

/// Rows with many entries, in lists about the length from which the library lays the tables of all rows.
#[test]
fn cliques_in_short_lists() {
    let matrix = nets::cliques(62, 32);
    let plan = planner::plan(matrix.rows(), 16, 60);
    cases::each(155, 0..2, |rng, _| {
        WholeRun::new(rng, &matrix, &plan).finish(rng, 992, |_, _, _| ());
    });
}

#[test]
fn large_runs() {
    run::each_large(153, |rng, matrix, plan| {
        WholeRun::new(rng, matrix, plan).finish(rng, 20_000, |_, _, _| ());
    });
}
