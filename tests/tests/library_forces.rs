//! `mzk_forces` beside the other implementation, in states of its own and at the end of whole runs.

use mazhoketh_tests::cases::run::{self, Run, WholeRun};
use mazhoketh_tests::guarded::Twin;
use mazhoketh_tests::oracle::prng::Prng;
use mazhoketh_tests::{both, cases};

/// Asks for the force list of a begun run now and then, into a list of about the length needed.
fn ask(rng: &mut Prng, run: &Run, _: u64) {
    if rng.chance(20) {
        let length = run.at.sums.theirs.len() - 1 + rng.below(3);
        both::forces(&run.lists, &run.at, &mut Twin::blank(length));
    }
}

/// Runs to the end; then the force list is the product.
fn finish(rng: &mut Prng, whole: &mut WholeRun, most: usize) {
    whole.finish(rng, most, ask);
    let Run { lists, at, .. } = &whole.run;
    let length = whole.product.len();
    let (mut forces, mut product) = (Twin::blank(length), Twin::blank(length));
    assert_eq!(both::forces(lists, at, &mut forces), 0);
    assert_eq!(
        both::product(&lists.matrix, &lists.movements, &mut product),
        0
    );
    assert!(
        forces.ours() == product.ours(),
        "the force list is the product"
    );
}

#[test]
fn random_states() {
    let seen = cases::each(171, 0..40_000, run::forces);
    seen.require([0, 5, 6, 8, 9, 11, 15], 1_000);
}

#[test]
fn random_runs() {
    cases::each(172, 0..5_000, |rng, _| {
        let most = rng.one_of(&[10, 100, 1_000]);
        let mut whole = WholeRun::random(rng);
        finish(rng, &mut whole, most);
    });
}

#[test]
fn large_runs() {
    run::each_large(173, |rng, matrix, plan| {
        let mut whole = WholeRun::new(rng, matrix, plan);
        finish(rng, &mut whole, 20_000);
    });
}
