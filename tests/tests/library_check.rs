//! `mzk_check` beside the other implementation.

use mazhoketh_tests::lists::refusal_number;
use mazhoketh_tests::oracle::planner;
use mazhoketh_tests::{both, cases};

#[test]
fn random_nets() {
    let seen = cases::each(141, 0..60_000, cases::plan::check);
    seen.require([0, 5, 7, 8], 1_000);
}

/// The planner's plans of every file at each distance: sound there and at every smaller one, and damaged.
#[test]
fn matrix_files() {
    cases::each_file(142, |rng, _, matrix| {
        let lists = cases::matrix_twins(rng, matrix);
        for workers in [2, 3, 5, 8, 16] {
            for p in [50, 60, 75, 99] {
                let made_at = 1 + rng.below(4) as u32;
                let plan = planner::plan_at(matrix.rows(), workers, p, made_at);
                let whole = cases::plan::plan_twins(rng, &plan, 0);
                for k in 1..=4 {
                    let number = refusal_number(both::check(&lists, &whole, k));
                    assert!(number == 0 || (number == 8 && k > made_at));
                    let damaged = cases::plan::plan_twins(rng, &plan, 1);
                    let number = refusal_number(both::check(&lists, &damaged, k));
                    assert!(number == 0 || number == 8);
                }
            }
        }
    });
}
