//! `mzk_plan` beside the other implementation.

use mazhoketh_tests::guarded::Twin;
use mazhoketh_tests::oracle::matrix::{Matrix, MOST_ENTRIES};
use mazhoketh_tests::oracle::nets::{self, Roof};
use mazhoketh_tests::oracle::planner;
use mazhoketh_tests::oracle::prng::Prng;
use mazhoketh_tests::oracle::FIELDS;
use mazhoketh_tests::{both, cases};

/// The workers and the p that large nets are planned for.
const WORKERS: [u32; 5] = [2, 3, 5, 8, 16];
const P: [u32; 5] = [50, 60, 75, 90, 99];

/// Plans a matrix for all of these and distances in turn, into lists of just the lengths needed and one too short.
fn plan_for_all(rng: &mut Prng, matrix: &Matrix) {
    let lists = cases::matrix_twins(rng, matrix);
    let mut k = 0;
    for workers in WORKERS {
        for p in P {
            k = 1 + k % 4;
            let count = planner::plan_at(matrix.rows(), workers, p, k).groups.len();
            let plan_into = |order: usize, groups: usize| {
                let mut lent = [Twin::blank(4 * order), Twin::blank(4 * FIELDS * groups)];
                both::plan(&lists, workers, p, k, &mut lent)
            };
            let n = matrix.n as usize;
            assert_eq!(plan_into(n, count), count as u64);
            assert_eq!(plan_into(n - 1, 0), 9 << 32 | n as u64);
            assert_eq!(plan_into(n, count - 1), 9 << 32 | count as u64);
        }
    }
}

#[test]
fn random_nets() {
    let seen = cases::each(131, 0..40_000, cases::plan::plan);
    seen.require([0, 5, 7, 9], 1_000);
}

#[test]
fn matrix_files() {
    cases::each_file(132, |rng, _, matrix| plan_for_all(rng, matrix));
}

/// Nets with as many levels, as many components or as many entries as can be, and a net numbered at random.
#[test]
fn large_nets() {
    let shuffled = Roof {
        roofs: 3,
        spokes: 24,
        rings: 18,
        slack: 20,
        shuffled: true,
        ..Roof::default()
    };
    cases::each(133, 0..1, |rng, _| {
        plan_for_all(rng, &nets::chain(4_096));
        plan_for_all(rng, &nets::unjoined(4_096));
        plan_for_all(rng, &nets::filled_band(4_096, MOST_ENTRIES));
        let roofs = nets::roof(rng, shuffled);
        plan_for_all(rng, &roofs);
    });
}
