//! `mzk_product` beside the other implementation.

use mazhoketh_tests::guarded::Twin;
use mazhoketh_tests::lists::bytes;
use mazhoketh_tests::oracle::matrix::{Matrix, LARGEST_MOVEMENT, MOST_ENTRIES};
use mazhoketh_tests::oracle::nets;
use mazhoketh_tests::oracle::prng::Prng;
use mazhoketh_tests::{both, cases};

/// Multiplies a matrix by movements into forces of just its length; the answer word and the forces.
fn multiply(rng: &mut Prng, matrix: &Matrix, movements: &[i32]) -> (u64, Twin) {
    let lists = cases::matrix_twins(rng, matrix);
    let movements = cases::with_stray(rng, movements, i32::to_le_bytes);
    let mut forces = Twin::blank(8 * matrix.n as usize);
    let word = both::product(&lists, &movements, &mut forces);
    (word, forces)
}

#[test]
fn random_nets() {
    let seen = cases::each(121, 0..100_000, cases::matrix::product);
    seen.require([0, 5, 6, 9], 1_000);
}

#[test]
fn matrix_files() {
    cases::each_file(122, |rng, _, matrix| {
        let movements = nets::random_movements(rng, matrix.n);
        assert_eq!(multiply(rng, matrix, &movements).0, 0);
    });
}

#[test]
fn largest_matrices() {
    cases::each(123, 0..1, |rng, _| {
        let movements = vec![-1; 4_096];
        let most = nets::filled_band(4_096, MOST_ENTRIES);
        assert_eq!(multiply(rng, &most, &movements).0, 0);
        for entries in [MOST_ENTRIES + 1, usize::MAX] {
            let over = nets::filled_band(4_096, entries);
            assert_eq!(multiply(rng, &over, &movements).0, 5 << 32);
        }
    });
}

/// A star whose rows all have the largest value, with the largest movements: "the largest possible sum".
#[test]
fn largest_force() {
    cases::each(124, 0..1, |rng, _| {
        let star = (0..4_096).map(|row| (row, 0, 1_000_000_000));
        let star = nets::of_triples(4_096, star);
        let movements = vec![LARGEST_MOVEMENT as i32; 4_096];
        let (word, forces) = multiply(rng, &star, &movements);
        let largest = bytes(&[4_096_000_000_000_000_000], i64::to_le_bytes);
        assert_eq!((word, &forces.ours()[..8]), (0, &largest[..]));
    });
}
