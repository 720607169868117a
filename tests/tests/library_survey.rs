//! `mzk_survey` beside the other implementation, and what document 02 says of the amounts and the shift.

use std::sync::atomic::{AtomicUsize, Ordering::Relaxed};

use mazhoketh_tests::guarded::Twin;
use mazhoketh_tests::lists::bytes;
use mazhoketh_tests::oracle::matrix::{Matrix, LARGEST_MOVEMENT};
use mazhoketh_tests::oracle::prng::Prng;
use mazhoketh_tests::oracle::{nets, survey};
use mazhoketh_tests::{both, cases};

/// Surveys a matrix into lists of just its length; the answer word, the amounts and the shift.
fn measure(
    rng: &mut Prng,
    matrix: &Matrix,
    movements: &[i32],
    t: u32,
    row: u32,
) -> (u64, Vec<i64>, Vec<i32>) {
    let lists = cases::matrix_twins(rng, matrix);
    let movements = cases::with_stray(rng, movements, i32::to_le_bytes);
    let mut written = [8, 4].map(|width| Twin::blank(width * matrix.n as usize));
    let word = both::survey(&lists, &movements, t, row, &mut written);
    let amounts = written[0].ours().as_chunks().0.iter();
    let shift = written[1].ours().as_chunks().0.iter();
    (
        word,
        amounts.map(|&word| i64::from_le_bytes(word)).collect(),
        shift.map(|&word| i32::from_le_bytes(word)).collect(),
    )
}

/// How far a shift moves each force.
fn moved_by(matrix: &Matrix, movements: &[i32], shift: &[i32]) -> Vec<i64> {
    let pairs = movements.iter().zip(shift);
    let shifted: Vec<i32> = pairs.map(|(movement, change)| movement + change).collect();
    let (was, is) = (
        matrix.rows().product(movements),
        matrix.rows().product(&shifted),
    );
    is.iter().zip(&was).map(|(is, was)| is - was).collect()
}

/// A shift that is allowed: each movement goes to a place that it may reach, most often to an end.
fn allowed_shift(rng: &mut Prng, movements: &[i32], t: u32) -> Vec<i32> {
    let (largest, t) = (LARGEST_MOVEMENT as i32, t as i32);
    let change = |&movement: &i32| {
        let least = (movement - t).max(-largest);
        let most = (movement + t).min(largest);
        let between = rng.between(least.into(), most.into()) as i32;
        rng.one_of(&[least, most, between]) - movement
    };
    movements.iter().map(change).collect()
}

#[test]
fn random_nets() {
    let seen = cases::each(131, 0..100_000, cases::survey::survey);
    seen.require([0, 5, 6, 9, 17], 1_000);
}

/// "no allowed shift can move its force" beyond its amount; the shift that is written is allowed, and moves the force of
/// its freedom by just the amount.
#[test]
fn beyond_and_reached() {
    let written = AtomicUsize::new(0);
    cases::each(132, 0..20_000, |rng, _| {
        let matrix = nets::random_net(rng, 12);
        let movements = nets::random_movements(rng, matrix.n);
        let lent = Twin::new(bytes(&movements, i32::to_le_bytes));
        let t = cases::survey::error_about(rng, &lent).min(survey::LARGEST_ERROR);
        let row = rng.below(matrix.n as usize);
        let (word, amounts, shift) = measure(rng, &matrix, &movements, t, row as u32);
        for _ in 0..4 {
            let other = allowed_shift(rng, &movements, t);
            assert!(survey::is_allowed(&movements, t, &other));
            let moved = moved_by(&matrix, &movements, &other);
            let beyond = |&(moved, most): &(&i64, &i64)| moved.abs() > *most;
            assert_eq!(moved.iter().zip(&amounts).find(beyond), None);
        }
        if word == 1 {
            assert!(survey::is_allowed(&movements, t, &shift));
            assert_eq!(moved_by(&matrix, &movements, &shift)[row], amounts[row]);
            written.fetch_add(1, Relaxed);
        }
    });
    let written = written.into_inner();
    assert!((5_000..15_000).contains(&written), "{written} shifts");
}

#[test]
fn matrix_files() {
    cases::each_file(133, |rng, _, matrix| {
        let movements = vec![-999_000; matrix.n as usize];
        for (t, count) in [(0, 1), (1_000, 1), (1_001, 0)] {
            let row = rng.below(matrix.n as usize) as u32;
            assert_eq!(measure(rng, matrix, &movements, t, row).0, count);
        }
    });
}

/// A star with the largest values and the largest error: the largest amount is the largest force.
#[test]
fn largest_amount() {
    cases::each(134, 0..1, |rng, _| {
        let star = (0..4_096).map(|row| (row, 0, -1_000_000_000));
        let star = nets::of_triples(4_096, star);
        let (word, amounts, shift) = measure(rng, &star, &[0; 4_096], 1_000_000, 0);
        assert_eq!((word, amounts[0]), (1, 4_096_000_000_000_000_000));
        assert!(shift.iter().all(|&change| change == -1_000_000));
        assert_eq!(amounts[4_095], 1_000_000_000_000_000);
    });
}

/// Values of each sign, a stored 0 and an absent entry.
#[test]
fn signs() {
    cases::each(135, 0..1, |rng, _| {
        let net = [(0, 0, -5), (1, 0, 7), (2, 0, 0), (3, 3, 2)];
        let net = nets::of_triples(4, net.into_iter());
        let told = measure(rng, &net, &[1, -2, 3, 0], 9, 0);
        assert_eq!(told, (1, vec![108, 63, 0, 18], vec![-9, 9, 0, 0]));
    });
}

/// t and the freedom at their limits; a list for a shift that is not written may be empty, and no such freedom is 17
/// all the same.
#[test]
fn limits() {
    cases::each(136, 0..1, |rng, _| {
        let net = nets::chain(8);
        let (still, far) = (vec![0; 8], vec![1_000_000; 8]);
        assert_eq!(measure(rng, &net, &still, 1_000_000, 7).0, 1);
        assert_eq!(measure(rng, &net, &still, 1_000_001, 7).0, 17 << 32);
        assert_eq!(measure(rng, &net, &still, 3, 8).0, 17 << 32);
        assert_eq!(measure(rng, &net, &far, 3, 8).0, 17 << 32);
        assert_eq!(measure(rng, &net, &far, 0, 7).0, 1);
        let lists = cases::matrix_twins(rng, &net);
        let movements = Twin::new(bytes(&far, i32::to_le_bytes));
        let mut written = [Twin::blank(64), Twin::blank(0)];
        assert_eq!(both::survey(&lists, &movements, 1, 7, &mut written), 0);
        let short = both::survey(&lists, &movements, 0, 7, &mut written);
        assert_eq!(short, 9 << 32 | 8);
    });
}
