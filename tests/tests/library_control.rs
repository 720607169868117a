//! `mzk_control` beside the other implementation, and what document 02 says of control numbers.

use mazhoketh_tests::cases::control::{random_force, random_forces};
use mazhoketh_tests::guarded::Twin;
use mazhoketh_tests::lists::bytes;
use mazhoketh_tests::oracle::matrix::Matrix;
use mazhoketh_tests::{both, cases};

const MODULUS: i128 = 4_294_967_296;

/// The control number of forces.
fn number(forces: &[i64]) -> i128 {
    both::control(&Twin::new(bytes(forces, i64::to_le_bytes))).into()
}

/// The sum itself, in as many bits as it takes, and its remainder.
fn exact(forces: &[i64]) -> i128 {
    let terms = forces
        .iter()
        .zip(1..)
        .map(|(&force, weight)| weight * i128::from(force));
    terms.sum::<i128>().rem_euclid(MODULUS)
}

#[test]
fn random_lists() {
    let seen = cases::each(221, 0..60_000, cases::control::control);
    seen.require([0], 60_000);
}

#[test]
fn exact_sums() {
    cases::each(222, 0..20_000, |rng, _| {
        let forces = random_forces(rng);
        assert_eq!(number(&forces), exact(&forces));
    });
}

/// "The control number of two lists added place by place, where each sum fits 64 bits, is the sum of the two control
/// numbers modulo the same."
#[test]
fn added() {
    cases::each(223, 0..20_000, |rng, _| {
        let mut lists = [random_forces(rng), vec![]];
        lists[1] = lists[0].iter().map(|_| random_force(rng)).collect();
        for force in lists.iter_mut().flatten() {
            *force /= 2;
        }
        let pairs = lists[0].iter().zip(&lists[1]);
        let sums: Vec<i64> = pairs.map(|(one, other)| one + other).collect();
        let [one, other] = lists.map(|list| number(&list));
        assert_eq!(number(&sums), (one + other) % MODULUS);
    });
}

/// "One changed force changes it unless (number + 1) × the change is a multiple of the modulus."
#[test]
fn changed() {
    cases::each(224, 0..40_000, |rng, _| {
        let forces = random_forces(rng);
        if forces.is_empty() {
            return;
        }
        let at = rng.below(forces.len());
        let mut changed = forces.clone();
        changed[at] = random_force(rng);
        let change = i128::from(changed[at]) - i128::from(forces[at]);
        let is_multiple = (at as i128 + 1) * change % MODULUS == 0;
        assert_eq!(number(&changed) == number(&forces), is_multiple);
    });
}

/// Two rows exchanged, a sign, a digit: what is misread on a site.
#[test]
fn slips() {
    let forces = [1_200_000, -350_000, 20, 7];
    for other in [
        [-350_000, 1_200_000, 20, 7],
        [1_200_000, 350_000, 20, 7],
        [1_200_000, -350_000, 20, 1],
        [1_200_000, -350_000, 27, 0],
    ] {
        assert_ne!(number(&forces), number(&other));
    }
}

#[test]
fn by_hand() {
    for (forces, expected) in [
        (&[][..], 0),
        (&[1], 1),
        (&[-1], 4_294_967_295),
        (&[5, -3], 4_294_967_295),
        (&[1 << 32, -1 << 32, i64::MIN], 0),
        (&[0, 1 << 31], 0),
        (&[i64::MAX, 1], 1),
        (&[1, 2, 3], 14),
    ] {
        assert_eq!(number(forces), expected, "{forces:?}");
    }
}

/// A trailing part is not read: eight bytes make a force.
#[test]
fn every_length() {
    let list = bytes(&[3_i64, -1], i64::to_le_bytes);
    for length in 0..=16 {
        let expected = [0, 3, 1][length / 8];
        let word = both::control(&Twin::new(list[..length].to_vec()));
        assert_eq!(word, expected);
    }
}

/// More forces than a matrix has rows, and weights of more than 16 bits.
#[test]
fn long_list() {
    let forces: Vec<i64> = (0..200_000).map(|row| row * row - 77 * row).collect();
    assert_eq!(number(&forces), exact(&forces));
}

/// The forces of every matrix file.
#[test]
fn matrix_files() {
    cases::each_file(225, |_, _, matrix: &Matrix| {
        let forces = matrix.rows().product(&vec![-999_999; matrix.n as usize]);
        assert_eq!(number(&forces), exact(&forces));
    });
}
