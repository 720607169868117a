//! `mzk_join` beside the other implementation, and what document 02 says of the joined net.

use mazhoketh_tests::guarded::Twin;
use mazhoketh_tests::lists::bytes;
use mazhoketh_tests::oracle::matrix::Matrix;
use mazhoketh_tests::oracle::nets;
use mazhoketh_tests::oracle::prng::Prng;
use mazhoketh_tests::{both, cases};

/// The numbers of a list.
fn numbers<T>(list: &Twin, number: fn([u8; 4]) -> T) -> Vec<T> {
    let words = list.ours().as_chunks().0.iter();
    words.map(|&word| number(word)).collect()
}

/// Sews two nets together into lists of the largest size; the answer word, and the joined net if it is accepted.
fn sew(rng: &mut Prng, first: &Matrix, second: &Matrix, places: &[u32]) -> (u64, Matrix) {
    let lists = [first, second].map(|matrix| cases::matrix_twins(rng, matrix));
    let places = cases::with_stray(rng, places, u32::to_le_bytes);
    let mut written = [4_097, 65_536, 65_536].map(|most| Twin::blank(4 * most));
    let word = both::join(&lists[0], &lists[1], &places, &mut written);
    let mut joined = Matrix {
        n: word as u32,
        starts: numbers(&written[0], u32::from_le_bytes),
        columns: numbers(&written[1], u32::from_le_bytes),
        values: numbers(&written[2], i32::from_le_bytes),
    };
    if word >> 32 == 0 {
        joined.starts.truncate(joined.n as usize + 1);
        let stored = joined.starts[joined.n as usize] as usize;
        joined.columns.truncate(stored);
        joined.values.truncate(stored);
    }
    (word, joined)
}

/// A net of so many rows that stores every entry, as 1.
fn full(rows: u32) -> Matrix {
    let pairs = (0..rows).flat_map(|row| (0..=row).map(move |column| (row, column, 1)));
    nets::of_triples(rows, pairs)
}

#[test]
fn random_nets() {
    let seen = cases::each(151, 0..60_000, cases::join::join);
    seen.require([0, 5, 9, 23, 24], 1_000);
}

/// "The joined net's forces are the first net's forces plus the second's moved to their places, for all movements of
/// the joined net."
#[test]
fn forces() {
    cases::each(152, 0..10_000, |rng, _| {
        let (first, second) = (nets::random_net(rng, 20), nets::random_net(rng, 20));
        let places = cases::join::random_places(rng, first.n, second.n);
        let (word, joined) = sew(rng, &first, &second, &places);
        if word >> 32 != 0 {
            assert_eq!(word, 24 << 32);
            return;
        }
        let movements = nets::random_movements(rng, joined.n);
        let mut sums = first.rows().product(&movements[..first.n as usize]);
        sums.resize(joined.n as usize, 0);
        let moved: Vec<i32> = places
            .iter()
            .map(|&place| movements[place as usize])
            .collect();
        for (&place, force) in places.iter().zip(second.rows().product(&moved)) {
            sums[place as usize] += force;
        }
        assert_eq!(joined.rows().product(&movements), sums);
    });
}

/// A net sewn onto itself: with its negative all sums cancel, and "stay as zeros".
#[test]
fn matrix_files() {
    cases::each_file(153, |rng, _, matrix| {
        let mut negative = matrix.clone();
        negative
            .values
            .iter_mut()
            .for_each(|value| *value = -*value);
        let places: Vec<u32> = (0..matrix.n).collect();
        let (word, joined) = sew(rng, matrix, &negative, &places);
        assert_eq!(word, matrix.n.into());
        let zeros = vec![0; matrix.values.len()];
        assert_eq!(
            joined,
            Matrix {
                values: zeros,
                ..matrix.clone()
            }
        );
    });
}

/// Rows, entries and values at their limits, and one past them; the order of 23 and 24.
#[test]
fn limits() {
    cases::each(154, 0..1, |rng, _| {
        let (chain, one) = (nets::chain(4_095), nets::chain(1));
        assert_eq!(sew(rng, &chain, &one, &[4_095]).0, 4_096);
        assert_eq!(sew(rng, &nets::chain(4_096), &one, &[4_096]).0, 24 << 32);
        assert_eq!(sew(rng, &nets::chain(4_096), &one, &[4_097]).0, 23 << 32);
        let loose = nets::unjoined(4_096);
        let far: Vec<u32> = (4_096..8_192).collect();
        assert_eq!(sew(rng, &loose, &loose, &far).0, 24 << 32);
        let value = |value| nets::of_triples(1, [(0, 0, value)].into_iter());
        let (half, more) = (value(500_000_000), value(500_000_001));
        assert_eq!(sew(rng, &half, &half, &[0]).0, 1);
        assert_eq!(sew(rng, &half, &more, &[0]).0, 24 << 32);
        let (full, rest) = (full(255), nets::unjoined(128));
        let places: Vec<u32> = (255..383).collect();
        assert_eq!(sew(rng, &full, &rest, &places).0, 383);
        let more: Vec<u32> = (255..384).collect();
        assert_eq!(sew(rng, &full, &nets::unjoined(129), &more).0, 24 << 32);
    });
}

/// Nets of 127², 128² and 129² entries, on each other and side by side.
#[test]
fn sizes() {
    cases::each(156, 0..1, |rng, _| {
        for rows in 127..130 {
            let net = full(rows);
            for shift in [0, 1, rows / 2, rows] {
                let places: Vec<u32> = (shift..shift + rows).collect();
                let (word, joined) = sew(rng, &net, &net, &places);
                assert_eq!(word, (rows + shift).into());
                let shared = (rows - shift) * (rows - shift);
                assert_eq!(joined.columns.len() as u32, 2 * rows * rows - shared);
            }
        }
    });
}

/// The example of a row shared by two nets, with places out of order.
#[test]
fn shared_row() {
    cases::each(155, 0..1, |rng, _| {
        let first = nets::of_triples(2, [(0, 0, 3), (1, 0, -1), (1, 1, 1)].into_iter());
        let second = nets::of_triples(2, [(0, 0, 5), (1, 0, 7)].into_iter());
        let (word, joined) = sew(rng, &first, &second, &[2, 1]);
        assert_eq!(word, 3);
        let entries = [(0, 0, 3), (1, 0, -1), (1, 1, 1), (2, 1, 7), (2, 2, 5)];
        assert_eq!(joined, nets::of_triples(3, entries.into_iter()));
        let bytes = bytes(&joined.starts, u32::to_le_bytes);
        assert_eq!(bytes.len(), 16);
    });
}
