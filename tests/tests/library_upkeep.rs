//! `mzk_set_movement` and `mzk_set_entry` beside the other implementation, and what document 02 says of the kept list.

use mazhoketh_tests::guarded::Twin;
use mazhoketh_tests::lists::Altered;
use mazhoketh_tests::oracle::matrix::{Matrix, LARGEST_MOVEMENT};
use mazhoketh_tests::oracle::nets;
use mazhoketh_tests::oracle::prng::Prng;
use mazhoketh_tests::{both, cases};

/// The first n numbers of a list.
fn numbers<T, const W: usize>(list: &Twin, n: usize, number: fn([u8; W]) -> T) -> Vec<T> {
    let words = list.ours().as_chunks().0.iter();
    words.take(n).map(|&word| number(word)).collect()
}

#[test]
fn random_movements() {
    let seen = cases::each(141, 0..60_000, cases::upkeep::set_movement);
    seen.require([0, 5, 6, 20, 21, 22], 1_000);
}

#[test]
fn random_entries() {
    let seen = cases::each(142, 0..60_000, cases::upkeep::set_entry);
    seen.require([0, 5, 6, 20, 21, 22], 1_000);
}

/// "After any sequence of such changes it equals the full product of the present matrix and movements", and "a change
/// touches only the forces of the freedom and those joined to it, or of the entry's two freedoms".
fn change_all(rng: &mut Prng, matrix: &Matrix, changes: usize) {
    let n = matrix.n as usize;
    let mut matrix = matrix.clone();
    let [mut movements, mut forces] = cases::upkeep::kept(rng, &matrix);
    let mut lists = cases::matrix_twins(rng, &matrix);
    for _ in 0..changes {
        let was = numbers(&forces, n, i64::from_le_bytes);
        let mut touched = vec![false; n];
        let word = if rng.chance(50) {
            let freedom = rng.below(n) as u32;
            let value = cases::upkeep::number_about(rng, LARGEST_MOVEMENT);
            touched[freedom as usize] = true;
            for &other in matrix.rows().columns(freedom as usize) {
                touched[other as usize] = true;
            }
            both::set_movement(&lists, &mut movements, &mut forces, freedom, value)
        } else {
            let entry = cases::upkeep::entry_about(rng, &matrix);
            for freedom in [entry.row, entry.column] {
                if let Some(touched) = touched.get_mut(freedom as usize) {
                    *touched = true;
                }
            }
            both::set_entry(&mut lists, &movements, &mut forces, entry)
        };
        assert!([0, 21, 22].contains(&(word >> 32)), "{word:#x}");
        matrix.values = numbers(&lists.values, matrix.columns.len(), i32::from_le_bytes);
        let moved = numbers(&movements, n, i32::from_le_bytes);
        let is = numbers(&forces, n, i64::from_le_bytes);
        assert_eq!(is, matrix.rows().product(&moved));
        let untouched = (0..n).filter(|&freedom| !touched[freedom]);
        assert!(untouched
            .into_iter()
            .all(|freedom| is[freedom] == was[freedom]));
    }
}

#[test]
fn sequences() {
    cases::each(143, 0..3_000, |rng, _| {
        let matrix = nets::random_net(rng, 20);
        change_all(rng, &matrix, 12);
    });
}

#[test]
fn matrix_files() {
    cases::each_file(144, |rng, _, matrix| change_all(rng, matrix, 6));
}

/// From one end of every limit to the other: the largest force, its negative, and no sum past 64 bits on the way.
#[test]
fn largest_forces() {
    cases::each(145, 0..1, |rng, _| {
        let star = (0..4_096).map(|row| (row, 0, 1_000_000_000));
        let star = nets::of_triples(4_096, star);
        let mut lists = cases::matrix_twins(rng, &star);
        let mut movements = Twin::new(1_000_000i32.to_le_bytes().repeat(4_096));
        let forces = star.rows().product(&[1_000_000; 4_096]);
        let mut forces = Twin::new(
            forces
                .iter()
                .flat_map(|force| force.to_le_bytes())
                .collect(),
        );
        assert_eq!(
            numbers(&forces, 1, i64::from_le_bytes),
            [4_096_000_000_000_000_000]
        );
        for freedom in 0..4_096 {
            let word = both::set_movement(&lists, &mut movements, &mut forces, freedom, -1_000_000);
            assert_eq!(word, 0);
        }
        assert_eq!(
            numbers(&forces, 1, i64::from_le_bytes),
            [-4_096_000_000_000_000_000]
        );
        for column in (0..4_096).step_by(9) {
            let (row, value) = (0, -1_000_000_000);
            let entry = Altered { row, column, value };
            assert_eq!(
                both::set_entry(&mut lists, &movements, &mut forces, entry),
                0
            );
        }
    });
}

/// An absent diagonal is no entry, and neither is an absent pair; a stored 0 is one, from either half.
#[test]
fn entries_that_are_stored() {
    cases::each(146, 0..1, |rng, _| {
        let net = nets::of_triples(3, [(1, 0, 0), (1, 1, 4)].into_iter());
        let [movements, mut forces] = cases::upkeep::kept(rng, &net);
        let mut lists = cases::matrix_twins(rng, &net);
        let mut set = |row, column| {
            let entry = Altered {
                row,
                column,
                value: 7,
            };
            both::set_entry(&mut lists, &movements, &mut forces, entry)
        };
        assert_eq!([set(0, 1), set(1, 0), set(1, 1)], [0; 3]);
        for (row, column) in [
            (0, 0),
            (2, 2),
            (0, 2),
            (2, 0),
            (3, 0),
            (0, 3),
            (u32::MAX, 0),
        ] {
            assert_eq!(set(row, column), 21 << 32, "{row} {column}");
        }
    });
}
