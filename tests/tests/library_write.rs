//! `mzk_write` beside the other implementation.

use mazhoketh_tests::guarded::Twin;
use mazhoketh_tests::oracle::matrix::{Matrix, MOST_ENTRIES};
use mazhoketh_tests::oracle::prng::Prng;
use mazhoketh_tests::oracle::{nets, text};
use mazhoketh_tests::{both, cases};

/// Writes a matrix into texts of the length needed and one shorter, and reads what is written.
fn write_and_read(rng: &mut Prng, matrix: &Matrix) {
    let needed = text::write(matrix).len();
    let lists = cases::matrix_twins(rng, matrix);
    let mut short = Twin::blank(needed - 1);
    assert_eq!(both::write(&lists, &mut short), 9 << 32 | needed as u64);
    let mut written = Twin::blank(needed);
    assert_eq!(both::write(&lists, &mut written), needed as u64);
    assert_eq!(text::read(written.ours()).as_ref(), Ok(matrix));
}

#[test]
fn random_nets() {
    let seen = cases::each(111, 0..100_000, cases::matrix::write);
    seen.require([0, 5, 9], 1_000);
}

#[test]
fn matrix_files() {
    cases::each_file(112, |rng, _, matrix| write_and_read(rng, matrix));
}

#[test]
fn largest_matrices() {
    cases::each(113, 0..1, |rng, _| {
        write_and_read(rng, &nets::filled_band(4_096, MOST_ENTRIES));
        for entries in [MOST_ENTRIES + 1, usize::MAX] {
            let over = nets::filled_band(4_096, entries);
            let over = cases::matrix_twins(rng, &over);
            assert_eq!(both::write(&over, &mut Twin::blank(1 << 20)), 5 << 32);
        }
    });
}
