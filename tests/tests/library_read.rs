//! `mzk_read` beside the other implementation.

use mazhoketh_tests::guarded::Twin;
use mazhoketh_tests::oracle::matrix::{Matrix, MOST_ENTRIES};
use mazhoketh_tests::oracle::nets;
use mazhoketh_tests::oracle::text::{self, LINE_1, LONGEST};
use mazhoketh_tests::{both, cases};

/// Reads a text into lists that have room for so many numbers.
fn read(text: &[u8], lengths: [usize; 3]) -> u64 {
    let mut lists = lengths.map(|length| Twin::blank(4 * length));
    both::read(&Twin::new(text.to_vec()), &mut lists)
}

/// The lengths of a matrix's lists.
fn lengths(matrix: &Matrix) -> [usize; 3] {
    let stored = matrix.columns.len();
    [matrix.starts.len(), stored, stored]
}

#[test]
fn random_texts() {
    let seen = cases::each(101, 0..120_000, cases::matrix::read);
    seen.require([0, 1, 2, 3, 4, 9], 1_000);
}

#[test]
fn matrix_files() {
    cases::each_file(102, |_, text, matrix| {
        let needed = lengths(matrix);
        assert_eq!(read(text, needed), u64::from(matrix.n));
        for list in 0..3 {
            let mut lent = needed;
            lent[list] -= 1;
            assert_eq!(read(text, lent), 9 << 32 | needed[list] as u64);
        }
    });
}

#[test]
fn largest_matrices() {
    let refused = 3 << 32 | 2;
    let sizes = [
        (4_096, MOST_ENTRIES, 4_096),
        (4_096, MOST_ENTRIES + 1, refused),
        (4_097, MOST_ENTRIES, refused),
    ];
    cases::each(103, 0..1, |_, _| {
        for (n, entries, word) in sizes {
            let matrix = nets::filled_band(n, entries);
            assert_eq!(read(&text::write(&matrix), lengths(&matrix)), word);
        }
    });
}

/// Texts made as long as can be, and one byte longer, by a `%` line.
#[test]
fn longest_texts() {
    let (before, after) = ([LINE_1, b"%"].concat(), b"\n1 1 0\n");
    cases::each(104, 0..1, |_, _| {
        for (length, word) in [(LONGEST, 1), (LONGEST + 1, 2 << 32)] {
            let remark = vec![b'x'; length - before.len() - after.len()];
            let text = [&before[..], &remark, after].concat();
            assert_eq!(read(&text, [2, 0, 0]), word);
        }
    });
}

/// Every byte at every place of a text: before what stands there, instead of it, and as the last one.
#[test]
fn every_byte() {
    let text = [LINE_1, b"% -1\n12 12 2\n3 1 40\n12  2 -7\n"].concat();
    let seen = cases::numbered(105, 0..256, |byte, _, seen| {
        for at in 0..=text.len() {
            let (before, after) = text.split_at(at);
            let last = [before, &[byte as u8]].concat();
            let put_in = [&last, after].concat();
            let instead = [&last, after.get(1..).unwrap_or_default()].concat();
            for text in [last, put_in, instead] {
                seen.note(read(&text, [13, 4, 4]));
            }
        }
    });
    seen.require([0, 1, 2, 3, 4], 1);
}
