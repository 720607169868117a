//! `mzk_write_plan` and `mzk_read_plan` beside the other implementation.

use mazhoketh_tests::both::PlanTwins;
use mazhoketh_tests::guarded::Twin;
use mazhoketh_tests::oracle::{nets, plan_file, planner, FIELDS};
use mazhoketh_tests::{both, cases};

#[test]
fn written() {
    let seen = cases::each(191, 0..40_000, cases::plan_file::write);
    seen.require([0, 8, 9, 16], 1_000);
}

#[test]
fn read() {
    let seen = cases::each(192, 0..60_000, cases::plan_file::read);
    seen.require([0, 9, 16], 1_000);
}

/// Every byte of a file: each value in the table's bytes but the right one breaks it, and none in the bodies does.
#[test]
fn every_byte() {
    let (order, groups) = (vec![2, 0, 1], vec![7; 2 * FIELDS]);
    let file = plan_file::write(&order, &groups);
    let accepted = 3 + (2 << 16);
    for at in 0..file.len() {
        for value in 0..=255 {
            let mut damaged = file.clone();
            damaged[at] = value;
            let mut lists = [Twin::blank(12), Twin::blank(8 * FIELDS)];
            let word = both::read_plan(&Twin::new(damaged), &mut lists);
            let whole = at >= 28 || value == file[at];
            assert_eq!(word, if whole { accepted } else { 16 << 32 });
        }
    }
}

/// The numbers of a file in bytes.
fn bytes_of(numbers: &[u32]) -> Vec<u8> {
    let bytes = numbers.iter().map(|number| number.to_le_bytes());
    bytes.flatten().collect()
}

/// The file of the chain's plan, number by number.
#[test]
fn chain_of_eight() {
    let numbers = [
        &[2, 1, 28, 32, 3, 60, 140][..],
        &[0, 1, 2, 3, 4, 5, 6, 7],
        &[0, 8, 0, 2, 0, 0, 0],
        &[0, 2, 0, 1, 1, 0, 1],
        &[2, 2, 0, 1, 2, 0, 1],
        &[4, 2, 1, 1, 1, 0, 1],
        &[6, 2, 1, 1, 2, 0, 1],
    ];
    let expected = bytes_of(&numbers.concat());
    let plan = PlanTwins {
        order: Twin::new(expected[28..60].to_vec()),
        groups: Twin::new(expected[60..].to_vec()),
        group_count: 5,
    };
    let mut file = Twin::blank(200);
    assert_eq!(both::write_plan(8, &plan, &mut file), 200);
    assert_eq!(file.theirs, expected);
    let made = planner::plan(nets::chain(8).rows(), 2, 60);
    assert_eq!(plan_file::write(&made.order, &made.flat()), expected);
}

/// "kind 2 now breaks the layout": of groups without depths, as files were, and of groups with them.
#[test]
fn groups_of_kind_2() {
    for width in [6, 7] {
        let table = [2, 1, 28, 4, 2, 32, 4 * width];
        let bodies = vec![0; 1 + width as usize];
        let file = bytes_of(&[&table[..], &bodies].concat());
        let mut lists = [Twin::blank(4), Twin::blank(4 * FIELDS)];
        assert_eq!(both::read_plan(&Twin::new(file), &mut lists), 16 << 32);
    }
}

/// A file cut anywhere, and one with more bytes.
#[test]
fn every_length() {
    let file = plan_file::write(&[1, 0], &[3; FIELDS]);
    for length in 0..file.len() + 60 {
        let mut cut = file.clone();
        cut.resize(length, 0);
        let mut lists = [Twin::blank(8), Twin::blank(4 * FIELDS)];
        let word = both::read_plan(&Twin::new(cut), &mut lists);
        let whole = length == file.len();
        assert_eq!(word, if whole { 2 + (1 << 16) } else { 16 << 32 });
    }
}

/// The planner's plans of every matrix file, written and read into lists of just the lengths needed.
#[test]
fn matrix_files() {
    cases::each_file(193, |rng, _, matrix| {
        for workers in [2, 5, 16] {
            let plan = planner::plan(matrix.rows(), workers, 60);
            let lists = cases::plan::plan_twins(rng, &plan, 0);
            let size = 28 + 4 * plan.order.len() + 4 * FIELDS * plan.groups.len();
            let mut file = Twin::blank(size);
            assert_eq!(both::write_plan(matrix.n, &lists, &mut file), size as u64);
            let mut read = [
                Twin::blank(4 * plan.order.len()),
                Twin::blank(4 * FIELDS * plan.groups.len()),
            ];
            let counts = u64::from(matrix.n) + (u64::from(plan.group_count()) << 16);
            assert_eq!(both::read_plan(&file, &mut read), counts);
        }
    });
}
