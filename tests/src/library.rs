//! The verified library, called as C calls it (include/mazhoketh.h).
//!
//! Each function here is linked only where it is used, so that a test needs no more of the library than it tests.

use crate::lists::{Altered, CrewLists, MatrixLists, PatternLists, PlanLists, RunLists};
use crate::oracle::barrier::Write;

/// A list lent for reading, and one lent for writing; its length in bytes follows.
type In = *const u8;
type Out = *mut u8;

#[rustfmt::skip]
#[link(name = "mazhoketh", kind = "static")]
extern "C" {
    fn mzk_read(
        text: In, text_bytes: usize,
        row_starts: Out, row_starts_bytes: usize, columns: Out, columns_bytes: usize, values: Out, values_bytes: usize,
    ) -> u64;
    fn mzk_write(
        n: u32,
        row_starts: In, row_starts_bytes: usize, columns: In, columns_bytes: usize, values: In, values_bytes: usize,
        text: Out, text_bytes: usize,
    ) -> u64;
    fn mzk_product(
        n: u32,
        row_starts: In, row_starts_bytes: usize, columns: In, columns_bytes: usize, values: In, values_bytes: usize,
        movements: In, movements_bytes: usize, forces: Out, forces_bytes: usize,
    ) -> u64;
    fn mzk_survey(
        n: u32,
        row_starts: In, row_starts_bytes: usize, columns: In, columns_bytes: usize, values: In, values_bytes: usize,
        movements: In, movements_bytes: usize, t: u32, row: u32,
        amounts: Out, amounts_bytes: usize, shift: Out, shift_bytes: usize,
    ) -> u64;
    fn mzk_set_movement(
        n: u32,
        row_starts: In, row_starts_bytes: usize, columns: In, columns_bytes: usize, values: In, values_bytes: usize,
        movements: Out, movements_bytes: usize, forces: Out, forces_bytes: usize, row: u32, value: i32,
    ) -> u64;
    fn mzk_set_entry(
        n: u32,
        row_starts: In, row_starts_bytes: usize, columns: In, columns_bytes: usize, values: Out, values_bytes: usize,
        movements: In, movements_bytes: usize, forces: Out, forces_bytes: usize, row: u32, column: u32, value: i32,
    ) -> u64;
    fn mzk_join(
        n1: u32,
        row_starts1: In, row_starts1_bytes: usize, columns1: In, columns1_bytes: usize,
        values1: In, values1_bytes: usize,
        n2: u32,
        row_starts2: In, row_starts2_bytes: usize, columns2: In, columns2_bytes: usize,
        values2: In, values2_bytes: usize,
        places: In, places_bytes: usize, row_starts: Out, row_starts_bytes: usize,
        columns: Out, columns_bytes: usize, values: Out, values_bytes: usize,
    ) -> u64;
    fn mzk_plan(
        n: u32,
        row_starts: In, row_starts_bytes: usize, columns: In, columns_bytes: usize, values: In, values_bytes: usize,
        workers: u32, p: u32, k: u32, order: Out, order_bytes: usize, groups: Out, groups_bytes: usize,
    ) -> u64;
    fn mzk_check(
        n: u32,
        row_starts: In, row_starts_bytes: usize, columns: In, columns_bytes: usize, values: In, values_bytes: usize,
        order: In, order_bytes: usize, groups: In, groups_bytes: usize, group_count: u32, k: u32,
    ) -> u64;
    fn mzk_write_plan(
        n: u32, order: In, order_bytes: usize, groups: In, groups_bytes: usize, group_count: u32,
        file: Out, file_bytes: usize,
    ) -> u64;
    fn mzk_read_plan(
        file: In, file_bytes: usize, order: Out, order_bytes: usize, groups: Out, groups_bytes: usize,
    ) -> u64;
    fn mzk_barrier_write(unit: Out, unit_bytes: usize, address: u32, byte: u8) -> u64;
    fn mzk_barrier_read(unit: In, unit_bytes: usize, address: u32) -> u64;
    fn mzk_barrier_line(unit: In, unit_bytes: usize) -> u64;
    fn mzk_barrier_releases(unit: In, unit_bytes: usize) -> u64;
    fn mzk_numbers_read(text: In, text_bytes: usize, list: Out, list_bytes: usize) -> u64;
    fn mzk_numbers_write(list: In, list_bytes: usize, text: Out, text_bytes: usize) -> u64;
    fn mzk_control(forces: In, forces_bytes: usize) -> u64;
    fn mzk_picks(
        n: u32,
        row_starts: In, row_starts_bytes: usize, columns: In, columns_bytes: usize, values: In, values_bytes: usize,
        movements: In, movements_bytes: usize,
        order: In, order_bytes: usize, groups: In, groups_bytes: usize, group_count: u32,
        state: Out, state_bytes: usize, sums: Out, sums_bytes: usize, picks: In, picks_bytes: usize,
    ) -> u64;
    fn mzk_rounds(
        n: u32,
        row_starts: In, row_starts_bytes: usize, columns: In, columns_bytes: usize, values: In, values_bytes: usize,
        movements: In, movements_bytes: usize,
        order: In, order_bytes: usize, groups: In, groups_bytes: usize, group_count: u32,
        state: Out, state_bytes: usize, sums: Out, sums_bytes: usize, picks: In, picks_bytes: usize,
    ) -> u64;
    fn mzk_ready(
        n: u32,
        row_starts: In, row_starts_bytes: usize, columns: In, columns_bytes: usize, values: In, values_bytes: usize,
        movements: In, movements_bytes: usize,
        order: In, order_bytes: usize, groups: In, groups_bytes: usize, group_count: u32,
        state: In, state_bytes: usize, sums: In, sums_bytes: usize,
    ) -> u64;
    fn mzk_preview(
        n: u32,
        row_starts: In, row_starts_bytes: usize, columns: In, columns_bytes: usize, values: In, values_bytes: usize,
        movements: In, movements_bytes: usize,
        order: In, order_bytes: usize, groups: In, groups_bytes: usize, group_count: u32,
        state: In, state_bytes: usize, sums: In, sums_bytes: usize, picks: In, picks_bytes: usize,
    ) -> u64;
    fn mzk_forces(
        n: u32,
        row_starts: In, row_starts_bytes: usize, columns: In, columns_bytes: usize, values: In, values_bytes: usize,
        movements: In, movements_bytes: usize,
        order: In, order_bytes: usize, groups: In, groups_bytes: usize, group_count: u32,
        state: In, state_bytes: usize, sums: In, sums_bytes: usize, forces: Out, forces_bytes: usize,
    ) -> u64;
    fn mzk_prepare(
        n: u32,
        row_starts: In, row_starts_bytes: usize, columns: In, columns_bytes: usize, values: In, values_bytes: usize,
        movements: In, movements_bytes: usize,
        order: In, order_bytes: usize, groups: In, groups_bytes: usize, group_count: u32,
        prepared: Out, prepared_bytes: usize,
    ) -> u64;
    fn mzk_prepared_picks(
        prepared: In, prepared_bytes: usize,
        state: Out, state_bytes: usize, sums: Out, sums_bytes: usize, picks: In, picks_bytes: usize,
    ) -> u64;
    fn mzk_prepared_rounds(
        prepared: In, prepared_bytes: usize,
        state: Out, state_bytes: usize, sums: Out, sums_bytes: usize, picks: In, picks_bytes: usize,
    ) -> u64;
    fn mzk_prepared_ready(
        prepared: In, prepared_bytes: usize, state: In, state_bytes: usize, sums: In, sums_bytes: usize,
    ) -> u64;
    fn mzk_prepared_forces(
        prepared: In, prepared_bytes: usize,
        state: In, state_bytes: usize, sums: In, sums_bytes: usize, forces: Out, forces_bytes: usize,
    ) -> u64;
    fn mzk_picks_both(
        n: u32,
        row_starts: In, row_starts_bytes: usize, columns: In, columns_bytes: usize, values: In, values_bytes: usize,
        movements0: In, movements0_bytes: usize, movements1: In, movements1_bytes: usize,
        order: In, order_bytes: usize, groups: In, groups_bytes: usize, group_count: u32,
        state0: Out, state0_bytes: usize, sums0: Out, sums0_bytes: usize,
        state1: Out, state1_bytes: usize, sums1: Out, sums1_bytes: usize, picks: In, picks_bytes: usize,
    ) -> u64;
    fn mzk_ready_both(
        n: u32,
        row_starts: In, row_starts_bytes: usize, columns: In, columns_bytes: usize, values: In, values_bytes: usize,
        movements0: In, movements0_bytes: usize, movements1: In, movements1_bytes: usize,
        order: In, order_bytes: usize, groups: In, groups_bytes: usize, group_count: u32,
        state0: In, state0_bytes: usize, sums0: In, sums0_bytes: usize,
        state1: In, state1_bytes: usize, sums1: In, sums1_bytes: usize,
    ) -> u64;
}

/// A matrix text into row starts, columns and values; counts n.
#[rustfmt::skip]
pub fn read(text: &[u8], row_starts: &mut [u8], columns: &mut [u8], values: &mut [u8]) -> u64 {
    unsafe {
        mzk_read(
            text.as_ptr(), text.len(),
            row_starts.as_mut_ptr(), row_starts.len(),
            columns.as_mut_ptr(), columns.len(), values.as_mut_ptr(), values.len(),
        )
    }
}

/// The text of a matrix; counts the bytes written.
#[rustfmt::skip]
pub fn write(matrix: MatrixLists, text: &mut [u8]) -> u64 {
    let MatrixLists { n, row_starts, columns, values } = matrix;
    unsafe {
        mzk_write(
            n, row_starts.as_ptr(), row_starts.len(), columns.as_ptr(), columns.len(), values.as_ptr(), values.len(),
            text.as_mut_ptr(), text.len(),
        )
    }
}

/// The product of a matrix and movements on one core.
#[rustfmt::skip]
pub fn product(matrix: MatrixLists, movements: &[u8], forces: &mut [u8]) -> u64 {
    let MatrixLists { n, row_starts, columns, values } = matrix;
    unsafe {
        mzk_product(
            n, row_starts.as_ptr(), row_starts.len(), columns.as_ptr(), columns.len(), values.as_ptr(), values.len(),
            movements.as_ptr(), movements.len(), forces.as_mut_ptr(), forces.len(),
        )
    }
}

/// How far an error of t reaches, and a shift that reaches one row's amount; counts the shifts written.
#[rustfmt::skip]
pub fn survey(matrix: MatrixLists, movements: &[u8], t: u32, row: u32, amounts: &mut [u8], shift: &mut [u8]) -> u64 {
    let MatrixLists { n, row_starts, columns, values } = matrix;
    unsafe {
        mzk_survey(
            n, row_starts.as_ptr(), row_starts.len(), columns.as_ptr(), columns.len(), values.as_ptr(), values.len(),
            movements.as_ptr(), movements.len(), t, row,
            amounts.as_mut_ptr(), amounts.len(), shift.as_mut_ptr(), shift.len(),
        )
    }
}

/// A new movement for one row of a kept force list.
#[rustfmt::skip]
pub fn set_movement(matrix: MatrixLists, movements: &mut [u8], forces: &mut [u8], row: u32, value: i32) -> u64 {
    let MatrixLists { n, row_starts, columns, values } = matrix;
    unsafe {
        mzk_set_movement(
            n, row_starts.as_ptr(), row_starts.len(), columns.as_ptr(), columns.len(), values.as_ptr(), values.len(),
            movements.as_mut_ptr(), movements.len(), forces.as_mut_ptr(), forces.len(), row, value,
        )
    }
}

/// A new value for an entry and its mirror, of a kept force list.
#[rustfmt::skip]
pub fn set_entry(pattern: PatternLists, values: &mut [u8], movements: &[u8], forces: &mut [u8], entry: Altered) -> u64 {
    let PatternLists { n, row_starts, columns } = pattern;
    unsafe {
        mzk_set_entry(
            n, row_starts.as_ptr(), row_starts.len(), columns.as_ptr(), columns.len(),
            values.as_mut_ptr(), values.len(), movements.as_ptr(), movements.len(),
            forces.as_mut_ptr(), forces.len(), entry.row, entry.column, entry.value,
        )
    }
}

/// Two nets sewn together; counts the joined net's rows.
#[rustfmt::skip]
pub fn join(
    first: MatrixLists, second: MatrixLists, places: &[u8],
    row_starts: &mut [u8], columns: &mut [u8], values: &mut [u8],
) -> u64 {
    unsafe {
        mzk_join(
            first.n, first.row_starts.as_ptr(), first.row_starts.len(),
            first.columns.as_ptr(), first.columns.len(), first.values.as_ptr(), first.values.len(),
            second.n, second.row_starts.as_ptr(), second.row_starts.len(),
            second.columns.as_ptr(), second.columns.len(), second.values.as_ptr(), second.values.len(),
            places.as_ptr(), places.len(), row_starts.as_mut_ptr(), row_starts.len(),
            columns.as_mut_ptr(), columns.len(), values.as_mut_ptr(), values.len(),
        )
    }
}

/// The plan of a matrix at the distance k; counts its groups.
#[rustfmt::skip]
pub fn plan(matrix: MatrixLists, workers: u32, p: u32, k: u32, order: &mut [u8], groups: &mut [u8]) -> u64 {
    let MatrixLists { n, row_starts, columns, values } = matrix;
    unsafe {
        mzk_plan(
            n, row_starts.as_ptr(), row_starts.len(), columns.as_ptr(), columns.len(), values.as_ptr(), values.len(),
            workers, p, k, order.as_mut_ptr(), order.len(), groups.as_mut_ptr(), groups.len(),
        )
    }
}

/// The check of a plan at the distance k.
#[rustfmt::skip]
pub fn check(matrix: MatrixLists, plan: PlanLists, k: u32) -> u64 {
    let MatrixLists { n, row_starts, columns, values } = matrix;
    let PlanLists { order, groups, group_count } = plan;
    unsafe {
        mzk_check(
            n, row_starts.as_ptr(), row_starts.len(), columns.as_ptr(), columns.len(), values.as_ptr(), values.len(),
            order.as_ptr(), order.len(), groups.as_ptr(), groups.len(), group_count, k,
        )
    }
}

/// The file of a plan; counts the bytes written.
#[rustfmt::skip]
pub fn write_plan(n: u32, plan: PlanLists, file: &mut [u8]) -> u64 {
    let PlanLists { order, groups, group_count } = plan;
    unsafe {
        mzk_write_plan(
            n, order.as_ptr(), order.len(), groups.as_ptr(), groups.len(), group_count,
            file.as_mut_ptr(), file.len(),
        )
    }
}

/// The plan in a file; counts its rows, and its groups × 65,536.
#[rustfmt::skip]
pub fn read_plan(file: &[u8], order: &mut [u8], groups: &mut [u8]) -> u64 {
    unsafe {
        mzk_read_plan(
            file.as_ptr(), file.len(), order.as_mut_ptr(), order.len(), groups.as_mut_ptr(), groups.len(),
        )
    }
}

/// A byte written to a register of a barrier unit.
pub fn barrier_write(unit: &mut [u8], (address, byte): Write) -> u64 {
    unsafe { mzk_barrier_write(unit.as_mut_ptr(), unit.len(), address, byte) }
}

/// A register of a barrier unit; counts its byte.
pub fn barrier_read(unit: &[u8], address: u32) -> u64 {
    unsafe { mzk_barrier_read(unit.as_ptr(), unit.len(), address) }
}

/// The interrupt line of a barrier unit: 1 while it is up.
pub fn barrier_line(unit: &[u8]) -> u64 {
    unsafe { mzk_barrier_line(unit.as_ptr(), unit.len()) }
}

/// The releases of a barrier unit.
pub fn barrier_releases(unit: &[u8]) -> u64 {
    unsafe { mzk_barrier_releases(unit.as_ptr(), unit.len()) }
}

/// The list of a text of numbers; counts them.
pub fn numbers_read(text: &[u8], list: &mut [u8]) -> u64 {
    unsafe { mzk_numbers_read(text.as_ptr(), text.len(), list.as_mut_ptr(), list.len()) }
}

/// The text of a list of numbers; counts its bytes.
pub fn numbers_write(list: &[u8], text: &mut [u8]) -> u64 {
    unsafe { mzk_numbers_write(list.as_ptr(), list.len(), text.as_mut_ptr(), text.len()) }
}

/// The control number of a list of forces.
pub fn control(forces: &[u8]) -> u64 {
    unsafe { mzk_control(forces.as_ptr(), forces.len()) }
}

/// Picks of a run; counts those taken.
#[rustfmt::skip]
pub fn picks(run: RunLists, state: &mut [u8], sums: &mut [u8], picks: &[u8]) -> u64 {
    let RunLists { matrix: MatrixLists { n, row_starts, columns, values }, movements, plan } = run;
    let PlanLists { order, groups, group_count } = plan;
    unsafe {
        mzk_picks(
            n, row_starts.as_ptr(), row_starts.len(), columns.as_ptr(), columns.len(), values.as_ptr(), values.len(),
            movements.as_ptr(), movements.len(),
            order.as_ptr(), order.len(), groups.as_ptr(), groups.len(), group_count,
            state.as_mut_ptr(), state.len(), sums.as_mut_ptr(), sums.len(), picks.as_ptr(), picks.len(),
        )
    }
}

/// Picks of a run, of which those are passed over whose workers cannot move; the word also has the moves made × 2^40.
#[rustfmt::skip]
pub fn rounds(run: RunLists, state: &mut [u8], sums: &mut [u8], picks: &[u8]) -> u64 {
    let RunLists { matrix: MatrixLists { n, row_starts, columns, values }, movements, plan } = run;
    let PlanLists { order, groups, group_count } = plan;
    unsafe {
        mzk_rounds(
            n, row_starts.as_ptr(), row_starts.len(), columns.as_ptr(), columns.len(), values.as_ptr(), values.len(),
            movements.as_ptr(), movements.len(),
            order.as_ptr(), order.len(), groups.as_ptr(), groups.len(), group_count,
            state.as_mut_ptr(), state.len(), sums.as_mut_ptr(), sums.len(), picks.as_ptr(), picks.len(),
        )
    }
}

/// The ready set of a run: sixteen bits, plus the count × 65,536.
#[rustfmt::skip]
pub fn ready(run: RunLists, state: &[u8], sums: &[u8]) -> u64 {
    let RunLists { matrix: MatrixLists { n, row_starts, columns, values }, movements, plan } = run;
    let PlanLists { order, groups, group_count } = plan;
    unsafe {
        mzk_ready(
            n, row_starts.as_ptr(), row_starts.len(), columns.as_ptr(), columns.len(), values.as_ptr(), values.len(),
            movements.as_ptr(), movements.len(),
            order.as_ptr(), order.len(), groups.as_ptr(), groups.len(), group_count,
            state.as_ptr(), state.len(), sums.as_ptr(), sums.len(),
        )
    }
}

/// What picks would do: their answer word, plus the count of those ready afterwards × 2^40, plus their set × 2^48.
#[rustfmt::skip]
pub fn preview(run: RunLists, state: &[u8], sums: &[u8], picks: &[u8]) -> u64 {
    let RunLists { matrix: MatrixLists { n, row_starts, columns, values }, movements, plan } = run;
    let PlanLists { order, groups, group_count } = plan;
    unsafe {
        mzk_preview(
            n, row_starts.as_ptr(), row_starts.len(), columns.as_ptr(), columns.len(), values.as_ptr(), values.len(),
            movements.as_ptr(), movements.len(),
            order.as_ptr(), order.len(), groups.as_ptr(), groups.len(), group_count,
            state.as_ptr(), state.len(), sums.as_ptr(), sums.len(), picks.as_ptr(), picks.len(),
        )
    }
}

/// The force list of a finished run.
#[rustfmt::skip]
pub fn forces(run: RunLists, state: &[u8], sums: &[u8], forces: &mut [u8]) -> u64 {
    let RunLists { matrix: MatrixLists { n, row_starts, columns, values }, movements, plan } = run;
    let PlanLists { order, groups, group_count } = plan;
    unsafe {
        mzk_forces(
            n, row_starts.as_ptr(), row_starts.len(), columns.as_ptr(), columns.len(), values.as_ptr(), values.len(),
            movements.as_ptr(), movements.len(),
            order.as_ptr(), order.len(), groups.as_ptr(), groups.len(), group_count,
            state.as_ptr(), state.len(), sums.as_ptr(), sums.len(), forces.as_mut_ptr(), forces.len(),
        )
    }
}

/// The prepared list of a run; counts the bytes written.
#[rustfmt::skip]
pub fn prepare(run: RunLists, list: &mut [u8]) -> u64 {
    let RunLists { matrix: MatrixLists { n, row_starts, columns, values }, movements, plan } = run;
    let PlanLists { order, groups, group_count } = plan;
    unsafe {
        mzk_prepare(
            n, row_starts.as_ptr(), row_starts.len(), columns.as_ptr(), columns.len(), values.as_ptr(), values.len(),
            movements.as_ptr(), movements.len(),
            order.as_ptr(), order.len(), groups.as_ptr(), groups.len(), group_count,
            list.as_mut_ptr(), list.len(),
        )
    }
}

/// Picks of a prepared run; counts those taken.
#[rustfmt::skip]
pub fn prepared_picks(list: &[u8], state: &mut [u8], sums: &mut [u8], picks: &[u8]) -> u64 {
    unsafe {
        mzk_prepared_picks(
            list.as_ptr(), list.len(), state.as_mut_ptr(), state.len(), sums.as_mut_ptr(), sums.len(),
            picks.as_ptr(), picks.len(),
        )
    }
}

/// Picks of a prepared run, of which those are passed over whose workers cannot move; the word also has the moves made
/// × 2^40.
#[rustfmt::skip]
pub fn prepared_rounds(list: &[u8], state: &mut [u8], sums: &mut [u8], picks: &[u8]) -> u64 {
    unsafe {
        mzk_prepared_rounds(
            list.as_ptr(), list.len(), state.as_mut_ptr(), state.len(), sums.as_mut_ptr(), sums.len(),
            picks.as_ptr(), picks.len(),
        )
    }
}

/// The ready set of a prepared run: sixteen bits, plus the count × 65,536.
#[rustfmt::skip]
pub fn prepared_ready(list: &[u8], state: &[u8], sums: &[u8]) -> u64 {
    unsafe {
        mzk_prepared_ready(
            list.as_ptr(), list.len(), state.as_ptr(), state.len(), sums.as_ptr(), sums.len(),
        )
    }
}

/// The force list of a finished prepared run.
#[rustfmt::skip]
pub fn prepared_forces(list: &[u8], state: &[u8], sums: &[u8], forces: &mut [u8]) -> u64 {
    unsafe {
        mzk_prepared_forces(
            list.as_ptr(), list.len(), state.as_ptr(), state.len(), sums.as_ptr(), sums.len(),
            forces.as_mut_ptr(), forces.len(),
        )
    }
}

/// Picks of two crews; counts those taken.
#[rustfmt::skip]
pub fn picks_both(lists: CrewLists, states: [&mut [u8]; 2], sums: [&mut [u8]; 2], picks: &[u8]) -> u64 {
    let CrewLists { run: RunLists { matrix, movements: movements0, plan }, movements1 } = lists;
    let MatrixLists { n, row_starts, columns, values } = matrix;
    let PlanLists { order, groups, group_count } = plan;
    let ([state0, state1], [sums0, sums1]) = (states, sums);
    unsafe {
        mzk_picks_both(
            n, row_starts.as_ptr(), row_starts.len(), columns.as_ptr(), columns.len(), values.as_ptr(), values.len(),
            movements0.as_ptr(), movements0.len(), movements1.as_ptr(), movements1.len(),
            order.as_ptr(), order.len(), groups.as_ptr(), groups.len(), group_count,
            state0.as_mut_ptr(), state0.len(), sums0.as_mut_ptr(), sums0.len(),
            state1.as_mut_ptr(), state1.len(), sums1.as_mut_ptr(), sums1.len(), picks.as_ptr(), picks.len(),
        )
    }
}

/// The ready sets of two crews: sixteen bits of each in the low half, their counts in bits 40 to 47 and 48 to 55.
#[rustfmt::skip]
pub fn ready_both(lists: CrewLists, states: [&[u8]; 2], sums: [&[u8]; 2]) -> u64 {
    let CrewLists { run: RunLists { matrix, movements: movements0, plan }, movements1 } = lists;
    let MatrixLists { n, row_starts, columns, values } = matrix;
    let PlanLists { order, groups, group_count } = plan;
    let ([state0, state1], [sums0, sums1]) = (states, sums);
    unsafe {
        mzk_ready_both(
            n, row_starts.as_ptr(), row_starts.len(), columns.as_ptr(), columns.len(), values.as_ptr(), values.len(),
            movements0.as_ptr(), movements0.len(), movements1.as_ptr(), movements1.len(),
            order.as_ptr(), order.len(), groups.as_ptr(), groups.len(), group_count,
            state0.as_ptr(), state0.len(), sums0.as_ptr(), sums0.len(),
            state1.as_ptr(), state1.len(), sums1.as_ptr(), sums1.len(),
        )
    }
}
