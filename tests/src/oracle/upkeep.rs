//! Forces kept current while joints creep, document 02's request Q-10.

use super::matrix::{Rows, LARGEST_MOVEMENT, LARGEST_VALUE};
use super::Refusal;
use crate::lists::Altered;

/// "20: the list lent is not n long or isn't the product of what came with it".
pub fn judge(rows: Rows, movements: &[i32], forces: &[i64]) -> Result<(), Refusal> {
    if rows.product(movements) == forces {
        return Ok(());
    }
    Err(Refusal::at(20, 0))
}

/// "22: new movement or value beyond its limit".
fn judge_size(value: i32, largest: u32) -> Result<(), Refusal> {
    if value.unsigned_abs() <= largest {
        return Ok(());
    }
    Err(Refusal::at(22, 0))
}

/// "takes a new movement for one freedom": the forces of the freedom and of those joined to it change.
pub fn set_movement(
    rows: Rows,
    movements: &mut [i32],
    forces: &mut [i64],
    freedom: u32,
    value: i32,
) -> Result<(), Refusal> {
    let freedom = freedom as usize;
    if freedom >= rows.n {
        return Err(Refusal::at(21, 0));
    }
    judge_size(value, LARGEST_MOVEMENT)?;
    let step = i64::from(value) - i64::from(movements[freedom]);
    for (other, stiffness) in rows.entries(freedom) {
        forces[other] += i64::from(stiffness) * step;
    }
    movements[freedom] = value;
    Ok(())
}

/// Where an entry is stored, and its value; "21: no such entry or freedom".
fn find(rows: Rows, row: usize, column: usize) -> Result<(usize, i32), Refusal> {
    let missing = Refusal::at(21, 0);
    if row >= rows.n {
        return Err(missing);
    }
    let places = (rows.span(row).0..).zip(rows.entries(row));
    let mut found = places.filter(|&(_, (other, _))| other == column);
    found
        .next()
        .map(|(place, (_, value))| (place, value))
        .ok_or(missing)
}

/// "or a new value for a stored entry and its mirror": where the two stand among the values. The forces of "the entry's
/// two freedoms" change, on the diagonal one.
pub fn set_entry(
    rows: Rows,
    movements: &[i32],
    forces: &mut [i64],
    entry: Altered,
) -> Result<[usize; 2], Refusal> {
    let (row, column) = (entry.row as usize, entry.column as usize);
    let (place, was) = find(rows, row, column)?;
    judge_size(entry.value, LARGEST_VALUE)?;
    let (mirror, _) = find(rows, column, row)?;
    let step = i64::from(entry.value) - i64::from(was);
    forces[row] += step * i64::from(movements[column]);
    if row != column {
        forces[column] += step * i64::from(movements[row]);
    }
    Ok([place, mirror])
}
