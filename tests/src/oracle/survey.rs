//! How far a survey error reaches, document 02's request Q-6.

use super::matrix::{Rows, LARGEST_MOVEMENT};
use super::Refusal;

/// "t from 0 to 1,000,000", in µm.
pub const LARGEST_ERROR: u32 = 1_000_000;

/// "17: t outside its limits or no such freedom".
pub fn judge(n: usize, t: u32, freedom: u32) -> Result<(), Refusal> {
    if t > LARGEST_ERROR || freedom as usize >= n {
        return Err(Refusal::at(17, 0));
    }
    Ok(())
}

/// For each freedom "t times the sum of the row's stiffnesses taken without sign".
pub fn amounts(rows: Rows, t: u32) -> Vec<i64> {
    let amount = |row| {
        let sizes = rows.entries(row).map(|(_, value)| i64::from(value).abs());
        i64::from(t) * sizes.sum::<i64>()
    };
    (0..rows.n).map(amount).collect()
}

/// Whether "every surveyed movement, without sign, plus t is at most 1,000,000".
pub fn has_room(movements: &[i32], t: u32) -> bool {
    let largest = movements.iter().map(|movement| movement.unsigned_abs());
    largest.max().unwrap_or(0) + t <= LARGEST_MOVEMENT
}

/// "t with the sign of that row's stiffness, 0 where it is 0 or absent".
pub fn shift(rows: Rows, t: u32, freedom: u32) -> Vec<i32> {
    let mut shift = vec![0; rows.n];
    for (other, value) in rows.entries(freedom as usize) {
        shift[other] = value.signum() * t as i32;
    }
    shift
}

/// Whether a shift "changes each movement by at most t and leaves it inside its limit".
pub fn is_allowed(movements: &[i32], t: u32, shift: &[i32]) -> bool {
    let pairs = movements.iter().zip(shift);
    let inside = |(movement, change): (&i32, &i32)| {
        change.unsigned_abs() <= t && (movement + change).unsigned_abs() <= LARGEST_MOVEMENT
    };
    movements.len() == shift.len() && pairs.map(inside).all(|inside| inside)
}
