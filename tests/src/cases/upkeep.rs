//! Cases of the calls for a kept force list.

use super::matrix::{movements, perhaps_damaged, random_net};
use super::{matrix_twins, with_stray, Seen};
use crate::both;
use crate::guarded::Twin;
use crate::lists::Altered;
use crate::oracle::matrix::{Matrix, LARGEST_MOVEMENT, LARGEST_VALUE};
use crate::oracle::nets;
use crate::oracle::prng::Prng;

/// The forces of a matrix and movements; now and then one is wrong, missing or too many.
fn forces_about(rng: &mut Prng, matrix: &Matrix, movements: &Twin) -> Twin {
    let numbers = movements.theirs.as_chunks().0.iter();
    let mut moved: Vec<i32> = numbers.map(|&word| i32::from_le_bytes(word)).collect();
    moved.resize(matrix.n as usize, 0);
    let mut forces = matrix.rows().product(&moved);
    let at = rng.below(forces.len());
    match rng.below(40) {
        0 => forces[at] += rng.one_of(&[1, -1, 1 << 40]),
        1 => forces[at] = rng.one_of(&[i64::MAX, i64::MIN]),
        2 => drop(forces.remove(at)),
        3 => forces.resize(forces.len() + rng.one_of(&[1, 2, 5_000]), 0),
        _ => (),
    }
    with_stray(rng, &forces, i64::to_le_bytes)
}

/// A number that is most often within its limit, often just so.
pub fn number_about(rng: &mut Prng, largest: u32) -> i32 {
    let largest = largest as i32;
    match rng.below(20) {
        0 => rng.one_of(&[largest + 1, -largest - 1]),
        1 => rng.one_of(&[i32::MAX, i32::MIN]),
        2..5 => rng.one_of(&[largest, -largest, 0]),
        _ => rng.between(-i64::from(largest), i64::from(largest)) as i32,
    }
}

/// A freedom of n, now and then none.
fn freedom_about(rng: &mut Prng, n: u32) -> u32 {
    match rng.below(30) {
        0 => n,
        1 => rng.one_of(&[n + 1, 4_096, u32::MAX]),
        _ => rng.below(n as usize) as u32,
    }
}

/// Sets a movement of a random net; anything is now and then damaged, too large or too short.
pub fn set_movement(rng: &mut Prng, seen: &mut Seen) {
    let matrix = random_net(rng);
    let mut movements = movements(rng, matrix.n);
    let mut forces = forces_about(rng, &matrix, &movements);
    let freedom = freedom_about(rng, matrix.n);
    let value = number_about(rng, LARGEST_MOVEMENT);
    let lent = perhaps_damaged(rng, matrix);
    let lists = matrix_twins(rng, &lent);
    let word = both::set_movement(&lists, &mut movements, &mut forces, freedom, value);
    seen.note(word);
}

/// An entry of a net, most often a stored one, with a new value.
pub fn entry_about(rng: &mut Prng, matrix: &Matrix) -> Altered {
    let (mut row, mut column) = (freedom_about(rng, matrix.n), freedom_about(rng, matrix.n));
    let stored = matrix.entries();
    if !stored.is_empty() && rng.chance(85) {
        let entry = stored[rng.below(stored.len())];
        (row, column) = (entry.row, entry.column);
        if rng.chance(50) {
            (row, column) = (column, row);
        }
    }
    let value = number_about(rng, LARGEST_VALUE);
    Altered { row, column, value }
}

/// Sets an entry of a random net; anything is now and then damaged, too large or too short.
pub fn set_entry(rng: &mut Prng, seen: &mut Seen) {
    let matrix = random_net(rng);
    let movements = movements(rng, matrix.n);
    let mut forces = forces_about(rng, &matrix, &movements);
    let entry = entry_about(rng, &matrix);
    let lent = perhaps_damaged(rng, matrix);
    let mut lists = matrix_twins(rng, &lent);
    seen.note(both::set_entry(&mut lists, &movements, &mut forces, entry));
}

/// A net with movements and their forces, as lists of just their lengths.
pub fn kept(rng: &mut Prng, matrix: &Matrix) -> [Twin; 2] {
    let movements = nets::random_movements(rng, matrix.n);
    let forces = matrix.rows().product(&movements);
    [
        with_stray(rng, &movements, i32::to_le_bytes),
        with_stray(rng, &forces, i64::to_le_bytes),
    ]
}
