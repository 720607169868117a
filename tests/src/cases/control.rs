//! Cases of the control number.

use super::{with_stray, Seen};
use crate::both;
use crate::oracle::prng::Prng;

/// A force: of any size, a small one, or one near a power of two that counts.
pub fn random_force(rng: &mut Prng) -> i64 {
    match rng.below(4) {
        0 => rng.bits() as i64,
        1 => rng.one_of(&[i64::MIN, i64::MAX, 0, 1 << 31, 1 << 32, -1 << 31, -1 << 32]),
        _ => rng.between(-3, 3) + rng.one_of(&[0, 0, 1 << 32, -1 << 32]),
    }
}

/// A list of forces, now and then a long one.
pub fn random_forces(rng: &mut Prng) -> Vec<i64> {
    let length = match rng.below(100) {
        0 => rng.below(5_000),
        _ => rng.below(40),
    };
    (0..length).map(|_| random_force(rng)).collect()
}

/// Asks for the control number of a list; stray bytes may follow.
pub fn control(rng: &mut Prng, seen: &mut Seen) {
    let forces = random_forces(rng);
    seen.note(both::control(&with_stray(rng, &forces, i64::to_le_bytes)));
}
