//! Cases of the barrier unit.

use super::{room_about, Seen};
use crate::both;
use crate::guarded::Twin;
use crate::oracle::barrier::{Write, UNIT_BYTES};
use crate::oracle::prng::Prng;

/// A write: most often to a register, to an arrived byte more than to others, of few bits or of any.
pub fn random_write(rng: &mut Prng) -> Write {
    let address = match rng.below(20) {
        0 => rng.one_of(&[6, 7, 256, 1 << 16, u32::MAX]),
        1..6 => rng.below(6) as u32,
        6 => rng.below(2) as u32,
        _ => 2 + rng.below(2) as u32,
    };
    let byte = match rng.below(8) {
        0 => rng.bits() as u8,
        1 => rng.one_of(&[0, 1, 0xfe, 0xff]),
        2..5 => 1 << rng.below(3) | 1 << rng.below(3),
        _ => 1 << rng.below(3),
    };
    (address, byte)
}

/// A unit of about ten bytes: all zero, or of any bytes, its count now and then near its end.
fn random_unit(rng: &mut Prng) -> Twin {
    let mut unit = vec![0; room_about(rng, UNIT_BYTES, 1)];
    if rng.chance(50) {
        unit.fill_with(|| rng.bits() as u8);
        let near_end = if rng.chance(50) { 4 } else { 0 };
        unit.iter_mut()
            .skip(6)
            .take(near_end)
            .for_each(|byte| *byte = 0xff);
    }
    Twin::new(unit)
}

/// Writes to a unit, and asks for everything after each.
pub fn unit(rng: &mut Prng, seen: &mut Seen) {
    let mut unit = random_unit(rng);
    for _ in 0..rng.below(20) {
        let write = random_write(rng);
        seen.note(both::barrier_write(&mut unit, write));
        seen.note(both::barrier_read(&unit, rng.below(7) as u32));
        seen.note(both::barrier_line(&unit));
        seen.note(both::barrier_releases(&unit));
    }
}
