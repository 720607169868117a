//! Cases of the survey.

use super::matrix::{movements, perhaps_damaged, random_net};
use super::{matrix_twins, room_about, Seen};
use crate::both;
use crate::guarded::Twin;
use crate::oracle::matrix::LARGEST_MOVEMENT;
use crate::oracle::prng::Prng;
use crate::oracle::survey::LARGEST_ERROR;

/// An error that is most often within its limits: of any size, or one for which movements have just room, or just not.
pub fn error_about(rng: &mut Prng, movements: &Twin) -> u32 {
    let numbers = movements.theirs.as_chunks().0.iter();
    let sizes = numbers.map(|&word| i32::from_le_bytes(word).unsigned_abs());
    let room = LARGEST_MOVEMENT.saturating_sub(sizes.max().unwrap_or(0));
    let most = rng.one_of(&[3, 1_000, LARGEST_ERROR]);
    match rng.below(20) {
        0 => LARGEST_ERROR + 1,
        1 => rng.one_of(&[u32::MAX, u32::MAX - LARGEST_ERROR, 1 << 31]),
        2..6 => room,
        6..8 => room + 1,
        8 => LARGEST_ERROR,
        9 => 0,
        _ => rng.below(most as usize) as u32,
    }
}

/// A freedom of n, now and then none.
fn freedom_about(rng: &mut Prng, n: u32) -> u32 {
    match rng.below(30) {
        0 => n,
        1 => rng.one_of(&[n + 1, 4_096, u32::MAX]),
        _ => rng.below(n as usize) as u32,
    }
}

/// Surveys a random net; anything is now and then damaged, too large or too short.
pub fn survey(rng: &mut Prng, seen: &mut Seen) {
    let matrix = random_net(rng);
    let n = matrix.n;
    let movements = movements(rng, n);
    let (t, freedom) = (error_about(rng, &movements), freedom_about(rng, n));
    let lent = perhaps_damaged(rng, matrix);
    let lists = matrix_twins(rng, &lent);
    let mut written = [8, 4].map(|width| Twin::blank(room_about(rng, n as usize, width)));
    seen.note(both::survey(&lists, &movements, t, freedom, &mut written));
}
