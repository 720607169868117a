//! Cases of two nets sewn together.

use super::matrix::{perhaps_damaged, random_net};
use super::{matrix_twins, room_about, with_stray, Seen};
use crate::both;
use crate::guarded::Twin;
use crate::oracle::join;
use crate::oracle::matrix::Matrix;
use crate::oracle::prng::Prng;

/// Places of a second net on a first: some of its freedoms, and numbers past it without a gap, in any order.
pub fn random_places(rng: &mut Prng, first: u32, second: u32) -> Vec<u32> {
    let mut shared: Vec<u32> = (0..first).collect();
    shuffle(rng, &mut shared);
    let most = first.min(second) as usize;
    let least = usize::from(rng.chance(30)) * most;
    shared.truncate(least.max(rng.below(most + 1)));
    let past = second - shared.len() as u32;
    let mut places: Vec<u32> = shared.into_iter().chain(first..first + past).collect();
    shuffle(rng, &mut places);
    places
}

/// Puts a list into any order.
fn shuffle(rng: &mut Prng, list: &mut [u32]) {
    for last in (1..list.len()).rev() {
        list.swap(last, rng.below(last + 1));
    }
}

/// Places that are now and then too few or too many, repeat, or leave a gap.
fn places_about(rng: &mut Prng, first: u32, second: u32) -> Twin {
    let mut places = random_places(rng, first, second);
    let at = rng.below(places.len());
    let other = places[rng.below(places.len())];
    match rng.below(30) {
        0 => drop(places.remove(at)),
        1 => places.resize(places.len() + rng.one_of(&[1, 2, 5_000]), first + second),
        2 => places[at] = other,
        3 => places[at] = rng.one_of(&[first + second, u32::MAX, 8_192]),
        _ => (),
    }
    with_stray(rng, &places, u32::to_le_bytes)
}

/// A net whose values are now and then so large that sums pass the limit.
fn net(rng: &mut Prng) -> Matrix {
    let mut matrix = random_net(rng);
    if rng.chance(5) {
        matrix
            .values
            .fill(rng.one_of(&[500_000_000, 500_000_001, -1_000_000_000]));
    }
    matrix
}

/// Sews two random nets together; anything is now and then damaged, too large or too short.
pub fn join(rng: &mut Prng, seen: &mut Seen) {
    let (first, second) = (net(rng), net(rng));
    let places = places_about(rng, first.n, second.n);
    let numbers = places.theirs.as_chunks().0.iter();
    let numbers: Vec<u32> = numbers.map(|&word| u32::from_le_bytes(word)).collect();
    let needed = match join::join(first.rows(), second.rows(), &numbers) {
        Ok(joined) => [
            joined.starts.len(),
            joined.columns.len(),
            joined.values.len(),
        ],
        Err(_) => [8; 3],
    };
    let mut lists = needed.map(|needed| Twin::blank(room_about(rng, needed, 4)));
    let (first, second) = (perhaps_damaged(rng, first), perhaps_damaged(rng, second));
    let (first, second) = (matrix_twins(rng, &first), matrix_twins(rng, &second));
    seen.note(both::join(&first, &second, &places, &mut lists));
}
