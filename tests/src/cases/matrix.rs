//! Cases of the reader, the writer and the product.

use super::{matrix_twins, room_about, with_stray, Seen};
use crate::both;
use crate::guarded::Twin;
use crate::oracle::matrix::{Matrix, LARGEST_MOVEMENT};
use crate::oracle::prng::Prng;
use crate::oracle::{damage, nets, text};

/// Reads a text of any look, most often damaged.
pub fn read(rng: &mut Prng, seen: &mut Seen) {
    let most = rng.one_of(&[3, 6, 6, 30]);
    let matrix = nets::random_net(rng, most);
    let mut text = damage::random_text(rng, &matrix);
    for _ in 0..rng.one_of(&[0, 1, 1, 1, 2]) {
        damage::damage_text(rng, &mut text);
    }
    let stored = matrix.columns.len();
    let needed = [matrix.starts.len(), stored, stored];
    let mut lists = needed.map(|needed| Twin::blank(room_about(rng, needed, 4)));
    seen.note(both::read(&Twin::new(text), &mut lists));
}

/// Writes a random net, now and then damaged.
pub fn write(rng: &mut Prng, seen: &mut Seen) {
    let matrix = random_net(rng);
    let needed = text::write(&matrix).len();
    let lent = perhaps_damaged(rng, matrix);
    let lists = matrix_twins(rng, &lent);
    let mut text = Twin::blank(room_about(rng, needed, 1));
    seen.note(both::write(&lists, &mut text));
}

/// Multiplies a random net by movements, either of them now and then damaged.
pub fn product(rng: &mut Prng, seen: &mut Seen) {
    let matrix = random_net(rng);
    let n = matrix.n;
    let movements = movements(rng, n);
    let lent = perhaps_damaged(rng, matrix);
    let lists = matrix_twins(rng, &lent);
    let mut forces = Twin::blank(room_about(rng, n as usize, 8));
    seen.note(both::product(&lists, &movements, &mut forces));
}

/// A small net of any kind.
pub fn random_net(rng: &mut Prng) -> Matrix {
    let most = rng.one_of(&[2, 8, 8, 20, 60]);
    nets::random_net(rng, most)
}

/// A matrix, now and then damaged.
pub fn perhaps_damaged(rng: &mut Prng, mut matrix: Matrix) -> Matrix {
    if rng.chance(15) {
        damage::damage_matrix(rng, &mut matrix);
    }
    matrix
}

/// Movements for n freedoms; now and then one is too large, missing or too many.
pub fn movements(rng: &mut Prng, n: u32) -> Twin {
    let mut list = nets::random_movements(rng, n);
    let at = rng.below(list.len());
    let large = LARGEST_MOVEMENT as i32 + 1;
    match rng.below(40) {
        0..3 => list[at] = rng.one_of(&[large, -large, i32::MAX, i32::MIN]),
        3 => drop(list.remove(at)),
        4 => list.resize(list.len() + rng.one_of(&[1, 2, 5_000]), 0),
        _ => (),
    }
    with_stray(rng, &list, i32::to_le_bytes)
}
