//! Cases of plan files, written and read.

use super::{room_about, with_rest, Seen};
use crate::both::{self, PlanTwins};
use crate::guarded::Twin;
use crate::oracle::plan_file::{MOST_GROUPS, MOST_ROWS};
use crate::oracle::prng::Prng;
use crate::oracle::{damage, plan_file, FIELDS};

/// A count that is most often small, now and then near its limit or far outside.
fn count_about(rng: &mut Prng, most: usize) -> u32 {
    match rng.below(24) {
        0 => rng.one_of(&[0, 1 << 16, 1 << 30, u32::MAX]),
        1 => (most - 1 + rng.below(3)) as u32,
        _ => 1 + rng.below(40) as u32,
    }
}

/// So many numbers of 32 bits.
fn numbers(rng: &mut Prng, count: usize) -> Vec<u32> {
    let odd = [0, 1, 2, 255, 256, u32::MAX];
    let number = |rng: &mut Prng| match rng.below(4) {
        0 => rng.one_of(&odd),
        _ => rng.bits() as u32,
    };
    (0..count).map(|_| number(rng)).collect()
}

/// A list of about so many numbers, now and then too few.
fn list_about(rng: &mut Prng, needed: usize) -> Twin {
    let count = room_about(rng, needed, 1);
    let numbers = numbers(rng, count);
    with_rest(rng, &numbers, u32::to_le_bytes)
}

/// Writes any numbers as a plan; what is written is read back.
pub fn write(rng: &mut Prng, seen: &mut Seen) {
    let (n, group_count) = (count_about(rng, MOST_ROWS), count_about(rng, MOST_GROUPS));
    let (rows, records) = (
        (n as usize).min(MOST_ROWS + 1),
        (group_count as usize).min(MOST_GROUPS + 1),
    );
    let plan = PlanTwins {
        order: list_about(rng, rows),
        groups: list_about(rng, FIELDS * records),
        group_count,
    };
    let size = 28 + 4 * rows + 4 * FIELDS * records;
    let mut file = Twin::blank(room_about(rng, size, 1));
    let word = both::write_plan(n, &plan, &mut file);
    seen.note(word);
    if word < 1 << 32 {
        let file = Twin::new(file.theirs[..word as usize].to_vec());
        let mut lists = [Twin::blank(4 * rows), Twin::blank(4 * FIELDS * records)];
        let read = both::read_plan(&file, &mut lists);
        assert_eq!(read, u64::from(n) + (u64::from(group_count) << 16));
        assert_eq!(lists[0].theirs, plan.order.theirs[..4 * rows]);
        assert_eq!(lists[1].theirs, plan.groups.theirs[..4 * FIELDS * records]);
    }
}

/// Reads a file of any numbers, most often damaged.
pub fn read(rng: &mut Prng, seen: &mut Seen) {
    let (n, group_count) = (count_about(rng, MOST_ROWS), count_about(rng, MOST_GROUPS));
    let rows = (n as usize).min(MOST_ROWS + 1);
    let records = (group_count as usize).min(MOST_GROUPS + 1);
    let (order, groups) = (numbers(rng, rows), numbers(rng, FIELDS * records));
    let mut file = plan_file::write(&order, &groups);
    for _ in 0..rng.below(3) {
        damage::damage_file(rng, &mut file);
    }
    let mut lists = [
        Twin::blank(room_about(rng, rows, 4)),
        Twin::blank(room_about(rng, records, 4 * FIELDS)),
    ];
    seen.note(both::read_plan(&Twin::new(file), &mut lists));
}
