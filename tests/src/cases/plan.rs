//! Cases of the planner and of the check of plans.

use super::matrix::perhaps_damaged;
use super::{matrix_twins, room_about, with_rest, Seen};
use crate::both::{self, PlanTwins};
use crate::guarded::Twin;
use crate::oracle::planner::{self, Plan};
use crate::oracle::prng::Prng;
use crate::oracle::{damage, nets, plans, FIELDS, WORKERS};

/// Plans a random net for workers, p and a distance that are now and then outside their limits.
pub fn plan(rng: &mut Prng, seen: &mut Seen) {
    let most = rng.one_of(&[4, 12, 30, 100, 300]);
    let matrix = nets::random_net(rng, most);
    let (mut workers, mut p) = (1 + rng.below(WORKERS) as u32, 50 + rng.below(50) as u32);
    let mut k = 1 + rng.below(4) as u32;
    let plan = planner::plan_at(matrix.rows(), workers, p, k);
    match rng.below(12) {
        0 => workers = rng.one_of(&[0, 17, 18, 1 << 16, u32::MAX]),
        1 => p = rng.one_of(&[0, 49, 100, 101, u32::MAX]),
        2 => k = rng.one_of(&[0, 5, 6, 1 << 16, u32::MAX]),
        _ => (),
    }
    let mut lists = [
        Twin::blank(room_about(rng, plan.order.len(), 4)),
        Twin::blank(room_about(rng, plan.groups.len(), 4 * FIELDS)),
    ];
    let lent = perhaps_damaged(rng, matrix);
    let matrix = matrix_twins(rng, &lent);
    seen.note(both::plan(&matrix, workers, p, k, &mut lists));
}

/// Checks a plan of any kind, most often damaged, for a random net, at a distance that is now and then outside its
/// limits.
pub fn check(rng: &mut Prng, seen: &mut Seen) {
    let most = rng.one_of(&[4, 12, 30, 100]);
    let matrix = nets::random_net(rng, most);
    let mut k = 1 + rng.below(4) as u32;
    let plan = match rng.below(2) {
        0 => plans::any_plan(rng, &matrix),
        _ => planner::plan_at(
            matrix.rows(),
            1 + rng.below(WORKERS) as u32,
            60,
            1 + rng.below(4) as u32,
        ),
    };
    if rng.below(12) == 0 {
        k = rng.one_of(&[0, 5, u32::MAX]);
    }
    let damages = rng.below(3);
    let plan = plan_twins(rng, &plan, damages);
    let lent = perhaps_damaged(rng, matrix);
    let matrix = matrix_twins(rng, &lent);
    seen.note(both::check(&matrix, &plan, k));
}

/// The lists of a plan, damaged so many times.
pub fn plan_twins(rng: &mut Prng, plan: &Plan, damages: usize) -> PlanTwins {
    let (mut order, mut groups) = (plan.order.clone(), plan.flat());
    let mut group_count = plan.group_count();
    for _ in 0..damages {
        damage::damage_plan(rng, &mut order, &mut groups, &mut group_count);
    }
    PlanTwins {
        order: with_rest(rng, &order, u32::to_le_bytes),
        groups: with_rest(rng, &groups, u32::to_le_bytes),
        group_count,
    }
}
