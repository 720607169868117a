//! Generators of plans that the planner would not make, and of schedules.

use super::matrix::Matrix;
use super::planner::{self, Plan};
use super::prng::Prng;
use super::soundness;
use super::{Fields, WORKERS};

/// A random sound plan: one of the planner's, or a random tree on its order or on any order.
pub fn random_plan(rng: &mut Prng, matrix: &Matrix) -> Plan {
    let most = rng.one_of(&[2, 4, WORKERS]);
    let workers = 1 + rng.below(most) as u32;
    let p = 50 + rng.below(50) as u32;
    let mut order = planner::plan(matrix.rows(), workers, p).order;
    if rng.chance(40) {
        return planner::plan(matrix.rows(), workers, p);
    }
    if rng.chance(50) {
        rng.shuffle(&mut order);
    }
    for _ in 0..8 {
        let plan = random_tree(rng, &order, workers, 3);
        if is_sound(matrix, &plan) {
            return plan;
        }
    }
    random_tree(rng, &order, workers, 1)
}

/// A plan that need not be sound: of the planner, or of a random tree.
pub fn any_plan(rng: &mut Prng, matrix: &Matrix) -> Plan {
    let workers = 1 + rng.below(WORKERS) as u32;
    match rng.below(4) {
        0 => planner::plan(matrix.rows(), workers, 50 + rng.below(50) as u32),
        1 => random_plan(rng, matrix),
        2 => {
            let order: Vec<u32> = (0..matrix.n).collect();
            flawed_tree(rng, &order, workers.min(3))
        }
        _ => {
            let order = planner::plan(matrix.rows(), workers, 60).order;
            random_tree(rng, &order, workers.min(4), 2)
        }
    }
}

/// Whether a plan is sound for a matrix.
pub fn is_sound(matrix: &Matrix, plan: &Plan) -> bool {
    let rows = matrix.rows();
    soundness::check(rows, &plan.order, &plan.flat(), plan.group_count()).is_ok()
}

/// What a random tree is grown within.
#[derive(Clone, Copy)]
struct Limits {
    pairs: usize,
    depth: u32,
    least_crew: u32,
}

/// A random tree of groups with at most so many pairs a group; with one pair a group it is sound for every matrix.
pub fn random_tree(rng: &mut Prng, order: &[u32], workers: u32, most_pairs: usize) -> Plan {
    let limits = Limits {
        pairs: most_pairs,
        depth: 4,
        least_crew: 1,
    };
    tree_within(rng, order, workers, limits)
}

/// A random tree that may be one too deep, and may have pairs without workers.
pub fn flawed_tree(rng: &mut Prng, order: &[u32], workers: u32) -> Plan {
    let limits = Limits {
        pairs: 2,
        depth: 4 + rng.below(2) as u32,
        least_crew: rng.below(2) as u32,
    };
    tree_within(rng, order, workers, limits)
}

/// A random tree of groups within limits.
fn tree_within(rng: &mut Prng, order: &[u32], workers: u32, limits: Limits) -> Plan {
    let mut plan = Plan {
        order: order.to_vec(),
        groups: Vec::new(),
    };
    let whole = [0, order.len() as u32, 0, workers, 0, 0, 0];
    grow(rng, &mut plan.groups, whole, limits);
    plan
}

/// Adds a group's record and, if it is split, all records below it.
fn grow(rng: &mut Prng, groups: &mut Vec<Fields>, record: Fields, limits: Limits) {
    let index = groups.len() as u32;
    groups.push(record);
    let [start, length, first_worker, workers, _, _, depth] = record;
    if depth == limits.depth || rng.chance(10 + 20 * depth as usize) {
        return;
    }
    let least = limits.least_crew;
    let pairs = 1 + rng.below(limits.pairs.min(workers.max(1) as usize)) as u32;
    let crews = cut_in(rng, workers - least * pairs, pairs);
    let stretches = cut_in(rng, length, 2 * pairs);
    let (mut start, mut first_worker) = (start, first_worker);
    for pair in 0..pairs as usize {
        let crew = crews[pair] + least;
        for colour in 1..=2 {
            let length = stretches[2 * pair + colour - 1];
            let child = [
                start,
                length,
                first_worker,
                crew,
                colour as u32,
                index,
                depth + 1,
            ];
            grow(rng, groups, child, limits);
            start += length;
        }
        first_worker += crew;
    }
}

/// Cuts a length at random into so many parts, some perhaps empty.
fn cut_in(rng: &mut Prng, length: u32, parts: u32) -> Vec<u32> {
    let mut cuts: Vec<u32> = (1..parts)
        .map(|_| rng.below(length as usize + 1) as u32)
        .collect();
    cuts.push(length);
    cuts.sort_unstable();
    let mut before = 0;
    let mut part = |cut| {
        let part = cut - before;
        before = cut;
        part
    };
    cuts.into_iter().map(&mut part).collect()
}

/// At most so many picks of these workers: one at a time, or many of one after another.
pub fn random_picks(rng: &mut Prng, workers: &[u8], most: usize) -> Vec<u8> {
    let change = rng.one_of(&[100, 20]);
    let mut worker = rng.one_of(workers);
    let mut picks = vec![0; rng.below(most + 1)];
    for pick in &mut picks {
        if rng.chance(change) {
            worker = rng.one_of(workers);
        }
        *pick = worker;
    }
    picks
}
