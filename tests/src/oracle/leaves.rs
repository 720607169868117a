//! The leaves of a sound plan as workers run them: their moves, and what must be finished before each.

use super::matrix::{Matrix, Rows};
use super::planner::Plan;
use super::soundness::{self, SoundPlan, BLUE, RED};
use super::WORKERS;

/// A leaf, run by its first worker.
#[derive(Clone, Debug)]
pub struct Leaf {
    pub worker: usize,
    /// Its plan positions, from start up to end.
    pub start: usize,
    pub end: usize,
    /// Its worker's moves made before it, and those made when it is finished.
    pub moves_before: u32,
    pub moves_end: u32,
    /// The moves each worker must have made lest the leaf's worker wait.
    pub awaited: [u32; WORKERS],
}

impl Leaf {
    /// Whether a worker whose next move is in this leaf waits.
    pub fn waits(&self, made: &[u32; WORKERS]) -> bool {
        (0..WORKERS).any(|worker| made[worker] < self.awaited[worker])
    }
}

/// All leaves of a plan, and the moves of each worker.
pub struct Leaves {
    /// The leaves in plan order.
    pub leaves: Vec<Leaf>,
    /// Each worker's moves, 0 outside the plan.
    pub moves: [u32; WORKERS],
    /// The number of the plan's workers.
    pub workers: usize,
    /// Joined rows later in plan order, of all rows before a plan position.
    later: Vec<u32>,
}

impl Leaves {
    /// The leaves of a sound plan.
    pub fn of(matrix: Rows, plan: &SoundPlan) -> Leaves {
        let later = later_before(matrix, plan);
        let mut moves = [0; WORKERS];
        let mut leaves = Vec::with_capacity(plan.leaves.len());
        for &index in &plan.leaves {
            let record = &plan.records[index];
            let (start, end) = (record.start, record.start + record.length);
            let worker = record.first_worker;
            let moves_before = moves[worker];
            moves[worker] += moves_between(&later, start, end);
            leaves.push(Leaf {
                worker,
                start,
                end,
                moves_before,
                moves_end: moves[worker],
                awaited: [0; WORKERS],
            });
        }
        await_reds(plan, &mut leaves);
        Leaves {
            leaves,
            moves,
            workers: plan.workers(),
            later,
        }
    }

    /// The moves of the longest chain of leaves that must follow each other: what a run takes if all move that can.
    pub fn longest_chain(&self) -> u32 {
        let mut ends = vec![None; self.leaves.len()];
        let leaves = 0..self.leaves.len();
        leaves
            .map(|leaf| self.chain_to(leaf, &mut ends))
            .max()
            .unwrap_or(0)
    }

    /// The moves of the longest chain up to a leaf's end; `ends` has those that are known.
    fn chain_to(&self, index: usize, ends: &mut [Option<u32>]) -> u32 {
        if let Some(end) = ends[index] {
            return end;
        }
        let leaf = &self.leaves[index];
        let own = self.leaves[..index]
            .iter()
            .rposition(|one| one.worker == leaf.worker);
        let red = |(worker, &moves): (usize, &u32)| {
            let ended = |one: &Leaf| one.worker == worker && one.moves_end == moves;
            self.leaves.iter().position(ended).filter(|_| moves > 0)
        };
        let reds = leaf.awaited.iter().enumerate().filter_map(red);
        let before: Vec<usize> = reds.chain(own).collect();
        let start = before
            .into_iter()
            .map(|leaf| self.chain_to(leaf, ends))
            .max();
        let end = start.unwrap_or(0) + leaf.moves_end - leaf.moves_before;
        ends[index] = Some(end);
        end
    }

    /// The share of its workers' time that a plan uses: all its moves, by those of the longest chain for each worker.
    pub fn efficiency(&self) -> f64 {
        let moves: u32 = self.moves.iter().sum();
        f64::from(moves) / f64::from(self.longest_chain()) / self.workers as f64
    }

    /// The index of the leaf of a worker's next move, from leaf `from` on; a leaf without moves has none.
    pub fn next_leaf(&self, worker: usize, made: u32, from: usize) -> Option<usize> {
        let leaves = &self.leaves[from..];
        let next = |leaf: &Leaf| leaf.worker == worker && leaf.moves_end > made;
        leaves.iter().position(next).map(|k| from + k)
    }

    /// Whether a worker's next move is there, and the worker doesn't wait.
    pub fn is_ready(&self, worker: usize, made: &[u32; WORKERS]) -> bool {
        let next = self.next_leaf(worker, made[worker], 0);
        next.is_some_and(|leaf| !self.leaves[leaf].waits(made))
    }

    /// The moves made in the row of a worker's next move, and those left in it; none if all its moves are made.
    pub fn moves_in_row(&self, worker: usize, made: u32) -> (u32, u32) {
        let Some(leaf) = self.next_leaf(worker, made, 0) else {
            return (0, 0);
        };
        let (row, begun) = self.row_of_move(&self.leaves[leaf], made);
        (begun, moves_between(&self.later, row, row + 1) - begun)
    }

    /// The row, as plan position, of a leaf's worker's next move, and the moves made in it.
    pub fn row_of_move(&self, leaf: &Leaf, made: u32) -> (usize, u32) {
        let before = |place| leaf.moves_before + moves_between(&self.later, leaf.start, place);
        let (mut row, mut end) = (leaf.start, leaf.end);
        while end - row > 1 {
            let middle = (row + end) / 2;
            if before(middle) <= made {
                row = middle;
            } else {
                end = middle;
            }
        }
        (row, made - before(row))
    }
}

/// The leaves of a plan that is known to be sound.
pub fn leaves_of(matrix: &Matrix, plan: &Plan) -> Leaves {
    let (groups, count) = (plan.flat(), plan.group_count());
    let sound = soundness::check(matrix.rows(), &plan.order, &groups, count);
    Leaves::of(matrix.rows(), &sound.expect("the plan is sound"))
}

/// The moves of the rows from one plan position up to another: two a row, four for each joined row later.
fn moves_between(later: &[u32], start: usize, end: usize) -> u32 {
    2 * (end - start) as u32 + 4 * (later[end] - later[start])
}

/// Joined rows later in plan order, counted for all rows before each of n + 1 plan positions.
fn later_before(matrix: Rows, plan: &SoundPlan) -> Vec<u32> {
    let mut later = vec![0; matrix.n + 1];
    for freedom in 0..matrix.n {
        let place = plan.places[freedom];
        let joined = matrix.columns(freedom).iter();
        let count: u32 = joined
            .map(|&other| u32::from(plan.places[other as usize] > place))
            .sum();
        later[place as usize + 1] = count;
    }
    for place in 0..matrix.n {
        later[place + 1] += later[place];
    }
    later
}

/// Fills what each leaf awaits: every leaf in a red sibling of each blue group that the leaf lies in, or is.
fn await_reds(plan: &SoundPlan, leaves: &mut [Leaf]) {
    let mut reds = vec![[0; WORKERS]; plan.records.len()];
    for (leaf, &index) in leaves.iter().zip(&plan.leaves) {
        for parent in parents_of(plan, index, RED) {
            reds[parent][leaf.worker] = leaf.moves_end;
        }
    }
    for (leaf, &index) in leaves.iter_mut().zip(&plan.leaves) {
        for parent in parents_of(plan, index, BLUE) {
            for (awaited, red) in leaf.awaited.iter_mut().zip(reds[parent]) {
                *awaited = red.max(*awaited);
            }
        }
    }
}

/// The parents of those groups of a colour that a group lies in, or is.
fn parents_of(plan: &SoundPlan, group: usize, colour: u32) -> Vec<usize> {
    let mut parents = Vec::new();
    let mut group = group;
    while group != 0 {
        let record = &plan.records[group];
        if record.colour == colour {
            parents.push(record.parent);
        }
        group = record.parent;
    }
    parents
}
