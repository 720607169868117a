//! A run's book: "fed the run's calls alone", told straight from document 01's sentences, with no state and no sums.

use super::machine::{Picked, Ready};
use super::matrix::Matrix;
use super::planner::Plan;
use super::{room, Fields, Refusal, WORKERS};

/// The book of one accepted matrix, movement list and plan.
pub struct Book {
    matrix: Matrix,
    movements: Vec<i32>,
    groups: Vec<Fields>,
    /// For each leaf, in plan order: its record, its worker, and its worker's moves up to its end.
    leaves: Vec<(usize, usize, u32)>,
    /// For each row, in plan order: its worker, and its worker's moves up to its end.
    row_ends: Vec<(usize, u32)>,
    /// The moves of each worker.
    moves: [u32; WORKERS],
    /// "It keeps a count for each worker, at first 0."
    pub counts: [u32; WORKERS],
}

impl Book {
    /// The book before the run's first call.
    pub fn new(matrix: &Matrix, movements: &[i32], plan: &Plan) -> Book {
        let mut book = Book {
            matrix: matrix.clone(),
            movements: movements.to_vec(),
            groups: plan.groups.clone(),
            leaves: Vec::new(),
            row_ends: Vec::new(),
            moves: [0; WORKERS],
            counts: [0; WORKERS],
        };
        for (index, &[start, length, worker, ..]) in plan.groups.iter().enumerate() {
            if book
                .groups
                .iter()
                .skip(1)
                .all(|group| group[5] as usize != index)
            {
                let worker = worker as usize;
                for row in start..start + length {
                    book.moves[worker] += row_moves(matrix, plan, row);
                    book.row_ends.push((worker, book.moves[worker]));
                }
                book.leaves.push((index, worker, book.moves[worker]));
            }
        }
        book
    }

    /// The moves of each worker of the plan.
    pub fn moves(&self) -> &[u32] {
        &self.moves[..self.workers()]
    }

    /// The number of the plan's workers.
    fn workers(&self) -> usize {
        self.groups[0][3] as usize
    }

    /// A call of picks: "Picks are taken in turn, each adding 1 to its worker's count".
    pub fn picks(&mut self, picks: &[u8]) -> Picked {
        for (index, &pick) in picks.iter().enumerate() {
            if let Some(number) = self.refuses(usize::from(pick)) {
                return Picked {
                    taken: index as u32,
                    stopped: Some(Refusal::at(number, index)),
                };
            }
            self.counts[usize::from(pick)] += 1;
        }
        Picked {
            taken: picks.len() as u32,
            stopped: None,
        }
    }

    /// A ready-set call: "the workers whose pick would be taken, and their count".
    pub fn ready(&self) -> Ready {
        Ready::of(self.workers(), |worker| self.refuses(worker).is_none())
    }

    /// A force-list call for a list of a length: 15, 9 at n, or the full product.
    pub fn forces(&self, length: usize) -> Result<Vec<i64>, Refusal> {
        if !self.is_finished() {
            return Err(Refusal::at(15, 0));
        }
        room(length, self.matrix.n as usize)?;
        Ok(self.matrix.rows().product(&self.movements))
    }

    /// "The run is finished when all counts are all their workers' moves."
    pub fn is_finished(&self) -> bool {
        self.counts == self.moves
    }

    /// Whether a worker "has begun a row" and not finished it.
    pub fn is_inside(&self, worker: usize) -> bool {
        let count = self.counts[worker];
        count > 0 && !self.row_ends.contains(&(worker, count))
    }

    /// The ending that a worker's pick would get: 10, 12, 13 or none.
    pub fn refuses(&self, worker: usize) -> Option<u32> {
        if worker >= self.workers() {
            return Some(10);
        }
        let mut leaves = self.leaves.iter();
        let next = leaves.find(|&&(_, by, end)| by == worker && self.counts[worker] < end);
        match next {
            None => Some(12),
            Some(&(leaf, ..)) => self.waits(leaf).then_some(13),
        }
    }

    /// Whether a leaf "lies in, or is, a blue group one of whose red siblings has an unfinished leaf".
    fn waits(&self, leaf: usize) -> bool {
        let mut group = leaf;
        while group != 0 {
            if self.groups[group][4] == 2 && self.has_unfinished_reds(self.groups[group][5]) {
                return true;
            }
            group = self.groups[group][5] as usize;
        }
        false
    }

    /// Whether a red child of a parent has an unfinished leaf.
    fn has_unfinished_reds(&self, parent: u32) -> bool {
        self.leaves.iter().any(|&(leaf, worker, end)| {
            let unfinished = self.counts[worker] < end;
            unfinished && self.lies_in_red_child(leaf, parent)
        })
    }

    /// Whether a leaf lies in, or is, a red child of a parent.
    fn lies_in_red_child(&self, leaf: usize, parent: u32) -> bool {
        let mut group = leaf;
        while group != 0 {
            if self.groups[group][4] == 1 && self.groups[group][5] == parent {
                return true;
            }
            group = self.groups[group][5] as usize;
        }
        false
    }
}

/// The moves of the row at a plan position: two, and four for each joined row later in plan order.
fn row_moves(matrix: &Matrix, plan: &Plan, row: u32) -> u32 {
    let freedom = plan.order[row as usize] as usize;
    let columns = matrix.rows().columns(freedom);
    let later = plan.order[row as usize + 1..].iter();
    2 + 4 * later
        .filter(|other| columns.binary_search(other).is_ok())
        .count() as u32
}
