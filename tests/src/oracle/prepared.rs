//! Prepared lists: the tables of a run in bytes, and runs by such tables, whatever they hold.

use super::leaves::Leaves;
use super::machine::{Lent, Picked, Ready, State};
use super::matrix::Rows;
use super::soundness::SoundPlan;
use super::{room, Refusal, WORKERS};

/// "MZKP".
const MARK: [u8; 4] = *b"MZKP";
/// The bytes of the head: the mark, rows, workers and updates, then two numbers for each worker.
const HEAD: usize = 4 * (4 + 2 * WORKERS);
/// The bytes of an update, and of a row's gate and position.
const UPDATE: usize = 16;
const ROW: usize = 4 * (WORKERS + 1);

/// A load and its store.
#[derive(Clone, Copy, Default)]
struct Update {
    amount: i64,
    /// The plan positions of the sum, and of the row that makes the update.
    sum: u32,
    row: u32,
}

impl Update {
    /// The update that sixteen bytes stand for.
    fn of(bytes: &[u8; UPDATE]) -> Update {
        let words = bytes.as_chunks().0;
        Update {
            amount: i64::from_le_bytes(bytes.as_chunks().0[0]),
            sum: number(&words[2]),
            row: number(&words[3]),
        }
    }
}

/// What is prepared of a run.
pub struct Tables {
    rows: u32,
    workers: u32,
    moves: [u32; WORKERS],
    /// Each worker's first update.
    first: [u32; WORKERS],
    updates: Vec<Update>,
    /// For each position the moves that each worker must have made before its row.
    gates: Vec<[u32; WORKERS]>,
    /// Each row's position.
    places: Vec<u32>,
}

/// The updates of the row at a plan position.
fn updates_of_row(rows: Rows, plan: &SoundPlan, movements: &[i32], place: u32) -> Vec<Update> {
    let freedom = plan.order[place as usize] as usize;
    let own = i64::from(movements[freedom]);
    let mut entries: Vec<(u32, usize, i64)> = rows
        .entries(freedom)
        .map(|(other, value)| (plan.places[other], other, i64::from(value)))
        .filter(|&(at, _, _)| at >= place)
        .collect();
    if entries.iter().all(|&(at, _, _)| at != place) {
        entries.push((place, freedom, 0));
    }
    entries.sort_unstable_by_key(|&(at, _, _)| at);
    let pair = |&(at, other, value): &(u32, usize, i64)| {
        let update = |sum, movement: i64| Update {
            amount: value * movement,
            sum,
            row: place,
        };
        if at == place {
            return vec![update(place, own)];
        }
        vec![update(place, i64::from(movements[other])), update(at, own)]
    };
    entries.iter().flat_map(pair).collect()
}

impl Tables {
    /// The tables of a run, or 5, 6 or 8.
    pub fn of(lent: &Lent) -> Result<Tables, Refusal> {
        let (rows, plan) = lent.judge()?;
        let leaves = Leaves::of(rows, &plan);
        let mut updates = Vec::new();
        let mut gates = vec![[0; WORKERS]; rows.n];
        let first = std::array::from_fn(|worker| {
            let first = updates.len() as u32;
            for leaf in leaves.leaves.iter().filter(|leaf| leaf.worker == worker) {
                for place in leaf.start..leaf.end {
                    gates[place] = leaf.awaited;
                    updates.extend(updates_of_row(rows, &plan, lent.movements, place as u32));
                }
            }
            first
        });
        Ok(Tables {
            rows: lent.n,
            workers: leaves.workers as u32,
            moves: leaves.moves,
            first,
            updates,
            gates,
            places: plan.places,
        })
    }

    /// Their list.
    pub fn bytes(&self) -> Vec<u8> {
        let mut list = MARK.to_vec();
        let mut put = |number: u32| list.extend(number.to_le_bytes());
        [self.rows, self.workers, self.updates.len() as u32]
            .into_iter()
            .chain(self.moves)
            .chain(self.first)
            .for_each(&mut put);
        for update in &self.updates {
            list.extend(update.amount.to_le_bytes());
            list.extend(update.sum.to_le_bytes());
            list.extend(update.row.to_le_bytes());
        }
        for number in self.gates.as_flattened().iter().chain(&self.places) {
            list.extend(number.to_le_bytes());
        }
        list
    }
}

/// A number of four bytes.
fn number(word: &[u8; 4]) -> u32 {
    u32::from_le_bytes(*word)
}

/// A prepared list as calls read it: nothing of it is copied.
pub struct Prepared<'a> {
    rows: usize,
    workers: usize,
    head: &'a [[u8; 4]],
    updates: &'a [[u8; UPDATE]],
    gates: &'a [[u8; 4 * WORKERS]],
    places: &'a [[u8; 4]],
}

impl Prepared<'_> {
    /// What a list says, or 26.
    pub fn read(list: &[u8]) -> Result<Prepared<'_>, Refusal> {
        let none = Refusal::at(26, 0);
        let (head, rest) = list.split_at_checked(HEAD).ok_or(none)?;
        let head = head.as_chunks().0;
        let [rows, workers, count] = [1, 2, 3].map(|place| number(&head[place]) as usize);
        let needed = count as u128 * UPDATE as u128 + rows as u128 * ROW as u128;
        if head[0] != MARK || workers > WORKERS || (rest.len() as u128) < needed {
            return Err(none);
        }
        let (updates, rest) = rest.split_at(count * UPDATE);
        let (gates, rest) = rest.split_at(rows * 4 * WORKERS);
        Ok(Prepared {
            rows,
            workers,
            head,
            updates: updates.as_chunks().0,
            gates: gates.as_chunks().0,
            places: rest[..4 * rows].as_chunks().0,
        })
    }

    /// The moves that a worker makes.
    fn moves(&self, worker: usize) -> u32 {
        number(&self.head[4 + worker])
    }

    /// Refusal 11: not a sum for each row, or a count past its moves.
    pub fn judge(&self, state: &State, sums: &[u8]) -> Result<(), Refusal> {
        let is_past = |worker: usize| state.made[worker] > self.moves(worker);
        if sums.len() / 8 != self.rows || (0..WORKERS).any(is_past) {
            return Err(Refusal::at(11, 0));
        }
        Ok(())
    }

    /// The update of a worker's next move; one that does nothing where there is none.
    fn next(&self, made: &[u32; WORKERS], worker: usize) -> Update {
        let first = number(&self.head[4 + WORKERS + worker]) as usize;
        let update = self.updates.get(first + made[worker] as usize / 2);
        update.map_or(Update::default(), Update::of)
    }

    /// Refusals 10, 12 and 13 of a worker's next move.
    fn may_move(&self, made: &[u32; WORKERS], worker: usize) -> Result<Update, u32> {
        if worker >= self.workers {
            return Err(10);
        }
        if made[worker] >= self.moves(worker) {
            return Err(12);
        }
        let update = self.next(made, worker);
        let gate = self.gates.get(update.row as usize);
        let gate = gate.map_or([].as_slice(), |gate| gate.as_chunks().0);
        if made
            .iter()
            .zip(gate)
            .any(|(&made, needed)| made < number(needed))
        {
            return Err(13);
        }
        Ok(update)
    }

    /// Takes picks in turn on the bytes of the sums; the numbers in `skips` skip a pick.
    pub fn picks(&self, state: &mut State, sums: &mut [u8], picks: &[u8], skips: &[u32]) -> Picked {
        let sums = sums.as_chunks_mut().0;
        Picked::in_turn(picks, skips, |pick| {
            let worker = usize::from(pick);
            let update = self.may_move(&state.made, worker)?;
            let sum = sums.get_mut(update.sum as usize);
            if state.made[worker].is_multiple_of(2) {
                state.held[worker] = sum.map_or(0, |sum| i64::from_le_bytes(*sum));
            } else {
                let stored = state.held[worker].checked_add(update.amount).ok_or(14u32)?;
                if let Some(sum) = sum {
                    *sum = stored.to_le_bytes();
                }
            }
            state.made[worker] += 1;
            Ok(())
        })
    }

    /// The workers that may move.
    pub fn ready(&self, state: &State) -> Ready {
        Ready::of(self.workers, |worker| {
            self.may_move(&state.made, worker).is_ok()
        })
    }

    /// The sums of a finished run in original order, or 15, or 9.
    pub fn forces(&self, state: &State, sums: &[u8], forces: &mut [u8]) -> Result<(), Refusal> {
        if (0..self.workers).any(|worker| state.made[worker] < self.moves(worker)) {
            return Err(Refusal::at(15, 0));
        }
        room(forces.len() / 8, self.rows)?;
        let sums = sums.as_chunks().0;
        for (force, place) in forces.as_chunks_mut().0.iter_mut().zip(self.places) {
            *force = sums.get(number(place) as usize).copied().unwrap_or([0; 8]);
        }
        Ok(())
    }
}
