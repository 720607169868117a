//! The run: picks, the ready set and the force list, for every state.

use super::leaves::{Leaf, Leaves};
use super::matrix::{judge_movements, Matrix, Rows};
use super::planner::Plan;
use super::soundness::{self, SoundPlan};
use super::{room, Refusal, WORKERS};

/// A run's state beside its sums: moves made and held number of each worker.
#[derive(Clone, Debug, PartialEq, Eq)]
pub struct State {
    pub made: [u32; WORKERS],
    pub held: [i64; WORKERS],
}

impl State {
    /// The fresh state: all 0.
    pub fn fresh() -> State {
        State {
            made: [0; WORKERS],
            held: [0; WORKERS],
        }
    }
}

/// What every call of a run is lent beside state and sums, with any contents.
#[derive(Clone, Copy, Debug)]
pub struct Lent<'a> {
    pub n: u32,
    pub starts: &'a [u32],
    pub columns: &'a [u32],
    pub values: &'a [i32],
    pub movements: &'a [i32],
    pub order: &'a [u32],
    pub groups: &'a [u32],
    pub group_count: u32,
}

impl<'a> Lent<'a> {
    /// The lists of a matrix, its movements and a plan, whose records are in one list.
    pub fn new(
        matrix: &'a Matrix,
        movements: &'a [i32],
        plan: &'a Plan,
        groups: &'a [u32],
    ) -> Lent<'a> {
        Lent {
            n: matrix.n,
            starts: &matrix.starts,
            columns: &matrix.columns,
            values: &matrix.values,
            movements,
            order: &plan.order,
            groups,
            group_count: plan.group_count(),
        }
    }

    /// Refusals 5, 6 and 8, else the matrix and its plan.
    pub fn judge(&self) -> Result<(Rows<'a>, SoundPlan<'a>), Refusal> {
        self.judge_with(&[])
    }

    /// The same, where more movement lists are judged after the run's own.
    pub fn judge_with(&self, more: &[&[i32]]) -> Result<(Rows<'a>, SoundPlan<'a>), Refusal> {
        let rows = Rows::lent(self.n, self.starts, self.columns, self.values)?;
        judge_movements(rows.n, self.movements)?;
        for movements in more {
            judge_movements(rows.n, movements)?;
        }
        let plan = soundness::check(rows, self.order, self.groups, self.group_count)?;
        Ok((rows, plan))
    }
}

/// What a call of picks answers: how many were taken and why it stopped.
#[derive(Clone, Copy, Debug, PartialEq, Eq)]
pub struct Picked {
    pub taken: u32,
    pub stopped: Option<Refusal>,
}

/// What a ready-set call answers: sixteen bits, bit 0 for worker 0, and the count of those set.
#[derive(Clone, Copy, Debug, PartialEq, Eq)]
pub struct Ready {
    pub set: u16,
    pub count: u32,
}

impl Picked {
    /// A call that is refused before its first pick.
    pub fn refused(refusal: Refusal) -> Picked {
        Picked {
            taken: 0,
            stopped: Some(refusal),
        }
    }

    /// Picks taken in turn until one is refused by a number that skips none; a pick is taken by `take`, or it tells its
    /// number.
    pub fn in_turn(
        picks: &[u8],
        skips: &[u32],
        mut take: impl FnMut(u8) -> Result<(), u32>,
    ) -> Picked {
        let mut taken = 0;
        for (index, &pick) in picks.iter().enumerate() {
            match take(pick) {
                Ok(()) => taken += 1,
                Err(number) if skips.contains(&number) => (),
                Err(number) => {
                    let stopped = Some(Refusal::at(number, index));
                    return Picked { taken, stopped };
                }
            }
        }
        Picked {
            taken,
            stopped: None,
        }
    }
}

impl Ready {
    /// The ready set of the workers that a test accepts.
    pub fn of(workers: usize, is_ready: impl Fn(usize) -> bool) -> Ready {
        let bit = |worker: usize| u16::from(is_ready(worker)) << worker;
        let set = (0..workers).map(bit).fold(0, |set, bit| set | bit);
        let count = set.count_ones();
        Ready { set, count }
    }
}

/// Takes picks in turn, "each one move", until one is refused.
pub fn picks(lent: &Lent, state: &mut State, sums: &mut [i64], picks: &[u8]) -> Picked {
    skipping(lent, state, sums, picks, &[])
}

/// The same; but some refusals skip a pick and do not stop it, Q-14.
pub fn skipping(
    lent: &Lent,
    state: &mut State,
    sums: &mut [i64],
    picks: &[u8],
    skips: &[u32],
) -> Picked {
    let (rows, plan) = match lent.judge() {
        Ok(judged) => judged,
        Err(refusal) => return Picked::refused(refusal),
    };
    let leaves = Leaves::of(rows, &plan);
    if let Err(refusal) = judge_state(&leaves, rows.n, state, sums) {
        return Picked::refused(refusal);
    }
    let net = Net {
        rows,
        plan: &plan,
        leaves: &leaves,
        movements: lent.movements,
    };
    take_all(net, state, sums, picks, skips)
}

/// "what a list of picks would do", Q-7: what they come to on a copy, and the ready set there.
pub fn preview(
    lent: &Lent,
    mut state: State,
    mut sums: Vec<i64>,
    picks: &[u8],
) -> Result<(Picked, Ready), Refusal> {
    let (rows, plan) = lent.judge()?;
    let leaves = Leaves::of(rows, &plan);
    judge_state(&leaves, rows.n, &state, &sums)?;
    let net = Net {
        rows,
        plan: &plan,
        leaves: &leaves,
        movements: lent.movements,
    };
    let picked = take_all(net, &mut state, &mut sums, picks, &[]);
    Ok((picked, ready_by(&leaves, &state)))
}

/// Picks in turn, up to the first that is refused and not skipped.
fn take_all(net: Net, state: &mut State, sums: &mut [i64], picks: &[u8], skips: &[u32]) -> Picked {
    let mut crew = Crew::new(net, state, sums);
    Picked::in_turn(picks, skips, |pick| crew.take(usize::from(pick), || false))
}

/// The workers whose pick neither 12 nor 13 would refuse.
pub fn ready(lent: &Lent, state: &State, sums: &[i64]) -> Result<Ready, Refusal> {
    let (rows, plan) = lent.judge()?;
    let leaves = Leaves::of(rows, &plan);
    judge_state(&leaves, rows.n, state, sums)?;
    Ok(ready_by(&leaves, state))
}

/// The ready set by the moves made.
fn ready_by(leaves: &Leaves, state: &State) -> Ready {
    let is_ready = |worker| leaves.is_ready(worker, &state.made);
    Ready::of(leaves.workers, is_ready)
}

/// Writes "the sums in original order" of a finished run.
pub fn forces(lent: &Lent, state: &State, sums: &[i64], forces: &mut [i64]) -> Result<(), Refusal> {
    let (rows, plan) = lent.judge()?;
    let leaves = Leaves::of(rows, &plan);
    judge_state(&leaves, rows.n, state, sums)?;
    if state.made != leaves.moves {
        return Err(Refusal::at(15, 0));
    }
    room(forces.len(), rows.n)?;
    for (&freedom, &sum) in plan.order.iter().zip(sums) {
        forces[freedom as usize] = sum;
    }
    Ok(())
}

/// Refusal 11: "list of sums not n long, or a worker's count past its moves".
pub fn judge_state(leaves: &Leaves, n: usize, state: &State, sums: &[i64]) -> Result<(), Refusal> {
    let past = |worker: usize| state.made[worker] > leaves.moves[worker];
    if sums.len() != n || (0..WORKERS).any(past) {
        return Err(Refusal::at(11, 0));
    }
    Ok(())
}

/// What the workers run on.
#[derive(Clone, Copy)]
pub struct Net<'a> {
    pub rows: Rows<'a>,
    pub plan: &'a SoundPlan<'a>,
    pub leaves: &'a Leaves,
    pub movements: &'a [i32],
}

/// Whether a worker may move: not known yet, yes until its leaf ends, or never again.
#[derive(Clone, Copy, PartialEq, Eq)]
enum Gate {
    Asked,
    Open,
    Ended,
}

/// Where a worker stands.
struct Walk {
    gate: Gate,
    /// The leaf, and the row's plan position, of the next move.
    leaf: usize,
    row: usize,
    /// The row's own movement, and its joined rows later in plan order with their entries.
    movement: i64,
    joined: Vec<(u32, i32)>,
    /// The load and store at hand: 0 for the diagonal, then for each joined row its own and the other's.
    step: usize,
    /// The sum that the step loads and stores, and the product that it adds.
    sum: usize,
    product: i64,
}

impl Walk {
    /// Where a worker stands that has made so many moves.
    fn new(net: Net, worker: usize, made: u32) -> Walk {
        let mut walk = Walk {
            gate: Gate::Ended,
            leaf: 0,
            row: 0,
            movement: 0,
            joined: Vec::new(),
            step: 0,
            sum: 0,
            product: 0,
        };
        if let Some(leaf) = net.leaves.next_leaf(worker, made, 0) {
            let (row, moves) = net.leaves.row_of_move(&net.leaves.leaves[leaf], made);
            walk.gate = Gate::Asked;
            walk.leaf = leaf;
            walk.enter_row(net, row);
            if moves >= 2 {
                walk.enter_step(net, moves as usize / 2);
            }
        }
        walk
    }

    /// Begins a row at its diagonal: "adding diagonal × own movement".
    fn enter_row(&mut self, net: Net, row: usize) {
        let freedom = net.plan.order[row] as usize;
        let mut diagonal = 0;
        self.joined.clear();
        for (other, value) in net.rows.entries(freedom) {
            let place = net.plan.places[other];
            if place as usize > row {
                self.joined.push((place, value));
            } else if place as usize == row {
                diagonal = value;
            }
        }
        self.joined.sort_unstable_by_key(|&(place, _)| place);
        self.row = row;
        self.movement = i64::from(net.movements[freedom]);
        self.step = 0;
        self.sum = row;
        self.product = i64::from(diagonal) * self.movement;
    }

    /// Begins a step after the diagonal's: the row's own sum, or the other's.
    fn enter_step(&mut self, net: Net, step: usize) {
        let (place, value) = self.joined[(step - 1) / 2];
        let value = i64::from(value);
        self.step = step;
        if step % 2 == 1 {
            let other = net.plan.order[place as usize] as usize;
            self.sum = self.row;
            self.product = value * i64::from(net.movements[other]);
        } else {
            self.sum = place as usize;
            self.product = value * self.movement;
        }
    }

    /// Goes on after a store: to the row's next step, the leaf's next row, or the worker's next leaf.
    fn go_on(&mut self, net: Net, worker: usize, made: u32) {
        if self.step < 2 * self.joined.len() {
            return self.enter_step(net, self.step + 1);
        }
        let leaves = net.leaves;
        if self.row + 1 < leaves.leaves[self.leaf].end {
            return self.enter_row(net, self.row + 1);
        }
        match leaves.next_leaf(worker, made, self.leaf + 1) {
            None => self.gate = Gate::Ended,
            Some(leaf) => {
                self.gate = Gate::Asked;
                self.leaf = leaf;
                self.enter_row(net, leaves.leaves[leaf].start);
            }
        }
    }
}

/// The workers of one call of picks.
pub struct Crew<'a> {
    net: Net<'a>,
    walks: Vec<Walk>,
    state: &'a mut State,
    sums: &'a mut [i64],
}

impl<'a> Crew<'a> {
    /// The plan's workers, each where its count says.
    pub fn new(net: Net<'a>, state: &'a mut State, sums: &'a mut [i64]) -> Crew<'a> {
        let workers = 0..net.leaves.workers;
        let walks = workers.map(|worker| Walk::new(net, worker, state.made[worker]));
        Crew {
            net,
            walks: walks.collect(),
            state,
            sums,
        }
    }

    /// Takes one pick: one load or one store, or the number of its refusal and no change. A worker that may move is
    /// refused with 19 if it is away.
    #[inline]
    pub fn take(&mut self, worker: usize, is_away: impl FnOnce() -> bool) -> Result<(), u32> {
        let walk = self.walks.get_mut(worker).ok_or(10u32)?;
        if walk.gate != Gate::Open {
            let leaf = &self.net.leaves.leaves[walk.leaf];
            ask(walk.gate, leaf, self.state)?;
            walk.gate = Gate::Open;
        }
        if is_away() {
            return Err(19);
        }
        let made = &mut self.state.made[worker];
        let held = &mut self.state.held[worker];
        if made.is_multiple_of(2) {
            *held = self.sums[walk.sum];
            *made += 1;
        } else {
            self.sums[walk.sum] = held.checked_add(walk.product).ok_or(14u32)?;
            *made += 1;
            walk.go_on(self.net, worker, *made);
        }
        Ok(())
    }

    /// Whether a worker of the plan has begun a row and not finished it.
    #[inline]
    pub fn is_inside(&self, worker: usize) -> bool {
        let walk = &self.walks[worker];
        walk.gate != Gate::Ended && (walk.step > 0 || self.state.made[worker] % 2 == 1)
    }
}

/// Refusals 12 and 13 of a worker whose gate is not open. Counts only grow, so a leaf once open stays open.
fn ask(gate: Gate, leaf: &Leaf, state: &State) -> Result<(), u32> {
    if gate == Gate::Ended {
        return Err(12);
    }
    if leaf.waits(&state.made) {
        return Err(13);
    }
    Ok(())
}
