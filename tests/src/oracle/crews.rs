//! Two crews on one set of cores (document 02, Q-9): picks and ready sets of two runs over one matrix and plan.

use super::leaves::Leaves;
use super::machine::{judge_state, Crew, Lent, Net, Picked, Ready, State};
use super::matrix::Rows;
use super::soundness::SoundPlan;
use super::{Refusal, WORKERS};

/// What a call for both is lent beside states and sums: crew 0's run, and the movements of crew 1.
#[derive(Clone, Copy, Debug)]
pub struct LentBoth<'a> {
    pub run: Lent<'a>,
    pub movements1: &'a [i32],
}

/// A crew's state and sums.
#[derive(Clone, Debug, PartialEq, Eq)]
pub struct At {
    pub state: State,
    pub sums: Vec<i64>,
}

impl<'a> LentBoth<'a> {
    /// Refusals 5, 6 and 8, else the matrix and its plan: "In each check crew 0's lists come before crew 1's."
    pub fn judge(&self) -> Result<(Rows<'a>, SoundPlan<'a>), Refusal> {
        self.run.judge_with(&[self.movements1])
    }
}

/// The leaves of the plan, or 11 of crew 0, then of crew 1.
fn judge_states(rows: Rows, plan: &SoundPlan, at: &[At; 2]) -> Result<Leaves, Refusal> {
    let leaves = Leaves::of(rows, plan);
    for At { state, sums } in at {
        judge_state(&leaves, rows.n, state, sums)?;
    }
    Ok(leaves)
}

/// Takes picks for both in turn until one is refused: "a pick byte is 16 × crew + worker".
pub fn picks(lent: &LentBoth, at: &mut [At; 2], picks: &[u8]) -> Picked {
    let judged = lent.judge().and_then(|(rows, plan)| {
        let leaves = judge_states(rows, &plan, at)?;
        Ok((rows, plan, leaves))
    });
    let (rows, plan, leaves) = match judged {
        Ok(judged) => judged,
        Err(refusal) => return Picked::refused(refusal),
    };
    let net = |movements| Net {
        rows,
        plan: &plan,
        leaves: &leaves,
        movements,
    };
    let [at0, at1] = at;
    let mut crew0 = Crew::new(net(lent.run.movements), &mut at0.state, &mut at0.sums);
    let mut crew1 = Crew::new(net(lent.movements1), &mut at1.state, &mut at1.sums);
    Picked::in_turn(picks, &[], |pick| {
        let worker = usize::from(pick) % WORKERS;
        match usize::from(pick) / WORKERS {
            0 => crew0.take(worker, || crew1.is_inside(worker)),
            1 => crew1.take(worker, || crew0.is_inside(worker)),
            _ => Err(18),
        }
    })
}

/// The ready sets of both: "A worker that has begun a row for one crew must finish it before it serves the other; until
/// then the other's ready set leaves it out."
pub fn ready(lent: &LentBoth, at: &[At; 2]) -> Result<[Ready; 2], Refusal> {
    let (rows, plan) = lent.judge()?;
    let leaves = judge_states(rows, &plan, at)?;
    let [made0, made1] = [&at[0].state.made, &at[1].state.made];
    Ok([(made0, made1), (made1, made0)].map(|(own, other)| {
        Ready::of(leaves.workers, |worker| {
            let begun = leaves.moves_in_row(worker, other[worker]).0;
            leaves.is_ready(worker, own) && begun == 0
        })
    }))
}
