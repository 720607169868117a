//! A net, its plan and its run as the byte lists that calls read: what is timed, and what stacks are measured on.

use crate::lists::{bytes, Altered, CrewLists, MatrixLists, PatternLists, PlanLists, RunLists};
use crate::oracle::leaves::{leaves_of, Leaves};
use crate::oracle::matrix::Matrix;
use crate::oracle::planner::Plan;
use crate::oracle::prng::Prng;
use crate::oracle::{calls, numbers, plan_file, planner, text, WORKERS};

/// The lists that a whole run is cut into.
const LISTS: usize = 1_000;

/// A state of a run and its sums, as bytes.
pub struct At {
    pub state: Vec<u8>,
    pub sums: Vec<u8>,
}

impl At {
    /// The fresh state of a run.
    pub fn fresh(n: u32) -> At {
        At {
            state: vec![0; calls::STATE_BYTES],
            sums: vec![0; 8 * n as usize],
        }
    }

    /// Makes the state and the sums fresh again.
    pub fn clear(&mut self) -> &mut At {
        self.state.fill(0);
        self.sums.fill(0);
        self
    }
}

/// The lists of a plan.
pub struct Made {
    order: Vec<u8>,
    groups: Vec<u8>,
    group_count: u32,
}

impl Made {
    fn of(plan: &Plan) -> Made {
        Made {
            order: bytes(&plan.order, u32::to_le_bytes),
            groups: bytes(&plan.flat(), u32::to_le_bytes),
            group_count: plan.group_count(),
        }
    }

    /// As calls take them.
    pub fn lists(&self) -> PlanLists<'_> {
        PlanLists {
            order: &self.order,
            groups: &self.groups,
            group_count: self.group_count,
        }
    }
}

/// What calls read: the lists of a net, of its plan for 16 workers and of a run.
pub struct Given {
    pub text: Vec<u8>,
    pub n: u32,
    pub row_starts: Vec<u8>,
    pub columns: Vec<u8>,
    pub values: Vec<u8>,
    /// The values with their signs turned, and for each row its own number as its place.
    pub opposite_values: Vec<u8>,
    pub places: Vec<u8>,
    pub movements: Vec<u8>,
    pub p: u32,
    pub order: Vec<u8>,
    pub groups: Vec<u8>,
    pub group_count: u32,
    /// Plans at 3 and at 4.
    pub farther: [Made; 2],
    /// The plan's file.
    pub file: Vec<u8>,
    /// Picks that take a fresh run to its end, and the states halfway and at the end.
    pub schedule: Vec<u8>,
    pub halfway: At,
    pub finished: At,
    /// The prepared list.
    pub prepared: Vec<u8>,
    /// The movements of a second crew, picks that take both from fresh to their ends, and their states halfway.
    pub movements1: Vec<u8>,
    pub schedule_both: Vec<u8>,
    pub halfway_both: [At; 2],
    /// A number for each row, of the sizes of movements and of forces by turns, and their text.
    pub list: Vec<u8>,
    pub lines: Vec<u8>,
}

/// So many numbers, of the sizes of movements and of forces by turns.
fn mixed_numbers(count: usize) -> Vec<i64> {
    let mut rng = Prng::new(7);
    let sizes = [1_000_000, 1_000_000_000_000].into_iter().cycle();
    sizes
        .take(count)
        .map(|most| rng.between(-most, most))
        .collect()
}

impl Given {
    /// The lists of a net that is planned with this p.
    pub fn new(matrix: &Matrix, p: u32) -> Given {
        let plan = planner::plan(matrix.rows(), 16, p);
        let movements = vec![-999_999; matrix.n as usize];
        let opposite: Vec<i32> = matrix.values.iter().map(|value| -value).collect();
        let places: Vec<u32> = (0..matrix.n).collect();
        let list = mixed_numbers(matrix.n as usize);
        let mut given = Given {
            text: text::write(matrix),
            n: matrix.n,
            row_starts: bytes(&matrix.starts, u32::to_le_bytes),
            columns: bytes(&matrix.columns, u32::to_le_bytes),
            values: bytes(&matrix.values, i32::to_le_bytes),
            opposite_values: bytes(&opposite, i32::to_le_bytes),
            places: bytes(&places, u32::to_le_bytes),
            movements: bytes(&movements, i32::to_le_bytes),
            p,
            order: bytes(&plan.order, u32::to_le_bytes),
            groups: bytes(&plan.flat(), u32::to_le_bytes),
            group_count: plan.group_count(),
            farther: [3, 4].map(|k| Made::of(&planner::plan_at(matrix.rows(), 16, p, k))),
            file: plan_file::write(&plan.order, &plan.flat()),
            schedule: Vec::new(),
            halfway: At::fresh(matrix.n),
            finished: At::fresh(matrix.n),
            prepared: Vec::new(),
            movements1: bytes(&vec![123_456; matrix.n as usize], i32::to_le_bytes),
            schedule_both: Vec::new(),
            halfway_both: [(); 2].map(|_| At::fresh(matrix.n)),
            list: bytes(&list, i64::to_le_bytes),
            lines: numbers::write(list),
        };
        given.prepared = given.prepared_list();
        given.schedule = given.whole_schedule();
        given.halfway = given.after(given.schedule.len() / 2);
        given.finished = given.after(given.schedule.len());
        given.schedule_both = given.whole_schedule_both(&leaves_of(matrix, &plan));
        given.halfway_both = given.after_both(given.schedule_both.len() / 2);
        given
    }

    /// The lists of the matrix.
    pub fn matrix(&self) -> MatrixLists<'_> {
        MatrixLists {
            n: self.n,
            row_starts: &self.row_starts,
            columns: &self.columns,
            values: &self.values,
        }
    }

    /// The lists of the matrix that is its opposite: sewn on at the same rows, every sum cancels.
    pub fn opposite(&self) -> MatrixLists<'_> {
        MatrixLists {
            values: &self.opposite_values,
            ..self.matrix()
        }
    }

    /// The lists of the matrix without its values.
    pub fn pattern(&self) -> PatternLists<'_> {
        PatternLists {
            n: self.n,
            row_starts: &self.row_starts,
            columns: &self.columns,
        }
    }

    /// The forces of the matrix and the movements.
    pub fn product(&self) -> Vec<u8> {
        let mut forces = vec![0; 8 * self.n as usize];
        calls::product(self.matrix(), &self.movements, &mut forces);
        forces
    }

    /// A new value for the diagonal's entry in the middle row.
    pub fn altered(&self) -> Altered {
        let (row, column) = (self.n / 2, self.n / 2);
        let value = 1_000_000;
        Altered { row, column, value }
    }

    /// The lists of the plan.
    pub fn plan(&self) -> PlanLists<'_> {
        PlanLists {
            order: &self.order,
            groups: &self.groups,
            group_count: self.group_count,
        }
    }

    /// The lists of the run.
    pub fn run(&self) -> RunLists<'_> {
        RunLists {
            matrix: self.matrix(),
            movements: &self.movements,
            plan: self.plan(),
        }
    }

    /// The lists of two crews.
    pub fn crews(&self) -> CrewLists<'_> {
        CrewLists {
            run: self.run(),
            movements1: &self.movements1,
        }
    }

    /// The prepared list of the run.
    fn prepared_list(&self) -> Vec<u8> {
        let bytes = calls::prepare(self.run(), &mut []) as u32;
        let mut list = vec![0; bytes as usize];
        calls::prepare(self.run(), &mut list);
        list
    }

    /// The picks of a whole run, in no order: each time one of the ready workers, drawn at random.
    fn whole_schedule(&self) -> Vec<u8> {
        let mut rng = Prng::new(16);
        let mut schedule = Vec::new();
        let At { mut state, mut sums } = At::fresh(self.n);
        loop {
            let set = calls::prepared_ready(&self.prepared, &state, &sums);
            let ready: Vec<u8> = (0..16).filter(|worker| set >> worker & 1 == 1).collect();
            if ready.is_empty() {
                return schedule;
            }
            let worker = rng.one_of(&ready);
            calls::prepared_picks(&self.prepared, &mut state, &mut sums, &[worker]);
            schedule.push(worker);
        }
    }

    /// The state after so many picks of the schedule.
    fn after(&self, picks: usize) -> At {
        let mut at = At::fresh(self.n);
        let picks = &self.schedule[..picks];
        calls::picks(self.run(), &mut at.state, &mut at.sums, picks);
        at
    }

    /// The picks of two whole runs: the schedule for crew 0, and after each row that a worker ends the same row for
    /// crew 1.
    fn whole_schedule_both(&self, leaves: &Leaves) -> Vec<u8> {
        let mut schedule = Vec::new();
        let (mut made, mut begun) = ([0; WORKERS], [0; WORKERS]);
        for &worker in &self.schedule {
            let (made, begun) = (&mut made[worker as usize], &mut begun[worker as usize]);
            schedule.push(worker);
            *made += 1;
            *begun += 1;
            if leaves.moves_in_row(worker.into(), *made).0 == 0 {
                schedule.extend(std::iter::repeat_n(WORKERS as u8 + worker, *begun));
                *begun = 0;
            }
        }
        schedule
    }

    /// The states after so many picks of the schedule for both.
    fn after_both(&self, picks: usize) -> [At; 2] {
        let mut at = [(); 2].map(|_| At::fresh(self.n));
        let [at0, at1] = &mut at;
        calls::picks_both(
            self.crews(),
            [&mut at0.state, &mut at1.state],
            [&mut at0.sums, &mut at1.sums],
            &self.schedule_both[..picks],
        );
        at
    }

    /// The schedule in many lists.
    pub fn lists(&self) -> impl Iterator<Item = &[u8]> {
        self.schedule.chunks(self.schedule.len().div_ceil(LISTS))
    }
}
