//! The calls on byte lists against the functions on numbers, on good and damaged lists of every length.

use mazhoketh_tests::lists::{bytes, MatrixLists, PlanLists, RunLists};
use mazhoketh_tests::oracle::machine::{self, Lent, State};
use mazhoketh_tests::oracle::matrix::{Matrix, Rows};
use mazhoketh_tests::oracle::planner::Plan;
use mazhoketh_tests::oracle::prng::Prng;
use mazhoketh_tests::oracle::{calls, damage, nets, planner, plans, soundness, text, Refusal};

/// The answer word.
fn word(answer: Result<u32, Refusal>) -> u64 {
    answer.map_or_else(
        |r| u64::from(r.number) << 32 | u64::from(r.place),
        u64::from,
    )
}

/// Lists as numbers, some damaged, and a few stray bytes that end each list of bytes.
struct Case {
    matrix: Matrix,
    movements: Vec<i32>,
    order: Vec<u32>,
    groups: Vec<u32>,
    group_count: u32,
    state: State,
    sums: Vec<i64>,
    picks: Vec<u8>,
}

impl Case {
    /// A random case, damaged at random.
    fn new(rng: &mut Prng) -> Case {
        let matrix = nets::random_net(rng, 16);
        let plan: Plan = plans::random_plan(rng, &matrix);
        let any: Vec<u8> = (0..=plan.groups[0][3] as u8).collect();
        let mut case = Case {
            movements: nets::random_movements(rng, matrix.n),
            order: plan.order.clone(),
            groups: plan.flat(),
            group_count: plan.group_count(),
            state: State::fresh(),
            sums: vec![0; matrix.n as usize],
            picks: plans::random_picks(rng, &any, 40),
            matrix,
        };
        case.damage(rng);
        case
    }

    /// Damages none, one or more of the lists.
    fn damage(&mut self, rng: &mut Prng) {
        if rng.chance(15) {
            damage::damage_matrix(rng, &mut self.matrix);
        }
        if rng.chance(15) {
            damage::damage_plan(
                rng,
                &mut self.order,
                &mut self.groups,
                &mut self.group_count,
            );
        }
        if rng.chance(10) {
            self.movements.push(1_000_001);
            let last = self.movements.len() - 1;
            let at = rng.below(last + 1);
            self.movements.swap(at, last);
        }
        if rng.chance(70) {
            self.movements.truncate(self.matrix.n as usize);
        }
        if rng.chance(10) {
            self.state.made[rng.below(16)] = rng.below(30) as u32;
        }
        if rng.chance(5) {
            self.sums.pop();
        }
    }

    /// What a run's call is lent.
    fn lent(&self) -> Lent<'_> {
        Lent {
            n: self.matrix.n,
            starts: &self.matrix.starts,
            columns: &self.matrix.columns,
            values: &self.matrix.values,
            movements: &self.movements,
            order: &self.order,
            groups: &self.groups,
            group_count: self.group_count,
        }
    }

    /// The matrix, or 5.
    fn rows(&self) -> Result<Rows<'_>, Refusal> {
        let Matrix {
            n,
            starts,
            columns,
            values,
        } = &self.matrix;
        Rows::lent(*n, starts, columns, values)
    }
}

/// The case's lists as bytes.
struct Bytes {
    n: u32,
    starts: Vec<u8>,
    columns: Vec<u8>,
    values: Vec<u8>,
    movements: Vec<u8>,
    order: Vec<u8>,
    groups: Vec<u8>,
    count: u32,
    state: Vec<u8>,
    sums: Vec<u8>,
}

impl Bytes {
    /// The bytes of a case, each list but the state ended by fewer stray bytes than make a number.
    fn new(rng: &mut Prng, case: &Case) -> Bytes {
        let mut stray = |mut list: Vec<u8>| {
            list.extend(vec![0xee; rng.below(4)]);
            list
        };
        Bytes {
            n: case.matrix.n,
            starts: stray(bytes(&case.matrix.starts, u32::to_le_bytes)),
            columns: stray(bytes(&case.matrix.columns, u32::to_le_bytes)),
            values: stray(bytes(&case.matrix.values, i32::to_le_bytes)),
            movements: stray(bytes(&case.movements, i32::to_le_bytes)),
            order: stray(bytes(&case.order, u32::to_le_bytes)),
            groups: stray(bytes(&case.groups, u32::to_le_bytes)),
            count: case.group_count,
            state: state_bytes(&case.state),
            sums: stray(bytes(&case.sums, i64::to_le_bytes)),
        }
    }

    /// The lists of the matrix.
    fn matrix(&self) -> MatrixLists<'_> {
        MatrixLists {
            n: self.n,
            row_starts: &self.starts,
            columns: &self.columns,
            values: &self.values,
        }
    }

    /// The lists of the plan.
    fn plan(&self) -> PlanLists<'_> {
        PlanLists {
            order: &self.order,
            groups: &self.groups,
            group_count: self.count,
        }
    }

    /// The lists of the run.
    fn run(&self) -> RunLists<'_> {
        RunLists {
            matrix: self.matrix(),
            movements: &self.movements,
            plan: self.plan(),
        }
    }
}

/// A state's 192 bytes.
fn state_bytes(state: &State) -> Vec<u8> {
    let made = bytes(&state.made, u32::to_le_bytes);
    [made, bytes(&state.held, i64::to_le_bytes)].concat()
}

/// Numbers put over the front of a list of bytes.
fn over(front: Vec<u8>, list: &[u8]) -> Vec<u8> {
    let rest = &list[front.len()..];
    [front.as_slice(), rest].concat()
}

#[test]
fn run_calls() {
    let mut rng = Prng::new(21);
    let mut seen = [0; 16];
    for _ in 0..20_000 {
        let mut case = Case::new(&mut rng);
        let mut b = Bytes::new(&mut rng, &case);
        let before = (b.state.clone(), b.sums.clone());
        let (mut list, mut sums) = before.clone();
        let answer = calls::picks(b.run(), &mut list, &mut sums, &case.picks);
        (b.state, b.sums) = (list, sums);
        let (mut state, mut sums) = (case.state.clone(), case.sums.clone());
        let picked = machine::picks(&case.lent(), &mut state, &mut sums, &case.picks);
        (case.state, case.sums) = (state, sums);
        assert_eq!(answer, word(picked.stopped.map_or(Ok(picked.taken), Err)));
        assert_eq!(b.state, state_bytes(&case.state));
        assert_eq!(b.sums, over(bytes(&case.sums, i64::to_le_bytes), &before.1));
        if [5, 6, 8, 11].contains(&(answer >> 32)) {
            assert_eq!((&b.state, &b.sums), (&before.0, &before.1));
        }
        seen[(answer >> 32) as usize] += 1;
        ready_and_forces(&mut rng, &case, &b);
    }
    let met = [0, 5, 6, 8, 10, 11, 12, 13];
    assert!(met.iter().all(|&number| seen[number] > 20), "{seen:?}");
}

/// Compares the two calls that change no state.
fn ready_and_forces(rng: &mut Prng, case: &Case, b: &Bytes) {
    let ready = calls::ready(b.run(), &b.state, &b.sums);
    let told = machine::ready(&case.lent(), &case.state, &case.sums);
    let told = told.map(|ready| u32::from(ready.set) + 65_536 * ready.count);
    assert_eq!(ready, word(told));
    let length = (case.order.len() + rng.below(3)).saturating_sub(1);
    let mut list = vec![0xcc; 8 * length + rng.below(8)];
    let kept = list.clone();
    let answer = calls::forces(b.run(), &b.state, &b.sums, &mut list);
    let mut forces = vec![0xcccc_cccc_cccc_ccccu64 as i64; length];
    let told = machine::forces(&case.lent(), &case.state, &case.sums, &mut forces);
    assert_eq!(answer, word(told.map(|()| 0)));
    assert_eq!(list, over(bytes(&forces, i64::to_le_bytes), &kept));
    let short = calls::ready(b.run(), &b.state[1..], &b.sums);
    assert_eq!(
        short,
        word(Err(case.lent().judge().err().unwrap_or(Refusal::at(11, 0))))
    );
}

#[test]
fn matrix_calls() {
    let mut rng = Prng::new(22);
    for _ in 0..20_000 {
        let case = Case::new(&mut rng);
        let b = Bytes::new(&mut rng, &case);
        let k = 1 + rng.below(4) as u32;
        let check = calls::check(b.matrix(), b.plan(), k);
        let sound =
            |rows| soundness::check_at(rows, &case.order, &case.groups, case.group_count, k);
        assert_eq!(check, word(case.rows().and_then(sound).map(|_| 0)));
        let length = rng.below(20);
        let mut list = vec![0xcc; 8 * length + rng.below(8)];
        let kept = list.clone();
        let answer = calls::product(b.matrix(), &b.movements, &mut list);
        let mut forces = vec![0xcccc_cccc_cccc_ccccu64 as i64; length];
        let told = case
            .rows()
            .and_then(|rows| rows.product_into(&case.movements, &mut forces));
        assert_eq!(answer, word(told.map(|()| 0)));
        assert_eq!(list, over(bytes(&forces, i64::to_le_bytes), &kept));
        write_and_plan(&mut rng, &case, &b);
    }
}

/// Compares the writer and the planner.
fn write_and_plan(rng: &mut Prng, case: &Case, b: &Bytes) {
    let length = rng.below(600);
    let (mut list, mut told) = (vec![0xcc; length], vec![0xcc; length]);
    let answer = calls::write(b.matrix(), &mut list);
    let expected = case
        .rows()
        .and_then(|rows| text::write_into(rows, &mut told));
    assert_eq!((answer, list), (word(expected), told));
    let (workers, p) = (rng.below(19) as u32, 48 + rng.below(54) as u32);
    let k = rng.below(6) as u32;
    let (order_length, groups_length) = (rng.below(20), rng.below(200));
    let mut order = vec![0xcc; 4 * order_length + rng.below(4)];
    let mut groups = vec![0xcc; 4 * groups_length + rng.below(4)];
    let kept = (order.clone(), groups.clone());
    let answer = calls::plan(b.matrix(), workers, p, k, &mut order, &mut groups);
    let mut numbers = (
        vec![0xcccc_cccc; order_length],
        vec![0xcccc_cccc; groups_length],
    );
    let told = case
        .rows()
        .and_then(|rows| planner::plan_into(rows, workers, p, k, &mut numbers.0, &mut numbers.1));
    assert_eq!(answer, word(told));
    assert_eq!(order, over(bytes(&numbers.0, u32::to_le_bytes), &kept.0));
    assert_eq!(groups, over(bytes(&numbers.1, u32::to_le_bytes), &kept.1));
}

#[test]
fn read_calls() {
    let mut rng = Prng::new(23);
    for _ in 0..20_000 {
        let matrix = nets::random_net(&mut rng, 6);
        let mut text = damage::random_text(&mut rng, &matrix);
        if rng.chance(30) {
            damage::damage_text(&mut rng, &mut text);
        }
        let lengths = [8, 30, 30].map(|most| rng.below(most));
        let mut lists = lengths.map(|length| vec![0xcc; 4 * length + rng.below(4)]);
        let kept = lists.clone();
        let [starts, columns, values] = &mut lists;
        let answer = calls::read(&text, starts, columns, values);
        let mut starts = vec![0xcccc_cccc; lengths[0]];
        let mut columns = vec![0xcccc_cccc; lengths[1]];
        let mut values = vec![0xcccc_ccccu32 as i32; lengths[2]];
        let told = text::read_into(&text, &mut starts, &mut columns, &mut values);
        assert_eq!(answer, word(told));
        assert_eq!(lists[0], over(bytes(&starts, u32::to_le_bytes), &kept[0]));
        assert_eq!(lists[1], over(bytes(&columns, u32::to_le_bytes), &kept[1]));
        assert_eq!(lists[2], over(bytes(&values, i32::to_le_bytes), &kept[2]));
    }
}
