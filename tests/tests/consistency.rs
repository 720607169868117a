//! Whole runs on random nets and on the matrix files: plans are sound, and machine, book and product agree.

use mazhoketh_tests::files;
use mazhoketh_tests::oracle::book::Book;
use mazhoketh_tests::oracle::machine::{self, Lent, State};
use mazhoketh_tests::oracle::matrix::{Matrix, Rows};
use mazhoketh_tests::oracle::nets::Roof;
use mazhoketh_tests::oracle::planner::{self, Plan};
use mazhoketh_tests::oracle::prng::Prng;
use mazhoketh_tests::oracle::{damage, nets, plans, text, Refusal, FIELDS};

/// A run beside its book.
struct Run {
    matrix: Matrix,
    movements: Vec<i32>,
    plan: Plan,
    groups: Vec<u32>,
    state: State,
    sums: Vec<i64>,
    book: Book,
}

impl Run {
    /// A fresh run.
    fn new(rng: &mut Prng, matrix: Matrix, plan: Plan) -> Run {
        let movements = nets::random_movements(rng, matrix.n);
        Run {
            groups: plan.flat(),
            state: State::fresh(),
            sums: vec![0; matrix.n as usize],
            book: Book::new(&matrix, &movements, &plan),
            matrix,
            movements,
            plan,
        }
    }

    /// What the run's calls are lent.
    fn lent(&self) -> Lent<'_> {
        Lent::new(&self.matrix, &self.movements, &self.plan, &self.groups)
    }

    /// A call of picks, compared with the book; the number taken.
    fn picks(&mut self, picks: &[u8]) -> u32 {
        let (mut state, mut sums) = (self.state.clone(), std::mem::take(&mut self.sums));
        let picked = machine::picks(&self.lent(), &mut state, &mut sums, picks);
        (self.state, self.sums) = (state, sums);
        assert_eq!(picked, self.book.picks(picks));
        assert_eq!(self.state.made, self.book.counts);
        picked.taken
    }

    /// A ready-set call, compared with the book: the ready workers.
    fn ready(&self) -> Vec<u8> {
        let ready = machine::ready(&self.lent(), &self.state, &self.sums);
        let ready = ready.expect("a begun run is never refused");
        assert_eq!(ready, self.book.ready());
        assert_eq!(ready.count == 0, self.book.is_finished());
        (0..16)
            .filter(|worker| ready.set >> worker & 1 == 1)
            .collect()
    }

    /// A force-list call for a list of a length, compared with the book and the product.
    fn forces(&self, length: usize) {
        let mut forces = vec![77; length];
        let answer = machine::forces(&self.lent(), &self.state, &self.sums, &mut forces);
        let told = self.book.forces(length);
        assert_eq!(
            answer,
            told.as_ref().map(|_| ()).map_err(|&refusal| refusal)
        );
        let n = self.matrix.n as usize;
        if answer.is_ok() {
            assert_eq!(forces[..n], self.matrix.rows().product(&self.movements));
            assert_eq!(Ok(&forces[..n]), told.as_deref());
        }
        let kept = if answer.is_ok() { n } else { 0 };
        assert!(forces[kept..].iter().all(|&force| force == 77));
    }

    /// Runs to the end in lists of at most so many picks.
    fn finish(&mut self, rng: &mut Prng, most: usize) {
        let n = self.matrix.n as usize;
        let mut taken = 0;
        loop {
            let ready = self.ready();
            if ready.is_empty() {
                break;
            }
            taken += self.picks(&some_picks(rng, &ready, self.book.moves().len(), most));
            if rng.chance(10) {
                self.forces(n - 1 + rng.below(3));
            }
        }
        assert_eq!(
            taken as usize,
            2 * n + 4 * self.matrix.rows().joined_pairs()
        );
        self.forces(n - 1);
        self.forces(n);
        self.forces(n + 2);
        for worker in 0..self.book.moves().len() {
            assert_eq!(self.picks(&[worker as u8]), 0);
        }
    }
}

/// Picks of ready workers, or of any workers and one that is none.
fn some_picks(rng: &mut Prng, ready: &[u8], workers: usize, most: usize) -> Vec<u8> {
    let any: Vec<u8> = (0..=workers as u8).collect();
    let among = if rng.chance(20) { &any } else { ready };
    plans::random_picks(rng, among, most)
}

/// The planner's plan, which must be sound.
fn planned(matrix: &Matrix, workers: u32, p: u32) -> Plan {
    let plan = planner::plan(matrix.rows(), workers, p);
    assert!(plans::is_sound(matrix, &plan));
    assert!(plan.groups.len() <= 369);
    plan
}

/// Writes and reads a matrix, and judges its rows.
fn write_and_read(matrix: &Matrix) {
    let Matrix {
        n,
        starts,
        columns,
        values,
    } = matrix;
    assert!(Rows::lent(*n, starts, columns, values).is_ok());
    assert_eq!(text::read(&text::write(matrix)).as_ref(), Ok(matrix));
}

#[test]
fn random_runs() {
    let mut rng = Prng::new(1);
    for round in 0..3_000 {
        let most = if round % 10 == 0 { 120 } else { 30 };
        let matrix = nets::random_net(&mut rng, most);
        write_and_read(&matrix);
        let (workers, p) = (1 + rng.below(16) as u32, 50 + rng.below(50) as u32);
        let plan = match rng.below(3) {
            0 => plans::random_plan(&mut rng, &matrix),
            _ => planned(&matrix, workers, p),
        };
        let most = rng.one_of(&[1, 5, 50, 1_000]);
        Run::new(&mut rng, matrix, plan).finish(&mut rng, most);
    }
}

#[test]
fn random_texts() {
    let mut rng = Prng::new(2);
    for _ in 0..3_000 {
        let matrix = nets::random_net(&mut rng, 40);
        let text = damage::random_text(&mut rng, &matrix);
        assert_eq!(text::read(&text), Ok(matrix));
    }
}

#[test]
fn capacities_of_plans() {
    let mut rng = Prng::new(3);
    for _ in 0..500 {
        let matrix = nets::random_net(&mut rng, 30);
        let plan = planned(&matrix, 8, 60);
        let (n, count) = (plan.order.len(), plan.groups.len());
        let into = |order: usize, groups: usize| {
            let mut lists = (vec![9; order], vec![9; groups]);
            let answer = planner::plan_into(matrix.rows(), 8, 60, 2, &mut lists.0, &mut lists.1);
            (answer, lists)
        };
        let short = |place| Err(Refusal::at(9, place));
        let kept = |order, groups| (vec![9; order], vec![9; groups]);
        assert_eq!(into(n - 1, 0), (short(n), kept(n - 1, 0)));
        assert_eq!(
            into(n, FIELDS * count - 1),
            (short(count), kept(n, FIELDS * count - 1))
        );
        let filled = (
            [&plan.order[..], &[9]].concat(),
            [&plan.flat()[..], &[9; 7]].concat(),
        );
        assert_eq!(into(n + 1, FIELDS * count + 7), (Ok(count as u32), filled));
    }
}

#[test]
fn largest_sums() {
    let n = 255;
    let dense = nets::dense_joins(n).into_iter();
    let all = dense.chain((0..n).map(|freedom| (freedom, freedom)));
    let matrix = nets::of_triples(n, all.map(|(row, column)| (row, column, -1_000_000_000)));
    let forces = matrix.rows().product(&vec![1_000_000; n as usize]);
    assert!(forces
        .iter()
        .all(|&force| force == -255_000_000_000_000_000));
    let star = nets::star_joins(4_096, 0).into_iter().chain([(0, 0)]);
    let order = |(one, two): (u32, u32)| (one.max(two), one.min(two), 1_000_000_000);
    let star = nets::of_triples(4_096, star.map(order));
    let forces = star.rows().product(&vec![1_000_000; 4_096]);
    assert_eq!(forces[0], 4_096_000_000_000_000_000);
}

#[test]
fn large_nets() {
    let mut rng = Prng::new(4);
    let roof = nets::roof(&mut rng, Roof::default());
    assert_eq!((roof.n, roof.entries().len()), (3_900, 25_116));
    let even: i64 = roof.rows().product(&vec![1; 3_900]).iter().sum();
    assert_eq!(even, 13 * (60_000 + 60_000 + 900_000));
    let shuffled = Roof {
        roofs: 3,
        spokes: 24,
        rings: 18,
        slack: 20,
        shuffled: true,
        ..Roof::default()
    };
    for matrix in [
        roof,
        nets::roof(&mut rng, shuffled),
        nets::chain(4_096),
        nets::unjoined(4_096),
    ] {
        write_and_read(&matrix);
        for (workers, p) in [(1, 60), (2, 50), (7, 75), (16, 60), (16, 99)] {
            planned(&matrix, workers, p);
        }
        let plan = planned(&matrix, 16, 60);
        Run::new(&mut rng, matrix, plan).finish(&mut rng, 20_000);
    }
}

#[test]
fn matrix_files_run() {
    let mut rng = Prng::new(5);
    for file in files::matrix_files() {
        let (_, matrix) = files::read(&file);
        write_and_read(&matrix);
        for workers in [1, 2, 5, 16] {
            planned(&matrix, workers, 60);
        }
        let plan = planned(&matrix, 16, 60);
        Run::new(&mut rng, matrix, plan).finish(&mut rng, 20_000);
    }
}
