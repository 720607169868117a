//! What include/mazhoketh.h and the README say of p: how many workers the plans of the matrix files keep moving.

use mazhoketh_tests::files;
use mazhoketh_tests::oracle::leaves::leaves_of;
use mazhoketh_tests::oracle::matrix::Matrix;
use mazhoketh_tests::oracle::prng::Prng;
use mazhoketh_tests::oracle::{nets, planner, WORKERS};

/// How many of 16 workers move at the same time, on average over a run in which each moves unless it waits.
fn moving(matrix: &Matrix, p: u32) -> f64 {
    let plan = planner::plan(matrix.rows(), WORKERS as u32, p);
    leaves_of(matrix, &plan).efficiency() * WORKERS as f64
}

/// Its mean over all matrix files.
fn mean_moving(p: u32) -> f64 {
    let files = files::matrix_files();
    let moving = files.iter().map(|path| moving(&files::read(path).1, p));
    moving.sum::<f64>() / files.len() as f64
}

/// 50 to 70 keep about as many workers moving as 60, and 99 less than half as many.
#[test]
fn sixty_first() {
    let sixty = mean_moving(60);
    for p in [50, 55, 65, 70] {
        let ratio = mean_moving(p) / sixty;
        assert!((0.95..1.05).contains(&ratio), "{p}: {ratio} times 60's");
    }
    assert!(mean_moving(99) < sixty / 2.0);
}

/// The moves of the longest chain are the ticks of a run in which everybody moves at once who does not wait.
#[test]
fn chains_are_runs() {
    let mut rng = Prng::new(21);
    for _ in 0..400 {
        let matrix = nets::random_net(&mut rng, 60);
        let (workers, p) = (1 + rng.below(16) as u32, 50 + rng.below(50) as u32);
        let leaves = leaves_of(&matrix, &planner::plan(matrix.rows(), workers, p));
        let mut made = [0; WORKERS];
        let mut ticks = 0;
        while made != leaves.moves {
            let moves = |worker: usize| {
                let next = leaves.next_leaf(worker, made[worker], 0);
                next.is_some_and(|leaf| !leaves.leaves[leaf].waits(&made))
            };
            made = std::array::from_fn(|worker| made[worker] + u32::from(moves(worker)));
            ticks += 1;
        }
        assert_eq!(leaves.longest_chain(), ticks, "{matrix:?} {workers} {p}");
    }
}
