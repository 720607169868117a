//! `mzk_picks_both` and `mzk_ready_both` beside the other implementation, and what document 02 says of two crews.

use mazhoketh_tests::cases::crews::{self, Crews, WholeRuns};
use mazhoketh_tests::cases::run;
use mazhoketh_tests::given::At;
use mazhoketh_tests::guarded::Twin;
use mazhoketh_tests::lists::{bytes, refusal_number};
use mazhoketh_tests::oracle::matrix::Matrix;
use mazhoketh_tests::oracle::prng::Prng;
use mazhoketh_tests::oracle::{calls, nets, planner, plans};
use mazhoketh_tests::{both, cases, library};

/// Asks for the ready sets in begun runs.
fn ask(_: &mut Prng, crews: &Crews, _: u64) {
    let word = both::ready_both(&crews.lists, &crews.at);
    assert_eq!(refusal_number(word), 0);
}

#[test]
fn random_states() {
    let seen = cases::each(191, 0..80_000, crews::picks);
    seen.require([0, 5, 6, 8, 10, 11, 12, 13, 14, 18, 19], 1_000);
}

#[test]
fn random_ready() {
    let seen = cases::each(192, 0..30_000, crews::ready);
    seen.require([0, 5, 6, 8, 11], 1_000);
}

/// Runs end after all moves of both, whatever was picked, and each crew's force list is its own product.
#[test]
fn random_runs() {
    let seen = cases::each(193, 0..2_000, |rng, seen| {
        let most = rng.one_of(&[3, 10, 100, 1_000]);
        WholeRuns::random(rng).finish(rng, most, |rng, crews, word| {
            seen.note(word);
            ask(rng, crews, word);
        });
    });
    seen.require([0, 10, 12, 13, 18, 19], 1_000);
}

#[test]
fn large_runs() {
    run::each_large(194, |rng, matrix, plan| {
        WholeRuns::new(rng, matrix, plan).finish(rng, 20_000, ask);
    });
}

/// "All answers and sums of one crew are the same with every movement list inside the limits that the other could
/// bring."
#[test]
fn other_movements() {
    cases::each(195, 0..1_000, |rng, _| {
        let matrix = nets::random_net(rng, 20);
        let plan = plans::random_plan(rng, &matrix);
        let [own, other, another] = [(); 3].map(|_| nets::random_movements(rng, matrix.n));
        let crew = rng.below(2);
        let with = |other| {
            let mut movements: [&[i32]; 2] = [&own; 2];
            movements[1 - crew] = other;
            movements
        };
        let mut first = Crews::fresh(rng, &matrix, with(&other), &plan);
        let mut second = Crews::fresh(rng, &matrix, with(&another), &plan);
        let most = rng.one_of(&[10, 100]);
        for _ in 0..30 {
            let picks = Twin::new(first.any_picks(rng, most));
            let words = [&mut first, &mut second].map(|crews| {
                let picked = both::picks_both(&crews.lists, &mut crews.at, &picks);
                [picked, both::ready_both(&crews.lists, &crews.at)]
            });
            assert_eq!(words[0], words[1], "the answers");
            let [one, two] = [&first, &second].map(|crews| &crews.at[crew]);
            assert_eq!(one.state.ours(), two.state.ours(), "the state");
            let sums = ..8 * matrix.n as usize;
            assert_eq!(one.sums.ours()[sums], two.sums.ours()[sums], "the sums");
        }
    });
}

/// A crew's state and sums are those of a run of its own, by the picks that were taken for it, all of which it takes.
#[test]
fn own_runs() {
    cases::each(199, 0..1_000, |rng, _| {
        let matrix = nets::random_net(rng, 20);
        let plan = plans::random_plan(rng, &matrix);
        let [movements0, movements1] = [(); 2].map(|_| nets::random_movements(rng, matrix.n));
        let mut crews = Crews::fresh(rng, &matrix, [&movements0, &movements1], &plan);
        let mut alone = [(); 2].map(|_| At::fresh(matrix.n));
        let most = rng.one_of(&[10, 100]);
        for _ in 0..30 {
            let picks = crews.any_picks(rng, most);
            let list = Twin::new(picks.clone());
            let word = both::picks_both(&crews.lists, &mut crews.at, &list);
            let taken = &picks[..word as u32 as usize];
            for (crew, At { state, sums }) in alone.iter_mut().enumerate() {
                let own = taken.iter().filter(|&pick| usize::from(pick / 16) == crew);
                let own: Vec<u8> = own.map(|pick| pick % 16).collect();
                let word = library::picks(crews.lists.ours().own(crew), state, sums, &own);
                assert_eq!(word, own.len() as u64, "all are taken");
                let both = &crews.at[crew];
                assert_eq!(state, both.state.ours(), "the state");
                assert_eq!(sums[..], both.sums.ours()[..sums.len()], "the sums");
            }
        }
    });
}

/// A worker of a crew, so many times.
fn times(crew: u8, worker: u8, count: usize) -> Vec<u8> {
    vec![16 * crew + worker; count]
}

/// The word of picks that are refused with a number at an index.
fn refused(number: u64, index: u64) -> u64 {
    number << 32 | index
}

/// The word of ready sets.
fn sets(sets: [u16; 2]) -> u64 {
    let [count0, count1] = sets.map(|set| u64::from(set.count_ones()));
    u64::from(sets[0]) | u64::from(sets[1]) << 16 | count0 << 40 | count1 << 48
}

/// Two crews from fresh over a net that is planned for so many workers, all movements 1.
fn planned(rng: &mut Prng, matrix: &Matrix, workers: u32) -> Crews {
    let plan = planner::plan(matrix.rows(), workers, 60);
    let movements = vec![1; matrix.n as usize];
    Crews::fresh(rng, matrix, [&movements; 2], &plan)
}

/// Document 01's chain: worker 0 has two red rows of 6 moves and two blue ones, worker 1 too, but its last has 2.
#[test]
fn order_of_refusals() {
    cases::each(196, 0..1, |rng, _| {
        let mut crews = planned(rng, &nets::chain(8), 2);
        let mut pick = |picks: Vec<u8>| {
            let word = both::picks_both(&crews.lists, &mut crews.at, &Twin::new(picks));
            (word, both::ready_both(&crews.lists, &crews.at))
        };
        assert_eq!(pick(vec![]), (0, sets([3, 3])));
        assert_eq!(pick(vec![16, 0]), (refused(19, 1), sets([2, 3])));
        for (wrong, number) in [(2, 10), (18, 10), (32, 18), (34, 18), (255, 18)] {
            assert_eq!(pick(vec![wrong]), (refused(number, 0), sets([2, 3])));
        }
        assert_eq!(pick(times(1, 0, 5)), (5, sets([3, 3])), "between rows");
        assert_eq!(pick(times(0, 0, 12)), (12, sets([2, 3])), "crew 0 waits");
        assert_eq!(pick(vec![16, 0]), (refused(13, 1), sets([2, 3])));
        assert_eq!(pick(times(0, 1, 12)), (12, sets([2, 3])));
        assert_eq!(pick(vec![0]), (refused(19, 0), sets([2, 3])));
        assert_eq!(pick(times(1, 0, 5)), (5, sets([3, 2])), "crew 1 waits");
        assert_eq!(pick(times(0, 0, 12)), (12, sets([2, 2])), "crew 0 is done");
        assert_eq!(pick(times(1, 1, 12)), (12, sets([2, 3])));
        assert_eq!(pick(vec![16, 0]), (refused(12, 1), sets([2, 3])));
        assert_eq!(pick(times(1, 0, 11)), (11, sets([2, 2])));
        assert_eq!(
            pick(times(0, 1, 8)),
            (8, sets([0, 2])),
            "one is empty sooner"
        );
        assert_eq!(pick(times(1, 1, 8)), (8, sets([0, 0])));
    });
}

/// One freedom and one worker: inside crew 0's row, crew 1's ready set is empty, though nothing of it is done.
#[test]
fn empty_sooner() {
    cases::each(197, 0..1, |rng, _| {
        let net = nets::of_triples(1, [(0, 0, 5)].into_iter());
        let mut crews = planned(rng, &net, 1);
        for (pick, ready) in [(0, [1, 0]), (0, [0, 1]), (16, [0, 1]), (16, [0, 0])] {
            let picks = Twin::new(vec![pick]);
            assert_eq!(both::picks_both(&crews.lists, &mut crews.at, &picks), 1);
            assert_eq!(both::ready_both(&crews.lists, &crews.at), sets(ready));
        }
    });
}

/// A made-up worker inside the rows of both crews is away from both; and 19 comes before 14.
#[test]
fn inside_both() {
    cases::each(198, 0..1, |rng, _| {
        let net = nets::of_triples(1, [(0, 0, 5)].into_iter());
        let mut crews = planned(rng, &net, 1);
        let mut state = vec![0; calls::STATE_BYTES];
        state[0] = 1;
        state[64..72].copy_from_slice(&bytes(&[i64::MAX], i64::to_le_bytes));
        for at in &mut crews.at {
            at.state = Twin::new(state.clone());
        }
        assert_eq!(both::ready_both(&crews.lists, &crews.at), sets([0, 0]));
        let pick = |crews: &mut Crews, pick| {
            both::picks_both(&crews.lists, &mut crews.at, &Twin::new(vec![pick]))
        };
        assert_eq!(pick(&mut crews, 0), refused(19, 0));
        assert_eq!(pick(&mut crews, 16), refused(19, 0));
        crews.at[1].state = Twin::new(vec![0; calls::STATE_BYTES]);
        assert_eq!(pick(&mut crews, 0), refused(14, 0));
        assert_eq!(both::ready_both(&crews.lists, &crews.at), sets([1, 0]));
    });
}
