//! The samples of document 01 and the examples of its readings.

use mazhoketh_tests::lists::{bytes, MatrixLists, PlanLists, RunLists};
use mazhoketh_tests::oracle::book::Book;
use mazhoketh_tests::oracle::machine::{self, Lent, Picked, State};
use mazhoketh_tests::oracle::matrix::{judge_movements, Matrix, Rows};
use mazhoketh_tests::oracle::netplan::netplan;
use mazhoketh_tests::oracle::planner::{self, Plan};
use mazhoketh_tests::oracle::text::{self, LINE_1};
use mazhoketh_tests::oracle::{calls, nets, soundness, Fields, Refusal, FIELDS};

/// The text of line 1 and more.
fn after_line_1(more: &str) -> Vec<u8> {
    [LINE_1, more.as_bytes()].concat()
}

/// What the reader refuses a text with.
fn refusal(text: &[u8]) -> (u32, u32) {
    let Refusal { number, place } = text::read(text).expect_err("the text is refused");
    (number, place)
}

/// What the reader refuses line 1 and more with.
fn refusal_after_line_1(more: &str) -> (u32, u32) {
    refusal(&after_line_1(more))
}

/// The plan's records for eight freedoms at `2 60`.
const CHAIN_GROUPS: [Fields; 5] = [
    [0, 8, 0, 2, 0, 0, 0],
    [0, 2, 0, 1, 1, 0, 1],
    [2, 2, 0, 1, 2, 0, 1],
    [4, 2, 1, 1, 1, 0, 1],
    [6, 2, 1, 1, 2, 0, 1],
];

/// A run's lists beside state and sums.
struct Lists {
    matrix: Matrix,
    movements: Vec<i32>,
    plan: Plan,
    groups: Vec<u32>,
}

impl Lists {
    /// The lists of a matrix, one movement for all freedoms, and the planner's plan.
    fn new(matrix: Matrix, movement: i32, workers: u32, p: u32) -> Lists {
        let plan = planner::plan(matrix.rows(), workers, p);
        Lists {
            movements: vec![movement; matrix.n as usize],
            groups: plan.flat(),
            matrix,
            plan,
        }
    }

    /// What a call is lent.
    fn lent(&self) -> Lent<'_> {
        Lent::new(&self.matrix, &self.movements, &self.plan, &self.groups)
    }

    /// The forces of a run of single picks of the lowest ready worker, and the number of picks.
    fn run(&self) -> (Vec<i64>, usize) {
        let mut state = State::fresh();
        let mut sums = vec![0; self.matrix.n as usize];
        let mut taken = 0;
        loop {
            let ready = machine::ready(&self.lent(), &state, &sums).expect("the state is good");
            if ready.count == 0 {
                break;
            }
            let pick = [ready.set.trailing_zeros() as u8];
            machine::picks(&self.lent(), &mut state, &mut sums, &pick);
            taken += 1;
        }
        let mut forces = vec![0; self.matrix.n as usize];
        machine::forces(&self.lent(), &state, &sums, &mut forces).expect("the run is finished");
        (forces, taken)
    }
}

#[test]
fn chain_plan() {
    let plan = planner::plan(nets::chain(8).rows(), 2, 60);
    assert_eq!(plan.order, [0, 1, 2, 3, 4, 5, 6, 7]);
    assert_eq!(plan.groups, CHAIN_GROUPS);
}

#[test]
fn chain_moves() {
    let lists = Lists::new(nets::chain(8), 1, 2, 60);
    let book = Book::new(&lists.matrix, &lists.movements, &lists.plan);
    assert_eq!(book.moves(), [24, 20]);
}

#[test]
fn chain_thirteen_picks() {
    let lists = Lists::new(nets::chain(8), 1, 2, 60);
    let expected = Picked {
        taken: 12,
        stopped: Some(Refusal::at(13, 12)),
    };
    let mut state = State::fresh();
    let mut sums = vec![0; 8];
    let picked = machine::picks(&lists.lent(), &mut state, &mut sums, &[0; 13]);
    assert_eq!(picked, expected);
    assert_eq!(state.made[..2], [12, 0]);
    let mut book = Book::new(&lists.matrix, &lists.movements, &lists.plan);
    assert_eq!(book.picks(&[0; 13]), expected);
}

#[test]
fn chain_forces() {
    let lists = Lists::new(nets::chain(8), 1, 2, 60);
    let expected = vec![1, 0, 0, 0, 0, 0, 0, 1];
    assert_eq!(lists.matrix.rows().product(&lists.movements), expected);
    assert_eq!(lists.run(), (expected, 44));
}

#[test]
fn one_freedom() {
    let matrix = nets::of_triples(1, [(0, 0, 5)].into_iter());
    let lists = Lists::new(matrix, -3, 16, 50);
    assert_eq!(lists.plan.groups, [[0, 1, 0, 16, 0, 0, 0]]);
    assert_eq!(lists.run(), (vec![-15], 2));
}

#[test]
fn eight_unjoined() {
    let matrix = nets::unjoined(8);
    let (levels, highest) = planner::levels(matrix.rows(), &[0, 1, 2, 3, 4, 5, 6, 7]);
    assert_eq!(levels, [0, 2, 4, 6, 8, 10, 12, 14]);
    assert_eq!(highest, 15);
    assert_eq!(planner::plan(matrix.rows(), 2, 60).groups, CHAIN_GROUPS);
}

#[test]
fn two_joined() {
    let plan = planner::plan(nets::chain(2).rows(), 16, 60);
    assert_eq!(plan.groups, [[0, 2, 0, 16, 0, 0, 0]]);
}

#[test]
fn sixteen_and_back() {
    let loads = (1..=16).chain((1..16).rev());
    let mut ends = vec![0];
    for load in loads {
        ends.push(ends[ends.len() - 1] + load);
    }
    assert_eq!(ends[31], 256);
    let first = planner::pairs(&ends, 8, 60)[0];
    assert_eq!((first.first, first.cut, first.end), (0, 5, 7));
    assert_eq!(ends[7], 28);
    assert_eq!((ends[5], ends[7] - ends[5]), (15, 13));
}

#[test]
fn nearness() {
    assert_eq!(planner::nearest(3, 1, 2), 2);
    assert_eq!(planner::nearest(3, 1, 5), 1);
    assert!(!planner::serves(3, 1, 5, 1, 60));
    assert!(planner::serves(3, 1, 5, 1, 59));
    assert_eq!(planner::nearest(0, 4, 9), 1);
}

#[test]
fn zeros_in_text() {
    assert_eq!(refusal_after_line_1("2 2 1\n2 1 -0\n"), (2, 3));
    let matrix = text::read(&after_line_1("2 2 1\n2 1 0\n")).expect("a stored zero is read");
    assert_eq!(matrix.rows().joined_pairs(), 1);
    assert_eq!(matrix.columns, [1, 0]);
}

#[test]
fn limits_of_n() {
    let passes = text::read(&after_line_1("4096 4096 0\n")).expect("4,096 freedoms pass");
    assert_eq!(passes.n, 4_096);
    assert_eq!(refusal_after_line_1("4097 4097 0\n"), (3, 2));
    assert_eq!(refusal_after_line_1("0 0 0\n"), (3, 2));
}

#[test]
fn limits_of_p_and_workers() {
    let seven = Err(Refusal::at(7, 0));
    for (workers, p, answer) in [
        (1, 50, Ok(())),
        (16, 99, Ok(())),
        (1, 49, seven),
        (1, 100, seven),
        (0, 60, seven),
        (17, 60, seven),
    ] {
        assert_eq!(planner::judge_limits(workers, p, 2), answer);
    }
}

#[test]
fn empty_text() {
    assert_eq!(refusal(b""), (1, 1));
    assert_eq!(refusal(&LINE_1[..LINE_1.len() - 1]), (1, 1));
    assert_eq!(
        refusal(b"%%MatrixMarket matrix coordinate integer general\n"),
        (1, 1)
    );
}

#[test]
fn levels_with_outsiders() {
    let matrix = nets::of_triples(4, [(1, 0, 1), (2, 1, 1), (3, 1, 1)].into_iter());
    let (levels, highest) = planner::levels(matrix.rows(), &[0, 2, 3]);
    assert_eq!((levels, highest), (vec![0, 2, 2], 3));
}

/// A chain numbered from its middle, 3 1 0 2 4, starts at an end; a freedom's joins outside its group count.
#[test]
fn roots_at_the_edge() {
    let triples = [(1, 0, 1), (2, 0, 1), (3, 1, 1), (4, 2, 1)];
    let matrix = nets::of_triples(5, triples.into_iter());
    let (levels, highest) = planner::levels(matrix.rows(), &[0, 1, 2, 3, 4]);
    assert_eq!((levels, highest), (vec![2, 1, 3, 0, 4], 5));
    let matrix = nets::of_triples(4, [(1, 0, 1), (2, 1, 1), (3, 1, 1)].into_iter());
    let (levels, highest) = planner::levels(matrix.rows(), &[1, 3]);
    assert_eq!((levels, highest), (vec![1, 0], 2));
}

#[test]
fn unended_lines() {
    assert_eq!(refusal_after_line_1("%x"), (2, 2));
    assert_eq!(refusal_after_line_1("1 2 0"), (2, 2));
    assert_eq!(refusal_after_line_1("1 1 1\n1 1 1"), (2, 3));
    assert_eq!(refusal_after_line_1("1 1 1\n1 2 1"), (2, 3));
}

#[test]
fn missing_and_many_lines() {
    assert_eq!(refusal_after_line_1(""), (2, 2));
    assert_eq!(refusal_after_line_1("%\n%\n"), (2, 4));
    assert_eq!(refusal_after_line_1("1 1 2\n"), (2, 3));
    for more in [" ", "\n", "%\n", "%", "1 1 1\n", "x"] {
        assert_eq!(refusal_after_line_1(&format!("1 1 0\n{more}")), (2, 3));
    }
}

#[test]
fn line_by_line() {
    assert_eq!(refusal_after_line_1("2 1 1\nx\n"), (3, 2));
    assert_eq!(refusal_after_line_1("2 2 2\n1 2 1\nx\n"), (4, 3));
    assert_eq!(refusal_after_line_1("2 2 2\n1 1 1\n1 1 1\n1 1 1\n"), (4, 4));
    assert_eq!(refusal_after_line_1("1 1 2\n1 1 5\n1 1 5\n"), (4, 4));
    assert_eq!(refusal_after_line_1("1 1 3\n1 1 5\n1 1 5\nx\n"), (4, 4));
    assert_eq!(refusal_after_line_1("1 1 32768\n"), (2, 3));
    assert_eq!(refusal_after_line_1("1 1 32769\n"), (3, 2));
}

#[test]
fn length_first() {
    let mut text = vec![b'x'; text::LONGEST];
    assert_eq!(refusal(&text), (1, 1));
    text.push(b'x');
    assert_eq!(refusal(&text), (2, 0));
    let mut text = after_line_1("%");
    text.resize(text::LONGEST - 7, b'z');
    text.extend(b"\n1 1 0\n");
    assert_eq!(text::read(&text).map(|matrix| matrix.n), Ok(1));
}

#[test]
fn long_numbers() {
    assert_eq!(refusal_after_line_1("4294967297 4294967297 0\n"), (3, 2));
    assert_eq!(refusal_after_line_1("1 1 4294967296\n"), (3, 2));
    assert_eq!(refusal_after_line_1("1 1 1\n4294967297 1 1\n"), (4, 3));
    assert_eq!(refusal_after_line_1("1 1 1\n1 1 4294967297\n"), (4, 3));
    assert_eq!(refusal_after_line_1("1 1 1\n1 1 -9999999999\n"), (4, 3));
    assert_eq!(refusal_after_line_1("1 1 1\n1 1 10000000000\n"), (2, 3));
    assert_eq!(refusal_after_line_1("10000000000 1 0\n"), (2, 2));
    assert_eq!(refusal_after_line_1("1 1 1\n1 1 1000000001\n"), (4, 3));
    assert!(text::read(&after_line_1("1 1 1\n1 1 -1000000000\n")).is_ok());
}

#[test]
fn signs_and_others() {
    assert_eq!(refusal_after_line_1("1 1 1\n0 1 1\n"), (4, 3));
    assert_eq!(refusal_after_line_1("1 1 1\n1 0 1\n"), (4, 3));
    for line in [
        "-1 1 1", "1 -1 1", "1 1 +1", "1\t1 1", "1 1 1\r", " 1 1 1", "1 1 1 ", "1 1", "1 1 1 1",
        "1 1 01", "01 1 1", "1 1 -", "1 1 --1", "1 1 1.0", "", "%", "1 1 -01",
    ] {
        assert_eq!(
            refusal_after_line_1(&format!("1 1 1\n{line}\n")),
            (2, 3),
            "{line}"
        );
    }
    for line in ["-1 1 0", "1 1 -1", "1 1", "", " 1 1 0", "1 1 00"] {
        assert_eq!(refusal_after_line_1(&format!("{line}\n")), (2, 2), "{line}");
    }
    let wide = text::read(&after_line_1("%\n%\u{ff}\n1   1 1\n1  1    -7\n"));
    assert_eq!(wide.map(|matrix| matrix.values), Ok(vec![-7]));
}

#[test]
fn reader_capacities() {
    let text = after_line_1("2 2 2\n1 1 7\n2 1 8\n");
    let read = |starts: usize, columns: usize, values: usize| {
        let mut lists = (vec![9; starts], vec![9; columns], vec![9; values]);
        let answer = text::read_into(&text, &mut lists.0, &mut lists.1, &mut lists.2);
        (answer, lists)
    };
    for (starts, columns, values, place) in [(2, 0, 0, 3), (3, 2, 0, 3), (3, 3, 2, 3)] {
        let (answer, lists) = read(starts, columns, values);
        assert_eq!(answer, Err(Refusal::at(9, place)));
        assert_eq!(lists, (vec![9; starts], vec![9; columns], vec![9; values]));
    }
    let expected = (vec![0, 2, 3, 9], vec![0, 1, 0], vec![7, 8, 8, 9]);
    assert_eq!(read(4, 3, 4), (Ok(2), expected));
}

#[test]
fn six_freedoms_one_pair() {
    let triples = [(4, 3, 1), (5, 3, 1)];
    let matrix = nets::of_triples(6, triples.into_iter());
    let (levels, highest) = planner::levels(matrix.rows(), &[0, 1, 2, 3, 4, 5]);
    assert_eq!((levels, highest), (vec![0, 2, 4, 7, 6, 8], 9));
    let plan = planner::plan(matrix.rows(), 2, 50);
    let pair = plan.groups.iter().skip(1).filter(|group| group[5] == 0);
    let pair: Vec<_> = pair.copied().collect();
    assert_eq!(pair, [[0, 4, 0, 2, 1, 0, 1], [4, 2, 0, 2, 2, 0, 1]]);
}

/// The refusal of lent rows.
fn rows_refusal(n: u32, starts: &[u32], columns: &[u32], values: &[i32]) -> Option<Refusal> {
    Rows::lent(n, starts, columns, values).err()
}

#[test]
fn lent_rows() {
    let five = Some(Refusal::at(5, 0));
    assert_eq!(rows_refusal(0, &[0], &[], &[]), five);
    assert_eq!(rows_refusal(4_097, &[0; 4_098], &[], &[]), five);
    assert_eq!(rows_refusal(4_096, &[0; 4_097], &[], &[]), None);
    assert_eq!(rows_refusal(2, &[0, 1], &[1, 0], &[1, 1]), five);
    assert_eq!(rows_refusal(2, &[0, 1, 2, 7], &[1, 0, 5], &[1, 1, 5]), None);
    assert_eq!(rows_refusal(2, &[0, 1, 2], &[1, 0], &[1, 2]), five);
    assert_eq!(rows_refusal(2, &[0, 1, 2], &[1, 0], &[1]), five);
    assert_eq!(rows_refusal(2, &[0, 1, 1], &[1], &[1]), five);
    assert_eq!(rows_refusal(2, &[0, 0, 1], &[0], &[1]), five);
    assert_eq!(rows_refusal(2, &[0, 2, 3], &[1, 1, 0], &[1, 1, 1]), five);
    assert_eq!(rows_refusal(2, &[0, 2, 4], &[1, 0, 0, 1], &[1; 4]), five);
    assert_eq!(rows_refusal(1, &[0, 2], &[0, 0], &[1; 2]), five);
    assert_eq!(rows_refusal(1, &[0, 1], &[1], &[1]), five);
    assert_eq!(rows_refusal(1, &[1, 2], &[0, 0], &[1; 2]), five);
    assert_eq!(rows_refusal(1, &[0, 1], &[0], &[i32::MIN]), five);
    assert_eq!(rows_refusal(1, &[0, 1], &[0], &[-1_000_000_000]), None);
    assert_eq!(rows_refusal(1, &[0, u32::MAX], &[0], &[1]), five);
    assert_eq!(rows_refusal(2, &[0, 2, 1], &[0, 1], &[1, 1]), five);
}

#[test]
fn too_many_entries() {
    let n = 256;
    let triples = || {
        nets::dense_joins(n)
            .into_iter()
            .map(|(row, column)| (row, column, 1))
    };
    let full = nets::of_triples(n, triples().chain((0..128).map(|row| (row, row, 1))));
    let over = nets::of_triples(n, triples().chain((0..129).map(|row| (row, row, 1))));
    let judge =
        |matrix: &Matrix| rows_refusal(matrix.n, &matrix.starts, &matrix.columns, &matrix.values);
    assert_eq!(full.entries().len(), 32_768);
    assert_eq!(judge(&full), None);
    assert_eq!(judge(&over), Some(Refusal::at(5, 0)));
}

#[test]
fn movements() {
    assert_eq!(judge_movements(2, &[1]), Err(Refusal::at(6, 0)));
    assert_eq!(judge_movements(2, &[1; 3]), Err(Refusal::at(6, 0)));
    assert_eq!(judge_movements(2, &[1, 1_000_001]), Err(Refusal::at(6, 1)));
    assert_eq!(
        judge_movements(2, &[i32::MIN, 1_000_001]),
        Err(Refusal::at(6, 0))
    );
    assert_eq!(judge_movements(2, &[-1_000_000, 1_000_000]), Ok(()));
}

/// Whether a plan on the order 0, 1, .. is sound for a matrix.
fn is_sound(matrix: &Matrix, records: &[Fields]) -> bool {
    let order: Vec<u32> = (0..matrix.n).collect();
    let flat = records.as_flattened();
    soundness::check(matrix.rows(), &order, flat, records.len() as u32).is_ok()
}

#[test]
fn sound_and_not() {
    let chain = nets::chain(8);
    let mut records = CHAIN_GROUPS;
    assert!(is_sound(&chain, &records));
    assert!(is_sound(&chain, &records[..1]));
    assert!(!is_sound(&chain, &records[..2]));
    assert!(!is_sound(&chain, &records[..0]));
    assert!(!is_sound(&chain, &records[..3]));
    records[2][1] = 0;
    records[3] = [2, 4, 1, 1, 1, 0, 1];
    assert!(
        !is_sound(&chain, &records),
        "freedoms 1 and 2 of two reds are joined"
    );
    assert!(is_sound(&nets::unjoined(8), &records));
    records[2] = [2, 1, 0, 1, 2, 0, 1];
    records[3] = [3, 3, 1, 1, 1, 0, 1];
    assert!(
        !is_sound(&chain, &records),
        "freedom 2 is joined to two reds"
    );
}

#[test]
fn sound_shapes() {
    let chain = nets::chain(4);
    let nested = [
        [0, 4, 0, 1, 0, 0, 0],
        [0, 0, 0, 1, 1, 0, 1],
        [0, 4, 0, 1, 2, 0, 1],
        [0, 3, 0, 1, 1, 2, 2],
        [3, 1, 0, 1, 2, 2, 2],
    ];
    assert!(is_sound(&chain, &nested), "one worker and an empty child");
    let mut late = nested;
    late[3][5] = 1;
    assert!(!is_sound(&chain, &late));
    for (index, wrong) in [(0, 1), (1, 0), (2, 2), (3, 1), (4, 3)] {
        let mut records = nested;
        records[index][6] = wrong;
        assert!(
            !is_sound(&chain, &records),
            "record {index} at depth {wrong}"
        );
    }
    let wrapped = [
        [0, 4, 0, 1, 0, 0, 0],
        [0, u32::MAX, 0, 1, 1, 0, 1],
        [u32::MAX, 5, 0, 1, 2, 0, 1],
    ];
    assert!(!is_sound(&chain, &wrapped));
    let crowd = [[0, 4, 0, 17, 0, 0, 0]];
    assert!(!is_sound(&chain, &crowd));
}

#[test]
fn depths_and_empty_crews() {
    let chain = nets::chain(4);
    let mut records = vec![[0, 4, 0, 2, 0, 0, 0]];
    for parent in [0, 1, 2, 3, 4] {
        assert!(is_sound(&chain, &nest(&records)));
        records.push([0, 4, 0, 2, 1, parent, parent + 1]);
    }
    assert!(!is_sound(&chain, &nest(&records)), "depth 5");
    let idle = [
        [0, 4, 0, 2, 0, 0, 0],
        [0, 0, 0, 0, 1, 0, 1],
        [0, 0, 0, 0, 2, 0, 1],
        [0, 0, 0, 2, 1, 0, 1],
        [0, 4, 0, 2, 2, 0, 1],
    ];
    assert!(!is_sound(&chain, &idle), "a pair without workers");
}

/// Reds each in the one before, and after them their empty blues, the deepest first.
fn nest(reds: &[Fields]) -> Vec<Fields> {
    let blues = reds.iter().skip(1).rev();
    let blues = blues.map(|red| [4, 0, red[2], red[3], 2, red[5], red[6]]);
    reds.iter().copied().chain(blues).collect()
}

#[test]
fn sound_lists() {
    let matrix = nets::unjoined(3);
    let check = |order: &[u32], groups: &[u32], count| {
        soundness::check(matrix.rows(), order, groups, count).is_ok()
    };
    let whole = [0, 3, 0, 1, 0, 0, 0];
    assert!(check(&[2, 0, 1, 9], &[whole, [7; FIELDS]].concat(), 1));
    assert!(!check(&[2, 0], &whole, 1));
    assert!(!check(&[2, 0, 2], &whole, 1));
    assert!(!check(&[2, 0, 3], &whole, 1));
    assert!(!check(&[2, 0, 1], &whole[..6], 1));
    assert!(!check(&[2, 0, 1], &whole, 2));
    assert!(!check(&[2, 0, 1], &vec![0; FIELDS * 600], 513));
}

#[test]
fn made_up_states() {
    let lists = Lists::new(nets::chain(8), 1, 2, 60);
    let lent = lists.lent();
    let mut sums = vec![7; 8];
    let mut state = State::fresh();
    state.made[2] = 1;
    let eleven = Refusal::at(11, 0);
    assert_eq!(machine::ready(&lent, &state, &sums), Err(eleven));
    state.made = [0; 16];
    assert_eq!(machine::ready(&lent, &state, &sums[..7]), Err(eleven));
    state.made[0] = 25;
    assert_eq!(
        machine::picks(&lent, &mut state, &mut sums, &[]).stopped,
        Some(eleven)
    );
    state.made[..2].copy_from_slice(&[24, 20]);
    let mut forces = vec![0; 9];
    assert_eq!(machine::forces(&lent, &state, &sums, &mut forces), Ok(()));
    assert_eq!(forces, [7, 7, 7, 7, 7, 7, 7, 7, 0]);
    let short = machine::forces(&lent, &state, &sums, &mut forces[..7]);
    assert_eq!(short, Err(Refusal::at(9, 8)));
    state.made[0] = 13;
    state.made[1] = 11;
    let waits = machine::picks(&lent, &mut state, &mut sums, &[0]);
    assert_eq!(
        waits.stopped,
        Some(Refusal::at(13, 0)),
        "in the middle of a row"
    );
    let short = machine::forces(&lent, &state, &sums, &mut forces[..7]);
    assert_eq!(short, Err(Refusal::at(15, 0)));
}

#[test]
fn sums_past_64_bits() {
    let lists = Lists::new(nets::chain(8), 1, 2, 60);
    let mut state = State::fresh();
    state.made[0] = 1;
    state.held[0] = i64::MAX - 1;
    let before = state.clone();
    let mut sums = vec![3; 8];
    let picked = machine::picks(&lists.lent(), &mut state, &mut sums, &[0]);
    assert_eq!(picked.stopped, Some(Refusal::at(14, 0)));
    assert_eq!((&state, &sums), (&before, &vec![3; 8]));
    let ready = machine::ready(&lists.lent(), &state, &sums).expect("held numbers are not judged");
    assert_eq!((ready.set, ready.count), (3, 2));
}

#[test]
fn picks_of_none() {
    let lists = Lists::new(nets::chain(8), 1, 2, 60);
    let mut state = State::fresh();
    let mut sums = vec![0; 8];
    let picked = machine::picks(&lists.lent(), &mut state, &mut sums, &[1, 0, 2, 0]);
    let expected = Picked {
        taken: 2,
        stopped: Some(Refusal::at(10, 2)),
    };
    assert_eq!(picked, expected);
    let picked = machine::picks(&lists.lent(), &mut state, &mut sums, &[]);
    let expected = Picked {
        taken: 0,
        stopped: None,
    };
    assert_eq!(picked, expected);
}

/// The input of `netplan` for the chain of eight.
fn chain_input(line: &str) -> Vec<u8> {
    [line.as_bytes(), &text::write(&nets::chain(8))].concat()
}

#[test]
fn netplan_prints() {
    let expected = "order 0 1 2 3 4 5 6 7\n\
        group start length first workers colour parent depth\n\
        0 0 8 0 2 0 0 0\n1 0 2 0 1 1 0 1\n2 2 2 0 1 2 0 1\n3 4 2 1 1 1 0 1\n4 6 2 1 1 2 0 1\n";
    assert_eq!(netplan(&chain_input("2 60\n")), expected);
}

#[test]
fn netplan_refuses() {
    for line in [
        "02 60\n",
        "2  60\n",
        "2 60 \n",
        " 2 60\n",
        "2\n",
        "\n",
        "17 60\n",
        "2 49\n",
        "2 100\n",
        "-2 60\n",
        "4294967298 60\n",
        "2 60 1\n",
        "2 60\r\n",
    ] {
        assert_eq!(netplan(&chain_input(line)), "refused 7 0\n", "{line}");
    }
    assert_eq!(netplan(b"2 60"), "refused 1 1\n");
    assert_eq!(netplan(b"02 60\n"), "refused 1 1\n");
    assert_eq!(netplan(b""), "refused 1 1\n");
    assert_eq!(netplan(&[b'x'; 24_577]), "refused 2 0\n");
    assert_eq!(netplan(&[b'x'; 24_576]), "refused 1 1\n");
    let short = [b"02 60\n", after_line_1("1 1 2\n").as_slice()].concat();
    assert_eq!(netplan(&short), "refused 2 3\n");
}

#[test]
fn words_of_read_and_write() {
    let text = text::write(&nets::chain(8));
    let (mut starts, mut columns, mut values) = (vec![0; 4 * 9], vec![0; 4 * 22], vec![0; 4 * 22]);
    let word = calls::read(&text, &mut starts, &mut columns, &mut values[..4 * 22 - 1]);
    assert_eq!(word, 9 << 32 | 22);
    assert!(starts.iter().chain(&columns).all(|&byte| byte == 0));
    assert_eq!(
        calls::read(&text, &mut starts, &mut columns, &mut values),
        8
    );
    let mut written = vec![0; text.len() + 1];
    let matrix = MatrixLists {
        n: 8,
        row_starts: &starts,
        columns: &columns,
        values: &values,
    };
    let word = calls::write(matrix, &mut written);
    assert_eq!(word, text.len() as u64);
    assert_eq!(written[..text.len()], text);
}

/// The chain's lists as bytes, with its plan at `2 60` and movements 1.
struct ChainBytes {
    starts: Vec<u8>,
    columns: Vec<u8>,
    values: Vec<u8>,
    ones: Vec<u8>,
    order: Vec<u8>,
    groups: Vec<u8>,
}

impl ChainBytes {
    /// The bytes of the lists.
    fn new() -> ChainBytes {
        let lists = Lists::new(nets::chain(8), 1, 2, 60);
        ChainBytes {
            starts: bytes(&lists.matrix.starts, u32::to_le_bytes),
            columns: bytes(&lists.matrix.columns, u32::to_le_bytes),
            values: bytes(&lists.matrix.values, i32::to_le_bytes),
            ones: bytes(&lists.movements, i32::to_le_bytes),
            order: bytes(&lists.plan.order, u32::to_le_bytes),
            groups: bytes(&lists.groups, u32::to_le_bytes),
        }
    }

    /// The lists of the matrix.
    fn matrix(&self) -> MatrixLists<'_> {
        MatrixLists {
            n: 8,
            row_starts: &self.starts,
            columns: &self.columns,
            values: &self.values,
        }
    }

    /// The lists of the plan, said to have so many groups.
    fn plan(&self, group_count: u32) -> PlanLists<'_> {
        PlanLists {
            order: &self.order,
            groups: &self.groups,
            group_count,
        }
    }

    /// The lists of a run.
    fn run(&self) -> RunLists<'_> {
        RunLists {
            matrix: self.matrix(),
            movements: &self.ones,
            plan: self.plan(5),
        }
    }
}

#[test]
fn words_of_plan_and_check() {
    let chain = ChainBytes::new();
    let size = 4 * FIELDS * 5;
    let (mut order, mut groups) = (vec![0; 32], vec![1; size + 3]);
    let word = calls::plan(
        chain.matrix(),
        2,
        60,
        2,
        &mut order,
        &mut groups[..size - 1],
    );
    assert_eq!(word, 9 << 32 | 5);
    let word = calls::plan(chain.matrix(), 2, 60, 2, &mut order, &mut groups);
    assert_eq!(word, 5);
    assert_eq!((&order, &groups[..size]), (&chain.order, &chain.groups[..]));
    assert_eq!(groups[size..], [1; 3]);
    assert_eq!(
        chain.groups,
        bytes(CHAIN_GROUPS.as_flattened(), u32::to_le_bytes)
    );
    assert_eq!(calls::check(chain.matrix(), chain.plan(5), 2), 0);
    assert_eq!(calls::check(chain.matrix(), chain.plan(6), 2), 8 << 32);
}

#[test]
fn words_of_a_run() {
    let chain = ChainBytes::new();
    let run = chain.run();
    let (mut state, mut sums) = (vec![0; calls::STATE_BYTES], vec![0; 64]);
    assert_eq!(
        calls::picks(run, &mut state[..191], &mut sums, &[0]),
        11 << 32
    );
    assert_eq!(
        calls::picks(run, &mut state, &mut sums, &[0; 13]),
        13 << 32 | 12
    );
    assert_eq!(
        calls::picks(run, &mut state, &mut sums, &[1; 21]),
        12 << 32 | 20
    );
    assert_eq!(calls::picks(run, &mut state, &mut sums, &[0; 11]), 11);
    assert_eq!(calls::ready(run, &state, &sums), 1 << 16 | 1);
    let mut forces = vec![9; 64];
    let word = calls::forces(run, &state, &sums, &mut forces);
    assert_eq!((word, &forces), (15 << 32, &vec![9; 64]));
}
