//! `mzk force`, `run`, `survey`, `set`, `join`, `control` and `diff`, beside the other implementation.

use std::fs;
use std::sync::OnceLock;

use mazhoketh_tests::lists::Altered;
use mazhoketh_tests::mzk::{check_said, counted, ended, lines, Mzk, SMALL};
use mazhoketh_tests::oracle::matrix::Matrix;
use mazhoketh_tests::oracle::prng::Prng;
use mazhoketh_tests::oracle::{control, join, nets, planner, plans, survey, text, upkeep};
use mazhoketh_tests::{built, files};

/// The nets that lists are made for.
const LARGE: [&str; 2] = ["bcsstk14.mtx", "roof_1300.mtx"];

/// The command, built once.
fn mzk() -> &'static Mzk {
    static BUILT: OnceLock<Mzk> = OnceLock::new();
    BUILT.get_or_init(|| Mzk::new(env!("CARGO_TARGET_TMPDIR"), "forces"))
}

/// A matrix, movements and their product, with files of the first two.
struct Net {
    matrix: Matrix,
    movements: Vec<i32>,
    product: Vec<i64>,
    path: String,
    movements_path: String,
}

impl Net {
    /// A matrix with the random movements of a seed, in files for a test.
    fn new(matrix: Matrix, test: &str, seed: u64) -> Net {
        let movements = nets::random_movements(&mut Prng::new(seed), matrix.n);
        Net {
            product: matrix.rows().product(&movements),
            path: mzk().matrix(&format!("{test}.mtx"), &matrix),
            movements_path: mzk().list(&format!("movements of {test}"), &movements),
            matrix,
            movements,
        }
    }

    /// The same of a matrix file.
    fn of_file(name: &str, test: &str, seed: u64) -> Net {
        let (_, matrix) = files::read(&files::folder().join(name));
        Net::new(matrix, &format!("{name} for {test}"), seed)
    }

    /// The file of a plan for so many workers.
    fn plan(&self, workers: u32) -> String {
        let plan = planner::plan(self.matrix.rows(), workers, 60);
        mzk().plan(
            &format!("{}.{workers}.plan", self.path.replace('/', " ")),
            &plan,
        )
    }
}

/// The numbers of a list file.
fn numbers(path: &str) -> Vec<i64> {
    let text = fs::read_to_string(path).expect("a list file");
    text.lines()
        .map(|line| line.parse().expect("a number"))
        .collect()
}

/// Forces and control numbers on one core, to standard output, to a file, from standard input.
#[test]
fn force() {
    for name in LARGE {
        let net = Net::of_file(name, "force", 181);
        let forces = lines(&net.product);
        let (printed, told) = mzk().ended(&["force", &net.path, &net.movements_path]);
        assert!(printed == forces && told.is_empty(), "{name}: {told}");
        let path = mzk().path("forces");
        let into = ["force", "-o", &path, &net.path, &net.movements_path];
        assert_eq!(mzk().printed(&into), "");
        assert_eq!(numbers(&path), net.product);
        let matrix = text::write(&net.matrix);
        let output = mzk().run_on(&matrix, &["force", "-", &net.movements_path]);
        assert!(ended(output).0 == forces);
        let movements = lines(&net.movements);
        let output = mzk().run_on(movements.as_bytes(), &["force", &net.path, "-", "-c"]);
        let number = lines([control::number(net.product.clone())]);
        assert_eq!(ended(output).0, number);
        assert_eq!(mzk().printed(&["control", &path]), number);
        assert_eq!(
            ended(mzk().run_on(forces.as_bytes(), &["control", "-"])).0,
            number
        );
    }
}

/// Movements at their limits.
#[test]
fn movements_as_they_should_be() {
    let (_, matrix) = files::read(SMALL.as_ref());
    let mut movements: Vec<i32> = (-67..68).collect();
    for (row, limit) in [(0, -1_000_000), (134, 1_000_000), (70, 0)] {
        movements[row] = limit;
        let path = mzk().list("right movements", &movements);
        let forces = mzk().printed(&["force", SMALL, &path]);
        assert_eq!(forces, lines(matrix.rows().product(&movements)));
    }
}

/// Runs by threads, fewer threads than workers, and rounds: the product, and in a line how it came about.
#[test]
fn run() {
    for name in LARGE {
        let net = Net::of_file(name, "run", 182);
        let moves = 2 * net.matrix.n as usize + 4 * net.matrix.rows().joined_pairs();
        for workers in [1, 5, 16] {
            let plan = net.plan(workers);
            let run = ["run", &net.path, &plan, &net.movements_path];
            for (more, by) in [
                (&[][..], format!("by {}", counted(workers, "thread"))),
                (&["--threads", "1"], "by 1 thread".to_string()),
                (
                    &["-j3"],
                    format!("by {}", counted(workers.min(3), "thread")),
                ),
                (&["--rounds"], "in rounds".to_string()),
            ] {
                let (printed, told) = mzk().ended(&[&run[..], more].concat());
                let path = &net.path;
                let workers = counted(workers, "worker");
                let told_so =
                    format!("{path}: {moves} moves of {workers} {by}, forces as on one core\n");
                assert_eq!(told, told_so);
                assert!(printed == lines(&net.product), "{told}");
            }
            let quiet = mzk().ended(&[&run[..], &["-q", "--control"]].concat());
            assert_eq!(
                quiet,
                (lines([control::number(net.product.clone())]), String::new())
            );
        }
    }
}

/// Random nets and sound plans that the planner would not make.
#[test]
fn run_random() {
    let mut rng = Prng::new(183);
    for round in 0..60 {
        let net = Net::new(nets::random_net(&mut rng, 60), "random", 300 + round);
        let plan = mzk().plan("random.plan", &plans::random_plan(&mut rng, &net.matrix));
        let threads = (1 + rng.below(16)).to_string();
        let run = ["run", &net.path, &plan, &net.movements_path];
        let by_threads = mzk().printed(&[&run[..], &["--threads", &threads]].concat());
        assert_eq!(by_threads, lines(&net.product));
        assert_eq!(
            mzk().printed(&[&run[..], &["-r"]].concat()),
            lines(&net.product)
        );
    }
}

/// Forces of a run that are not those of one core are not printed, and the status is 1.
#[test]
fn run_that_is_wrong() {
    let net = Net::of_file("roof_45.mtx", "a wrong run", 189);
    let (plan, path) = (net.plan(5), &net.path);
    let wrong = concat!(env!("CARGO_MANIFEST_DIR"), "/c/wrong_force.c");
    let further = ["-Wl,--wrap=mzk_prepared_forces", wrong];
    let program = built::mzk(env!("CARGO_TARGET_TMPDIR"), "wrong mzk", &further);
    let run = ["run", path, &plan, &net.movements_path];
    let said = "3078 moves of 5 workers by 5 threads, forces NOT as on one core: none are printed";
    for more in [&[][..], &["-q"], &["--control"]] {
        let output = built::run(&program, &[&run[..], more].concat());
        check_said(output, 1, &format!("{path}: {said}"));
    }
    let said = "6156 moves of 5 workers by 5 threads, forces NOT as on one core: none are printed";
    let output = built::run(
        &program,
        &[&run[..], &["--crews", &net.movements_path]].concat(),
    );
    check_said(output, 1, &format!("{path}: {said}"));
}

/// The order of a run by threads is free: workers change often, and in the middle of an update.
#[test]
fn order_of_threads() {
    let net = Net::of_file("roof_1300.mtx", "an order", 190);
    let order = concat!(env!("CARGO_MANIFEST_DIR"), "/c/order.c");
    let further = ["-Wl,--wrap=mzk_prepared_picks", order];
    let program = built::mzk(env!("CARGO_TARGET_TMPDIR"), "ordered mzk", &further);
    let run = ["run", &net.path, &net.plan(16), &net.movements_path, "-q"];
    let (printed, told) = ended(built::run(&program, &run));
    assert!(printed == lines(&net.product));
    let counts: Vec<u32> = told
        .split(' ')
        .filter_map(|word| word.parse().ok())
        .collect();
    assert!(counts[0] > 1_000 && counts[1] > 100, "{told}");
}

/// Two crews: a column each, the product of its own movements.
#[test]
fn crews() {
    for name in LARGE {
        let net = Net::of_file(name, "crew 0", 184);
        let other = Net::of_file(name, "crew 1", 185);
        let both = net.product.iter().zip(&other.product);
        let columns = lines(both.map(|(own, other)| format!("{own}\t{other}")));
        let crews = ["--crews", &other.movements_path];
        for workers in [1, 5, 16] {
            let plan = net.plan(workers);
            let run = ["run", &net.path, &plan, &net.movements_path];
            for more in [&[][..], &["--threads", "2"]] {
                let printed = mzk().printed(&[&run[..], &crews, more].concat());
                assert!(printed == columns, "{workers} workers on {name}");
            }
            let [own, other] = [&net, &other].map(|net| control::number(net.product.clone()));
            let printed = mzk().printed(&[&run[..], &crews, &["-c"]].concat());
            assert_eq!(printed, format!("{own}\t{other}\n"));
        }
    }
}

/// Amounts and shifts of survey errors.
#[test]
fn surveys() {
    let mut rng = Prng::new(186);
    for round in 0..40 {
        let net = Net::new(nets::random_net(&mut rng, 40), "survey", 400 + round);
        let rows = net.matrix.rows();
        let error = rng.one_of(&[0, 1, 3, 500_000, 1_000_000]);
        let row = rng.below(rows.n) as u32;
        let (t, freedom) = (error.to_string(), row.to_string());
        let asked = ["survey", &net.path, &net.movements_path];
        let amounts = mzk().printed(&[&asked[..], &["-t", &t]].concat());
        assert_eq!(amounts, lines(survey::amounts(rows, error)));
        assert_eq!(mzk().printed(&asked), lines(survey::amounts(rows, 1)));
        let calm: Vec<i32> = net.movements.iter().map(|movement| movement / 4).collect();
        let calm_path = mzk().list("calm movements", &calm);
        let shifted = [
            &["survey", &net.path, &calm_path, "-t", &t][..],
            &["--shift", &freedom],
        ]
        .concat();
        if survey::has_room(&calm, error) {
            assert_eq!(
                mzk().printed(&shifted),
                lines(survey::shift(rows, error, row))
            );
        } else {
            let said = format!(
                "{calm_path}: a movement with {error} added passes 1000000, so no shift is known to reach the amount"
            );
            mzk().check_said(&shifted, 2, &said);
        }
    }
    let movements = mzk().list("movements of no row", 1..136);
    let wrong = "the matrix has no such row, or the survey error is above 1000000 (refusal 17)";
    let said = format!("mzk survey: error 1, row 135: {wrong}");
    mzk().check_said(&["survey", SMALL, &movements, "-s", "135"], 2, &said);
    let said = format!("mzk survey: error 1000001, row 0: {wrong}");
    mzk().check_said(&["survey", SMALL, &movements, "-t", "1000001"], 2, &said);
}

/// A random change of a net, as an argument; it is made by the other implementation, too.
fn random_change(rng: &mut Prng, net: &mut Net) -> String {
    let row = rng.below(net.matrix.n as usize) as u32;
    let entries: Vec<(usize, i32)> = net.matrix.rows().entries(row as usize).collect();
    if entries.is_empty() || rng.chance(50) {
        let value = rng.between(-1_000_000, 1_000_000) as i32;
        let set = upkeep::set_movement(
            net.matrix.rows(),
            &mut net.movements,
            &mut net.product,
            row,
            value,
        );
        set.expect("a movement within its limit");
        return format!("{row}={value}");
    }
    let column = rng.one_of(&entries).0 as u32;
    let value = rng.between(-1_000_000_000, 1_000_000_000) as i32;
    let entry = Altered { row, column, value };
    let places = upkeep::set_entry(net.matrix.rows(), &net.movements, &mut net.product, entry);
    for place in places.expect("a stored entry") {
        net.matrix.values[place] = value;
    }
    format!("{row},{column}={value}")
}

/// Changed movements and values: the forces, and the changed files, with which the next change begins.
#[test]
fn sets() {
    let mut rng = Prng::new(187);
    let [forces, movements, matrix] =
        ["kept forces", "kept movements", "kept.mtx"].map(|name| mzk().path(name));
    for round in 0..30 {
        let mut net = Net::new(nets::random_net(&mut rng, 40), "set", 500 + round);
        mzk().list("kept forces", &net.product);
        mzk().list("kept movements", &net.movements);
        mzk().matrix("kept.mtx", &net.matrix);
        for _ in 0..3 {
            let changes: Vec<String> = (0..1 + rng.below(3))
                .map(|_| random_change(&mut rng, &mut net))
                .collect();
            let mut set = vec!["set", &matrix, &movements, &forces, "-o", &forces];
            set.extend(["--new-movements", &movements, "--new-matrix", &matrix]);
            set.extend(changes.iter().map(String::as_str));
            assert_eq!(mzk().ended(&set), (String::new(), String::new()));
            assert_eq!(numbers(&forces), net.product);
            assert_eq!(numbers(&forces), net.matrix.rows().product(&net.movements));
            let kept = fs::read_to_string(&movements).expect("the movements");
            assert_eq!(kept, lines(&net.movements));
            let kept = fs::read(&matrix).expect("the matrix");
            assert_eq!(text::read(&kept).as_ref(), Ok(&net.matrix));
        }
    }
}

/// What is wrong with a change, or with what it is made to.
#[test]
fn sets_refused() {
    let (_, matrix) = files::read(SMALL.as_ref());
    let movements: Vec<i32> = (1..136).collect();
    let mut product = matrix.rows().product(&movements);
    let path = mzk().list("movements to set", &movements);
    let forces = mzk().list("forces to set", &product);
    let set = |change: &str, status: i32, said: &str| {
        mzk().check_said(&["set", SMALL, &path, &forces, change], status, said);
    };
    let missing = "the matrix has no such row, or no such entry is stored (refusal 21)";
    let beyond =
        "a movement is at most 1000000, a value at most 1000000000 either side of 0 (refusal 22)";
    for change in ["135=1", "4294967295=1", "0,135=1", "135,0=1", "0,134=1"] {
        set(change, 2, &format!("{change}: {missing}"));
    }
    for change in [
        "0=1000001",
        "0=-1000001",
        "0,0=1000000001",
        "0,0=-2147483648",
    ] {
        set(change, 2, &format!("{change}: {beyond}"));
    }
    for change in ["0", "", "0,0", "0=0,1"] {
        let wanted = "wanted ROW=VALUE or ROW,COLUMN=VALUE; see mzk help set";
        set(change, 2, &format!("mzk set: found '{change}', {wanted}"));
    }
    let (row, value) = ("0 to 4294967295", "-2147483648 to 2147483647");
    for (change, found, limits) in [
        ("=1", "", row),
        ("x=1", "x", row),
        ("1,=1", "", row),
        (",1=1", "", row),
        ("1,2,3=1", "2,3", row),
        ("4294967296=1", "4294967296", row),
        ("1=", "", value),
        ("1=1.5", "1.5", value),
        ("1=2147483648", "2147483648", value),
    ] {
        set(
            change,
            2,
            &format!("{change}: found '{found}', wanted a whole number of {limits}"),
        );
    }
    product[134] += 1;
    let stale = mzk().list("stale forces", &product);
    let said =
        format!("{stale}: the forces are not those of the matrix and the movements (refusal 20)");
    mzk().check_said(&["set", SMALL, &path, &stale, "0=1"], 2, &said);
    let short = mzk().list("short forces", &product[1..]);
    let said = format!("{short}: found 134 forces, wanted 135 (refusal 20)");
    mzk().check_said(&["set", SMALL, &path, &short, "0=1"], 2, &said);
    let far = mzk().list(
        "far movements",
        (0..135).map(|row| if row == 7 { 1_000_001 } else { 0 }),
    );
    let said = format!("{far}:8: found '1000001', wanted a movement of at most 1000000 either side of 0 (refusal 6)");
    mzk().check_said(&["set", SMALL, &far, &forces, "0=1"], 2, &said);
}

/// Two nets sewn together, and what is refused of their places.
#[test]
fn joins() {
    let (_, matrix) = files::read(SMALL.as_ref());
    let n = matrix.n;
    let places: Vec<u32> = (n..2 * n - 1).rev().chain([0]).collect();
    let places_path = mzk().list("places", &places);
    let joined = mzk().path("joined.mtx");
    mzk().ended(&["join", SMALL, SMALL, &places_path, "-o", &joined]);
    let (_, found) = files::read(joined.as_ref());
    let wanted = join::join(matrix.rows(), matrix.rows(), &places);
    assert!(wanted.is_ok_and(|wanted| wanted.entries() == found.entries()));
    let text = fs::read_to_string(&joined).expect("the joined matrix");
    assert!(mzk().printed(&["join", SMALL, SMALL, &places_path]) == text);
    let gap = "a place repeats, or leaves a gap past the rows of the first matrix (refusal 23)";
    for wrong in [-1, 1, 400, 4_294_967_296, i64::MAX, i64::MIN] {
        let places = places[..134]
            .iter()
            .map(|&place| i64::from(place))
            .chain([wrong]);
        let repeated: Vec<i64> = if wrong == 1 {
            vec![1; 135]
        } else {
            places.collect()
        };
        let path = mzk().list("wrong places", repeated);
        mzk().check_said(&["join", SMALL, SMALL, &path], 2, &format!("{path}: {gap}"));
    }
    let path = mzk().list("short places", &places[1..]);
    let said = format!("{path}: found 134 places, wanted 135 (refusal 23)");
    mzk().check_said(&["join", SMALL, SMALL, &path], 2, &said);
    let large = files::folder().join("roof_1300.mtx");
    let large = large.to_str().expect("a path of Unicode");
    let path = mzk().list("places past the limit", 3_900..7_800);
    let limits = "the joined matrix has more than 4096 rows or 32768 entries, or a value above 1000000000 either side \
                  of 0 (refusal 24)";
    mzk().check_said(
        &["join", large, large, &path],
        2,
        &format!("{path}: {limits}"),
    );
}

/// Control numbers of lists of any length and any numbers.
#[test]
fn controls() {
    let mut rng = Prng::new(188);
    for length in [0, 1, 2, 100, 5_000, 100_000] {
        let list: Vec<i64> = (0..length)
            .map(|_| rng.bits() as i64 >> rng.below(64))
            .collect();
        let path = mzk().list("any list", &list);
        assert_eq!(
            mzk().printed(&["control", &path]),
            lines([control::number(list)])
        );
    }
    let path = mzk().list("limits", [i64::MIN, i64::MAX, 0, -1]);
    let number = control::number([i64::MIN, i64::MAX, 0, -1]);
    assert_eq!(mzk().printed(&["control", &path]), lines([number]));
}

/// Panics unless `diff` ends with 1 and prints this line alone.
fn check_differ(paths: [&str; 2], line: &str) {
    let output = mzk().run(&["diff", paths[0], paths[1]]);
    assert_eq!(
        String::from_utf8_lossy(&output.stdout),
        line.to_string() + "\n"
    );
    assert_eq!((output.status.code(), output.stderr), (Some(1), vec![]));
}

/// Lists compared: the first line that differs, with both numbers.
#[test]
fn diffs() {
    let (one, same) = (mzk().list("one", 1..136), mzk().list("same", 1..136));
    assert_eq!(
        mzk().ended(&["diff", &one, &same]),
        (String::new(), String::new())
    );
    for row in [0, 70, 134] {
        let other = (1..136).map(|number| if number > row { -number } else { number });
        let other = mzk().list("other", other);
        let (line, number) = (row + 1, row + 1);
        check_differ(
            [&one, &other],
            &format!("line {line}: {number} in {one}, -{number} in {other}"),
        );
        check_differ(
            [&other, &one],
            &format!("line {line}: -{number} in {other}, {number} in {one}"),
        );
    }
    let (longer, empty) = (mzk().list("longer", 1..137), mzk().list("empty", [0; 0]));
    check_differ(
        [&one, &longer],
        &format!("line 136: {one} has ended, 136 in {longer}"),
    );
    check_differ(
        [&longer, &one],
        &format!("line 136: 136 in {longer}, {one} has ended"),
    );
    check_differ(
        [&empty, &one],
        &format!("line 1: {empty} has ended, 1 in {one}"),
    );
    assert_eq!(mzk().printed(&["diff", &empty, &empty]), "");
    let output = mzk().run_on(lines(1..136).as_bytes(), &["diff", "-", &one]);
    assert_eq!(ended(output), (String::new(), String::new()));
}
