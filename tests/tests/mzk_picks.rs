//! `mzk prepare`, `pick`, `run --picks`, `rows` and `barrier`, beside the other implementation.

use std::fs;
use std::process::Output;
use std::sync::OnceLock;

use mazhoketh_tests::files;
use mazhoketh_tests::lists::refusal_number;
use mazhoketh_tests::mzk::{check_refused, lines, Mzk};
use mazhoketh_tests::oracle::book::Book;
use mazhoketh_tests::oracle::machine::Lent;
use mazhoketh_tests::oracle::matrix::{Matrix, Rows};
use mazhoketh_tests::oracle::planner::{self, Plan};
use mazhoketh_tests::oracle::prepared::Tables;
use mazhoketh_tests::oracle::prng::Prng;
use mazhoketh_tests::oracle::{barrier, calls, nets, plans, text, WORKERS};

/// The command, built once.
fn mzk() -> &'static Mzk {
    static BUILT: OnceLock<Mzk> = OnceLock::new();
    BUILT.get_or_init(|| Mzk::new(env!("CARGO_TARGET_TMPDIR"), "picks"))
}

/// A net, its plan and movements with their files, and the prepared job with its file.
struct Job {
    matrix: Matrix,
    plan: Plan,
    movements: Vec<i32>,
    files: [String; 3],
    list: Vec<u8>,
    path: String,
}

impl Job {
    /// A net and its plan with random movements, prepared by the command, in files for a test.
    fn new(rng: &mut Prng, matrix: Matrix, plan: Plan, test: &str) -> Job {
        let movements = nets::random_movements(rng, matrix.n);
        let groups = plan.flat();
        let tables = Tables::of(&Lent::new(&matrix, &movements, &plan, &groups));
        let files = [
            mzk().matrix(&format!("{test}.mtx"), &matrix),
            mzk().plan(&format!("{test}.plan"), &plan),
            mzk().list(&format!("{test}.movements"), &movements),
        ];
        let job = Job {
            matrix,
            movements,
            list: tables.expect("a sound plan").bytes(),
            plan,
            files,
            path: mzk().path(&format!("{test}.job")),
        };
        let told = mzk().ended(&job.with("prepare", &["-o", &job.path]));
        assert_eq!(told, (String::new(), String::new()));
        job
    }

    /// A random net and any sound plan of it.
    fn random(rng: &mut Prng, test: &str) -> Job {
        let matrix = nets::random_net(rng, 40);
        let plan = plans::random_plan(rng, &matrix);
        Job::new(rng, matrix, plan, test)
    }

    /// Document 01's chain of eight rows for two workers.
    fn chain(test: &str) -> Job {
        let matrix = nets::chain(8);
        let plan = planner::plan(matrix.rows(), 2, 60);
        Job::new(&mut Prng::new(200), matrix, plan, test)
    }

    /// A command with the job's three files and more arguments.
    fn with<'a>(&'a self, command: &'a str, more: &[&'a str]) -> Vec<&'a str> {
        let files = self.files.iter().map(String::as_str);
        let words = [command].into_iter().chain(files);
        words.chain(more.iter().copied()).collect()
    }

    /// A fresh run, as its file has it.
    fn fresh(&self) -> Vec<u8> {
        vec![0; calls::STATE_BYTES + 8 * self.matrix.n as usize]
    }

    /// What a run's file has after picks, by rounds if it is asked for; the call's word.
    fn take(&self, run: &mut [u8], picks: &[u8], is_rounds: bool) -> u64 {
        let (state, sums) = run.split_at_mut(calls::STATE_BYTES);
        if is_rounds {
            calls::prepared_rounds(&self.list, state, sums, picks)
        } else {
            calls::prepared_picks(&self.list, state, sums, picks)
        }
    }

    /// The ready set of a run, as it is printed.
    fn ready(&self, run: &[u8]) -> String {
        let (state, sums) = run.split_at(calls::STATE_BYTES);
        let set = calls::prepared_ready(&self.list, state, sums);
        let workers = (0..WORKERS).filter(|worker| set >> worker & 1 == 1);
        let workers: Vec<String> = workers.map(|worker| worker.to_string()).collect();
        if workers.is_empty() {
            return "ready none".to_string();
        }
        format!("ready {}", workers.join(" "))
    }

    /// The forces.
    fn product(&self) -> Vec<i64> {
        self.matrix.rows().product(&self.movements)
    }

    /// Picks that take the fresh runs of so many crews to their ends, in a random order.
    fn schedule(&self, rng: &mut Prng, crews: usize) -> Vec<u8> {
        let mut books: Vec<Book> = (0..crews)
            .map(|_| Book::new(&self.matrix, &self.movements, &self.plan))
            .collect();
        let mut schedule = Vec::new();
        while !books.iter().all(Book::is_finished) {
            let (crew, worker) = (rng.below(crews), rng.below(WORKERS));
            let mut others = books.iter().enumerate();
            let is_away = others.any(|(other, book)| other != crew && book.is_inside(worker));
            if !is_away && books[crew].picks(&[worker as u8]).taken == 1 {
                schedule.push((WORKERS * crew + worker) as u8);
            }
        }
        schedule
    }
}

/// Panics unless a program ended well, or at the pick of a list file that a word refuses.
fn check_ended(output: &Output, path: &str, picks: &[u8], word: u64) {
    let number = refusal_number(word);
    if number == 0 {
        assert_eq!(output.status.code(), Some(0));
        assert!(output.stderr.is_empty());
        return;
    }
    let index = word as u32 as usize;
    let (line, pick) = (index + 1, picks[index]);
    let start = format!("{path}:{line}: found '{pick}', wanted ");
    check_refused(output, &start, number);
}

/// The file of a job is its prepared list, also on standard output, and its parts from standard input.
#[test]
fn prepares() {
    let mut rng = Prng::new(201);
    for _ in 0..30 {
        let job = Job::random(&mut rng, "prepared");
        assert!(fs::read(&job.path).expect("the job") == job.list);
        assert!(mzk().run(&job.with("prepare", &[])).stdout == job.list);
        let movements = lines(&job.movements);
        let from = ["prepare", &job.files[0], &job.files[1], "-"];
        assert!(mzk().run_on(movements.as_bytes(), &from).stdout == job.list);
    }
    for path in files::matrix_files() {
        let (_, matrix) = files::read(&path);
        let plan = planner::plan(matrix.rows(), 16, 60);
        let job = Job::new(&mut rng, matrix, plan, "prepared");
        assert!(
            fs::read(&job.path).expect("the job") == job.list,
            "{path:?}"
        );
    }
}

/// Runs kept in a file, from fresh to their ends by random picks: what is told, what is kept, and the forces.
#[test]
fn kept_runs() {
    let mut rng = Prng::new(202);
    let run = mzk().path("kept.run");
    for _ in 0..25 {
        let job = Job::random(&mut rng, "kept");
        let mut kept = job.fresh();
        mzk().file("kept.run", "of another job");
        let begun = mzk().ended(&["pick", &job.path, &run, "--fresh"]);
        let told = format!("moves 0\n{}\n", job.ready(&kept));
        assert_eq!(begun, (told, String::new()));
        while job.ready(&kept) != "ready none" {
            check_step(&mut rng, &job, &run, &mut kept);
        }
        let forces = lines(job.product());
        let printed = mzk().ended(&["pick", &job.path, &run, "--forces"]);
        assert_eq!(printed, (forces, String::new()));
    }
}

/// Takes random picks on a run, often in rounds, first as a preview.
fn check_step(rng: &mut Prng, job: &Job, run: &str, kept: &mut Vec<u8>) {
    let workers = job.plan.groups[0][3] as u8 + u8::from(rng.chance(10));
    let everyone: Vec<u8> = (0..workers).collect();
    let picks = plans::random_picks(rng, &everyone, 60);
    let path = mzk().list("kept.picks", &picks);
    let is_rounds = rng.chance(50);
    let before = kept.clone();
    let word = job.take(kept, &picks, is_rounds);
    let moves = if is_rounds {
        word >> 40
    } else {
        word & 0xffff_ffff
    };
    let printed = format!("moves {moves}\n{}\n", job.ready(kept));
    let more: &[&str] = if is_rounds { &["--rounds"] } else { &[] };
    let pick = [&["pick", &job.path, run, &path][..], more].concat();
    for (left, more) in [(&before, &["--preview"][..]), (kept, &[])] {
        let output = mzk().run(&[&pick[..], more].concat());
        assert_eq!(String::from_utf8_lossy(&output.stdout), printed);
        check_ended(&output, &path, &picks, word);
        assert!(fs::read(run).expect("the run") == *left, "{more:?}");
    }
}

/// Picks from standard input, numbers that are no bytes, a job from standard input, and what is told in a file.
#[test]
fn picks_from_elsewhere() {
    let job = Job::chain("elsewhere");
    let (run, told) = (mzk().path("elsewhere.run"), mzk().path("told"));
    let output = mzk().run_on(
        b"0\n1\n",
        &["pick", &job.path, &run, "-", "-f", "-o", &told],
    );
    check_said_nothing(output);
    assert_eq!(
        fs::read_to_string(&told).expect("a file"),
        "moves 2\nready 0 1\n"
    );
    let output = mzk().run_on(&job.list, &["pick", "-", &run]);
    assert_eq!(output.stdout, b"moves 0\nready 0 1\n");
    for pick in ["256", "-1", "-256", "4294967296", "9223372036854775807"] {
        let path = mzk().list("no bytes", ["1", pick]);
        let output = mzk().run(&["pick", &job.path, &run, &path, "--preview"]);
        check_refused(&output, &format!("{path}:2: found '{pick}', wanted "), 10);
        assert_eq!(output.stdout, b"moves 1\nready 0 1\n");
    }
}

/// Panics unless a program ended well without a word.
fn check_said_nothing(output: Output) {
    assert!(output.status.success());
    assert_eq!((output.stdout, output.stderr), (vec![], vec![]));
}

/// Files that are no run, or no job, or no finished run: nothing is changed.
#[test]
fn kept_runs_refused() {
    let job = Job::chain("refused");
    let fresh = job.fresh();
    let mut past = fresh.clone();
    past[4] = 21; /* worker 1 has 20 moves */
    for content in [&[][..], &fresh[..191], &fresh[..192], &fresh[..255], &past] {
        let run = mzk().file("wrong.run", content);
        for more in [&[][..], &["--forces"], &["--rounds"], &["--preview"]] {
            let pick = [&["pick", &job.path, &run][..], more].concat();
            mzk().check_refused(&pick, &format!("{run}: "), 11);
        }
        assert!(fs::read(&run).expect("the run") == content);
    }
    let longer = mzk().file("longer.run", [&fresh[..], b"12345678"].concat());
    mzk().check_refused(&["pick", &job.path, &longer], &format!("{longer}: "), 11);
    let run = mzk().file("fresh.run", &fresh);
    mzk().check_refused(
        &["pick", &job.path, &run, "--forces"],
        &format!("{run}: "),
        15,
    );
    for content in [
        &[][..],
        &job.list[..job.list.len() - 1],
        &job.list[1..],
        &fresh,
    ] {
        let path = mzk().file("wrong.job", content);
        for more in [&[][..], &["--fresh"]] {
            let pick = [&["pick", &path, &run][..], more].concat();
            mzk().check_refused(&pick, &format!("{path}: "), 26);
        }
    }
    assert!(fs::read(&run).expect("the run") == fresh);
    let said = "mzk pick: what is kept has a file, found -; see mzk help pick";
    mzk().check_said(&["pick", &job.path, "-"], 2, said);
}

/// What a run needs is refused when it is prepared, as when it is run.
#[test]
fn prepares_refused() {
    let job = Job::chain("unfit");
    let [matrix, plan, _] = &job.files;
    let short = mzk().list("unfit.short", 1..8);
    let far = mzk().list("unfit.far", [0, 0, 0, 0, 0, 0, 0, 1_000_001]);
    let unsound = mzk().file("unsound.plan", fs::read(plan).expect("the plan"));
    let mut bytes = fs::read(&unsound).expect("the plan");
    bytes[28] ^= 1;
    fs::write(&unsound, bytes).expect("the plan");
    for command in ["prepare", "run"] {
        let said = format!("{short}: found 7 movements, wanted 8 (refusal 6)");
        mzk().check_said(&[command, matrix, plan, &short], 2, &said);
        let wanted = "wanted a movement of at most 1000000 either side of 0 (refusal 6)";
        let said = format!("{far}:8: found '1000001', {wanted}");
        mzk().check_said(&[command, matrix, plan, &far], 2, &said);
        let said = format!("{unsound}: the plan is not sound for this matrix (refusal 8)");
        mzk().check_said(&[command, matrix, &unsound, &far], 2, &said);
    }
    let said = "mzk prepare: a prepared job is no text for a terminal: name a file with -o; see mzk help prepare\r\n";
    let (status, shown) = mzk().in_terminal(&job.with("prepare", &[]), None);
    assert_eq!((status, &*shown), (Some(2), said));
}

/// Whole runs by the picks of a file; a pick fewer does not finish them.
#[test]
fn runs_by_picks() {
    let mut rng = Prng::new(203);
    for _ in 0..30 {
        let job = Job::random(&mut rng, "picked");
        let schedule = job.schedule(&mut rng, 1);
        let path = mzk().list("picked.picks", &schedule);
        let (printed, told) = mzk().ended(&job.with("run", &["--picks", &path]));
        assert_eq!(printed, lines(job.product()));
        let by = format!("by the picks of {path}, forces as on one core\n");
        assert!(told.ends_with(&by), "{told}");
        let short = mzk().list("picked.short", &schedule[1..]);
        let run = job.with("run", &["--picks", &short]);
        assert_eq!(mzk().run(&run).status.code(), Some(2));
        let short = mzk().list("picked.short", &schedule[..schedule.len() - 1]);
        let run = job.with("run", &["--picks", &short]);
        mzk().check_refused(&run, &format!("{short}: "), 15);
    }
}

/// The same of two crews that share the workers; one that is inside the other's row is refused.
#[test]
fn crews_by_picks() {
    let mut rng = Prng::new(206);
    for _ in 0..30 {
        let job = Job::random(&mut rng, "crews");
        let columns = job.product().into_iter();
        let columns = lines(columns.map(|force| format!("{force}\t{force}")));
        let schedule = job.schedule(&mut rng, 2);
        let path = mzk().list("crews.picks", &schedule);
        let crews = ["-q", "--crews", &job.files[2], "--picks", &path];
        let ended = mzk().ended(&job.with("run", &crews));
        assert_eq!(ended, (columns, String::new()));
        let other = schedule[0] ^ 16;
        let path = mzk().list("crews.inside", [schedule[0], other]);
        let crews = ["--crews", &job.files[2], "--picks", &path];
        let start = format!("{path}:2: found '{other}', wanted ");
        mzk().check_refused(&job.with("run", &crews), &start, 19);
    }
}

/// Matrix files of full rows, in list files; damaged ones are refused as by the other implementation.
#[test]
fn rows() {
    let mut rng = Prng::new(204);
    let mut refused = 0;
    for _ in 0..120 {
        let matrix = nets::random_net(&mut rng, 20);
        let [mut starts, mut columns] = [matrix.starts.clone(), matrix.columns.clone()];
        let mut values = matrix.values.clone();
        for _ in 0..rng.below(2) {
            match rng.below(3) {
                0 => damage(&mut rng, &mut starts, |number| number.wrapping_add(1)),
                1 => damage(&mut rng, &mut columns, |number| number ^ 1),
                _ => damage(&mut rng, &mut values, |number| number + 1),
            }
        }
        let files = [
            mzk().list("starts", &starts),
            mzk().list("columns", &columns),
            mzk().list("values", &values),
        ];
        let [starts_path, columns_path, values_path] = &files;
        let output = mzk().run(&["rows", starts_path, columns_path, values_path]);
        let entries = starts.last().copied().unwrap_or(0) as usize;
        let rows = Rows::lent(starts.len() as u32 - 1, &starts, &columns, &values);
        if entries != columns.len() {
            let found = format!("found {} column", columns.len());
            let told = String::from_utf8_lossy(&output.stderr);
            assert!(
                told.starts_with(&format!("{columns_path}: {found}")),
                "{told}"
            );
        } else if rows.is_ok() {
            let n = matrix.n;
            let matrix = Matrix {
                n,
                starts,
                columns,
                values,
            };
            assert!(output.stdout == text::write(&matrix));
        } else {
            check_refused(&output, "mzk rows: ", 5);
            refused += 1;
        }
    }
    assert!(refused >= 20, "{refused} refused");
    let (starts, two) = (mzk().list("starts", [0, 1]), mzk().list("two", [0, 0]));
    let (none, one) = (mzk().list("none", [0; 0]), mzk().list("one", [0]));
    for (columns, values, said) in [
        (&two, &one, format!("{two}: found 2 columns")),
        (&none, &one, format!("{none}: found 0 columns")),
        (&one, &two, format!("{two}: found 2 values")),
        (&one, &none, format!("{none}: found 0 values")),
    ] {
        let said = format!("{said}, wanted 1 (refusal 5)");
        mzk().check_said(&["rows", &starts, columns, values], 2, &said);
    }
    for starts in [&none, &one] {
        mzk().check_refused(&["rows", starts, &none, &none], "mzk rows: ", 5);
    }
}

/// Changes a number of a list.
fn damage<T: Copy>(rng: &mut Prng, list: &mut [T], change: fn(T) -> T) {
    if !list.is_empty() {
        let at = rng.below(list.len());
        list[at] = change(list[at]);
    }
}

/// Random accesses to a barrier unit: what they tell, and what is kept.
#[test]
fn barriers() {
    let mut rng = Prng::new(205);
    let path = mzk().path("unit");
    for _ in 0..60 {
        mzk().file("unit", "of something else");
        let mut unit = [0; barrier::UNIT_BYTES];
        let mut more = vec!["--fresh"];
        for _ in 0..6 {
            let (accesses, told) = random_accesses(&mut rng, &mut unit);
            let words = accesses.iter().map(String::as_str);
            let words: Vec<&str> = ["barrier", &path]
                .into_iter()
                .chain(words)
                .chain(more)
                .collect();
            assert_eq!(
                mzk().ended(&words),
                (lines(told), String::new()),
                "{words:?}"
            );
            assert_eq!(fs::read(&path).expect("the unit"), unit);
            more = vec![];
        }
    }
}

/// Some accesses, and what they tell of a unit, which they change.
fn random_accesses(rng: &mut Prng, unit: &mut barrier::Unit) -> (Vec<String>, Vec<u32>) {
    let mut told = Vec::new();
    let mut accesses = Vec::new();
    for _ in 0..1 + rng.below(8) {
        let address = rng.below(6) as u32;
        match rng.below(6) {
            0 => {
                accesses.push("line".to_string());
                told.push(u32::from(barrier::is_up(unit)));
            }
            1 => {
                accesses.push("releases".to_string());
                told.push(barrier::releases(unit));
            }
            2 => {
                accesses.push(address.to_string());
                told.push(u32::from(barrier::read(unit, address)));
            }
            _ => {
                let byte = rng.one_of(&[0, 1, 2, 3, 255]);
                accesses.push(format!("{address}={byte}"));
                *unit = barrier::write(*unit, (address, byte));
            }
        }
    }
    (accesses, told)
}

/// Accesses that are refused, or are none: nothing is told, and the unit stays as it is.
#[test]
fn barriers_refused() {
    let content = [3, 0, 1, 0, 0, 1, 7, 0, 0, 0];
    let path = mzk().file("refused unit", content);
    for access in ["6", "6=1", "4294967295=1"] {
        let accesses = ["barrier", &path, "2=2", "line", access, "0=0"];
        mzk().check_refused(&accesses, &format!("{access}: "), 25);
        assert_eq!(fs::read(&path).expect("the unit"), content);
    }
    let form = "wanted ADDRESS=BYTE, ADDRESS, line or releases; see mzk help barrier";
    let number = "wanted a whole number of 0 to";
    for (access, said) in [
        ("x", format!("mzk barrier: found 'x', {form}")),
        ("", format!("mzk barrier: found '', {form}")),
        ("=1", format!("mzk barrier: found '=1', {form}")),
        ("lines", format!("mzk barrier: found 'lines', {form}")),
        ("1=", format!("1=: found '', {number} 255")),
        ("1=256", format!("1=256: found '256', {number} 255")),
        ("1=0x1", format!("1=0x1: found '0x1', {number} 255")),
        ("01=1", format!("01=1: found '01', {number} 4294967295")),
        (
            "4294967296",
            format!("4294967296: found '4294967296', {number} 4294967295"),
        ),
    ] {
        mzk().check_said(&["barrier", &path, "2=2", "line", access, "0=0"], 2, &said);
        assert_eq!(fs::read(&path).expect("the unit"), content);
    }
    let short = mzk().file("short unit", &content[..9]);
    for access in ["2=2", "2", "line", "releases"] {
        let said = format!("{short}: too short, wanted 10 at least (refusal 9)");
        mzk().check_said(&["barrier", &short, access], 2, &said);
    }
    let longer = mzk().file("longer unit", [&content[..], &[9; 100]].concat());
    mzk().ended(&["barrier", &longer, "2=2"]);
    let kept = [&[3, 0, 0, 0, 1, 1, 8, 0, 0, 0][..], &[9; 100]].concat();
    assert_eq!(fs::read(&longer).expect("the unit"), kept);
    let said = "/dev/zero: longer than 1048576 bytes";
    mzk().check_said(&["barrier", "/dev/zero", "line"], 2, said);
}
