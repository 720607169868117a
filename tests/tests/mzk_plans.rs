//! `mzk plan`, `list`, `check` and `draw`, beside the other implementation and `netplan`.

use std::collections::BTreeSet;
use std::fs;
use std::io::Write;
use std::process::{Command, Stdio};
use std::sync::OnceLock;

use mazhoketh_tests::files;
use mazhoketh_tests::mzk::{check_said, counted, ended, Mzk, SMALL};
use mazhoketh_tests::oracle::leaves::{leaves_of, Leaf};
use mazhoketh_tests::oracle::matrix::Matrix;
use mazhoketh_tests::oracle::planner::{self, Plan};
use mazhoketh_tests::oracle::prng::Prng;
use mazhoketh_tests::oracle::{damage, netplan, nets, plan_file, plans};

/// The program `netplan`, which `make` builds, and the most bytes that it takes.
const NETPLAN: &str = concat!(env!("CARGO_MANIFEST_DIR"), "/../target/bin/netplan");
const LONGEST: usize = 24_576;

/// The command, built once.
fn mzk() -> &'static Mzk {
    static BUILT: OnceLock<Mzk> = OnceLock::new();
    BUILT.get_or_init(|| Mzk::new(env!("CARGO_TARGET_TMPDIR"), "plans"))
}

/// What netplan prints of a text after a first line.
fn run_netplan(line: &str, text: &[u8]) -> String {
    let mut program = Command::new(NETPLAN)
        .stdin(Stdio::piped())
        .stdout(Stdio::piped())
        .stderr(Stdio::piped())
        .spawn()
        .expect("`make` has built the program");
    let mut stdin = program.stdin.take().expect("its input is a pipe");
    let input = [line.as_bytes(), text].concat();
    stdin.write_all(&input).expect("all input is read");
    drop(stdin);
    ended(program.wait_with_output().expect("the program runs")).0
}

/// The depth of the deepest group.
fn depth_of(plan: &Plan) -> u32 {
    let depths = plan.groups.iter().map(|record| record[6]);
    depths.max().unwrap_or(0)
}

/// What a summary says of a plan alone.
fn told(plan: &Plan) -> String {
    let rows = counted(plan.order.len() as u32, "row");
    let workers = counted(plan.groups[0][3], "worker");
    let (groups, depth) = (counted(plan.group_count(), "group"), depth_of(plan));
    format!("{rows}, {workers}, {groups}, depth {depth}")
}

/// Panics unless a summary says what a plan is and is worth.
fn check_summary(summary: &str, name: &str, matrix: &Matrix, plan: &Plan) {
    let leaves = leaves_of(matrix, plan);
    let updates = leaves.moves.iter().sum::<u32>() / 2;
    let said = format!(
        "{name}: {}, longest chain {} of {}, ",
        told(plan),
        leaves.longest_chain() / 2,
        counted(updates, "update")
    );
    let share = summary.strip_prefix(&said);
    let share = share.unwrap_or_else(|| panic!("{summary} is not {said}"));
    let share = share.strip_suffix(" % of the workers' time used\n");
    let share: f64 = share.expect(summary).parse().expect("a number");
    let off = share - 100.0 * leaves.efficiency();
    assert!(off.abs() < 0.5 + 1e-9, "{summary}");
}

/// The plans of every matrix file: file, listing and summary are the other implementation's, and the listing is
/// netplan's where netplan takes the matrix.
#[test]
fn matrix_files() {
    let carried = mzk().path("carried.plan");
    let mut compared = 0;
    for path in files::matrix_files() {
        let (text, matrix) = files::read(&path);
        let path = path.to_str().expect("a path of Unicode");
        for (workers, p) in [("2", "60"), ("16", "60"), ("5", "99")] {
            let arguments = ["plan", path, "-w", workers, "-p", p, "-o", &carried];
            let (printed, summary) = mzk().ended(&arguments);
            assert_eq!(printed, "");
            let (count, closeness) = (workers.parse(), p.parse());
            let (count, closeness) = (count.expect("workers"), closeness.expect("p"));
            let made = planner::plan(matrix.rows(), count, closeness);
            check_summary(&summary, path, &matrix, &made);
            let file = fs::read(&carried).expect("the plan file can be read");
            assert_eq!(file, plan_file::write(&made.order, &made.flat()));
            let (listing, summary) = mzk().ended(&["list", &carried, "--matrix", path]);
            assert_eq!(listing, netplan::print(&made), "{path:?}");
            check_summary(&summary, &carried, &matrix, &made);
            let line = format!("{workers} {p}\n");
            if line.len() + text.len() <= LONGEST {
                assert_eq!(listing, run_netplan(&line, &text), "{path:?}");
                compared += 1;
            }
        }
    }
    assert!(compared >= 30, "{compared} listings of netplan");
}

/// Distances, defaults, quiet, and the plan on standard output.
#[test]
fn options() {
    let (_, matrix) = files::read(SMALL.as_ref());
    let carried = mzk().path("options.plan");
    for k in 1..5 {
        let distance = k.to_string();
        let arguments = ["plan", SMALL, "-k", &distance, "-w7", "--output", &carried];
        mzk().ended(&arguments);
        let made = planner::plan_at(matrix.rows(), 7, 60, k);
        let file = fs::read(&carried).expect("the plan file can be read");
        assert_eq!(file, plan_file::write(&made.order, &made.flat()));
        let sound = format!("{carried}: sound for {SMALL} at distance {k}\n");
        let printed = mzk().printed(&["check", "--distance", &distance, SMALL, &carried]);
        assert_eq!(printed, sound);
    }
    let made = planner::plan(matrix.rows(), 16, 60);
    let output = mzk().run(&["plan", "--quiet", SMALL]);
    assert_eq!(output.stderr, b"");
    assert_eq!(output.stdout, plan_file::write(&made.order, &made.flat()));
    let listed = ended(mzk().run_on(&output.stdout, &["list", "-"]));
    assert_eq!(listed.0, netplan::print(&made));
    let summary = "standard input: 135 rows, 16 workers, 31 groups, depth 4\n";
    assert_eq!(listed.1, summary);
    let quiet = ended(mzk().run_on(&output.stdout, &["list", "-", "-q"]));
    assert_eq!(quiet, (listed.0, String::new()));
}

/// Random plans, sound or not: checked, and summed up with the matrix if they are sound for it; listed all the same.
#[test]
fn random_plans() {
    let mut rng = Prng::new(191);
    let (mut sound, mut shapeless) = (0, 0);
    for _ in 0..150 {
        let matrix = nets::random_net(&mut rng, 40);
        let plan = plans::any_plan(&mut rng, &matrix);
        let (path, carried) = (
            mzk().matrix("any.mtx", &matrix),
            mzk().plan("any.plan", &plan),
        );
        let (listing, summary) = mzk().ended(&["list", &carried]);
        assert_eq!(listing, netplan::print(&plan));
        if plans::is_sound(&nets::unjoined(matrix.n), &plan) {
            assert_eq!(summary, format!("{carried}: {}\n", told(&plan)));
        } else {
            let (rows, groups) = (
                counted(matrix.n, "row"),
                counted(plan.group_count(), "group"),
            );
            let said = format!("{rows}, {groups}, sound for no matrix");
            assert_eq!(summary, format!("{carried}: {said}\n"));
            let refused = format!("{carried}: the plan is sound for no matrix (refusal 8)");
            mzk().check_said(&["draw", &carried], 2, &refused);
            shapeless += 1;
        }
        if plans::is_sound(&matrix, &plan) {
            mzk().ended(&["check", &path, &carried]);
            let summary = mzk().ended(&["list", &carried, "-m", &path]).1;
            check_summary(&summary, &carried, &matrix, &plan);
            sound += 1;
        } else {
            let refused = format!("{carried}: the plan is not sound for this matrix (refusal 8)");
            mzk().check_said(&["check", &path, &carried], 2, &refused);
        }
    }
    assert!(sound >= 50 && shapeless >= 10, "{sound}, {shapeless}");
}

/// Files that are cut, longer, of groups without depths, empty, no plan files at all, or damaged at random.
#[test]
fn damaged_files() {
    let (_, matrix) = files::read(SMALL.as_ref());
    let made = planner::plan(matrix.rows(), 5, 60);
    let file = plan_file::write(&made.order, &made.flat());
    let longer = [&file[..], b"\n"].concat();
    let mut kind_2 = file.clone();
    kind_2[16] = 2;
    let text = fs::read(SMALL).expect("the matrix can be read");
    let zeros = vec![0; 1 << 20];
    let movements = mzk().list("movements for damage", 1..136);
    for content in [
        &file[1..],
        &file[..file.len() - 4],
        &longer,
        &kind_2,
        &text,
        &zeros,
        b"",
    ] {
        let carried = mzk().file("damaged.plan", content);
        let sentence =
            format!("{carried}: no plan file, or a damaged or an older one (refusal 16)");
        for arguments in [
            &["list", &carried][..],
            &["draw", &carried],
            &["check", SMALL, &carried],
            &["run", SMALL, &carried, &movements],
        ] {
            mzk().check_said(arguments, 2, &sentence);
        }
    }
    let mut rng = Prng::new(192);
    for _ in 0..60 {
        let mut bytes = file.clone();
        let at = 28 + rng.below(bytes.len() - 28);
        bytes[at] ^= 1 << rng.below(8);
        let carried = mzk().file("flipped.plan", &bytes);
        let sentence = format!("{carried}: the plan is not sound for this matrix (refusal 8)");
        mzk().check_said(&["check", SMALL, &carried], 2, &sentence);
        mzk().printed(&["list", &carried]);
        let drawn = mzk().run(&["draw", &carried]).status.code();
        assert!(drawn == Some(0) || drawn == Some(2), "{drawn:?}");
    }
}

/// A plan of another net is refused with both counts of rows.
#[test]
fn of_another_net() {
    let chain = nets::chain(8);
    let carried = mzk().plan("chain.plan", &planner::plan(chain.rows(), 2, 60));
    let movements = mzk().list("movements for another", 1..136);
    let said =
        format!("{carried}: found a plan of 8 rows, wanted one of 135, as {SMALL} has (refusal 8)");
    for arguments in [
        &["check", SMALL, &carried][..],
        &["run", SMALL, &carried, &movements],
        &["list", "-m", SMALL, &carried],
        &["draw", &carried, "--matrix", SMALL],
    ] {
        mzk().check_said(arguments, 2, &said);
    }
    let (_, matrix) = files::read(SMALL.as_ref());
    let small = mzk().plan("small.plan", &planner::plan(matrix.rows(), 2, 60));
    let mut longer = planner::plan(chain.rows(), 2, 60);
    longer.order.push(8);
    let longer = mzk().plan("longer.plan", &longer);
    let path = mzk().matrix("chain.mtx", &chain);
    for (plan, rows) in [(small, 135), (longer, 9)] {
        let said = format!(
            "{plan}: found a plan of {rows} rows, wanted one of 8, as {path} has (refusal 8)"
        );
        mzk().check_said(&["check", &path, &plan], 2, &said);
    }
}

/// Refused matrices: what was found in which line, and what was wanted there.
#[test]
fn matrices_refused() {
    let head = "%%MatrixMarket matrix coordinate integer symmetric\n";
    let line_1 = "wanted '%%MatrixMarket matrix coordinate integer symmetric' (refusal 1)";
    let form = "wanted three whole numbers with spaces between: the size line, a line for each entry, and no more \
                (refusal 2)";
    let size = "wanted as many columns as rows, 1 to 4096, and 0 to 32768 entries (refusal 3)";
    let entry = "wanted an entry on or below the diagonal, inside the rows, not given before, of at most 1000000000 \
                 either side of 0 (refusal 4)";
    let wrong = [
        (
            String::new(),
            format!(":1: found the end of the file, {line_1}"),
        ),
        (
            head.replace('\n', "\r\n"),
            format!(":1: found '{}\\x0d', {line_1}", head.trim_end()),
        ),
        (
            head.to_string() + "1 1 1\n1 1 1.5\n",
            format!(":3: found '1 1 1.5', {form}"),
        ),
        (
            head.to_string() + "1 1 1\n1 1 1",
            format!(":3: found '1 1 1' without a line feed, {form}"),
        ),
        (
            head.to_string() + "1 1 1\n",
            format!(":3: found the end of the file, {form}"),
        ),
        (
            head.to_string() + "1 1 0\n\n",
            format!(":3: found '', {form}"),
        ),
        (
            head.to_string() + "1 2 0\n",
            format!(":2: found '1 2 0', {size}"),
        ),
        (
            head.to_string() + "2 2 2\n1 1 5\n1 2 5\n",
            format!(":4: found '1 2 5', {entry}"),
        ),
        (
            head.to_string() + &"%".repeat(1_048_576),
            ": longer than 1048576 bytes (refusal 2)".to_string(),
        ),
    ];
    for (content, sentence) in wrong {
        let path = mzk().file("refused.mtx", &content);
        let carried = mzk().path("never.plan");
        let said = format!("{path}{sentence}");
        mzk().check_said(&["plan", &path, "-o", &carried], 2, &said);
        assert!(!fs::exists(&carried).expect("a path that can be asked"));
        let said = format!("standard input{sentence}");
        check_said(mzk().run_on(content.as_bytes(), &["plan", "-"]), 2, &said);
    }
}

/// Damaged matrix texts are refused just as by the other implementation.
#[test]
fn matrices_damaged() {
    let mut rng = Prng::new(193);
    let mut refused = 0;
    for _ in 0..100 {
        let matrix = nets::random_net(&mut rng, 12);
        let mut text = damage::random_text(&mut rng, &matrix);
        damage::damage_text(&mut rng, &mut text);
        let output = mzk().run_on(&text, &["plan", "-", "-w", "3"]);
        let told = String::from_utf8_lossy(&output.stderr).to_string();
        match mazhoketh_tests::oracle::text::read(&text) {
            Ok(matrix) => {
                let made = planner::plan(matrix.rows(), 3, 60);
                assert_eq!(output.stdout, plan_file::write(&made.order, &made.flat()));
            }
            Err(refusal) => {
                assert_eq!(output.status.code(), Some(2), "{told}");
                let (number, place) = (refusal.number, refusal.place);
                assert!(
                    told.starts_with(&format!("standard input:{place}: ")),
                    "{told}"
                );
                assert!(told.ends_with(&format!("(refusal {number})\n")), "{told}");
                refused += 1;
            }
        }
    }
    assert!(refused >= 30, "{refused} refused");
}

/// The titles of a picture's boxes, in turn.
fn titles(picture: &str) -> Vec<&str> {
    let after = picture.split("<title>").skip(1);
    after
        .map(|part| part.split("</title>").next().expect("an end"))
        .collect()
}

/// The numbers in a sentence.
fn numbers(sentence: &str) -> Vec<u32> {
    let words = sentence.split(|letter: char| !letter.is_ascii_digit());
    words.filter_map(|word| word.parse().ok()).collect()
}

/// When a worker has made so many moves, by the ticks of its leaves.
fn reaches(leaves: &[(&Leaf, [u32; 2])], worker: usize, moves: u32) -> u32 {
    let done = leaves
        .iter()
        .filter(|(leaf, _)| leaf.worker == worker && leaf.moves_end <= moves);
    done.map(|(_, ticks)| ticks[1]).max().unwrap_or(0)
}

/// Panics unless the lanes show every leaf at its place, and in time as early as its worker and what it waits for allow.
fn check_lanes(picture: &str, matrix: &Matrix, plan: &Plan) {
    let leaves = leaves_of(matrix, plan);
    let titles = titles(picture);
    let filled: Vec<&Leaf> = leaves
        .leaves
        .iter()
        .filter(|leaf| leaf.end > leaf.start)
        .collect();
    let shown = |part: &str| -> Vec<Vec<u32>> {
        let shown = titles
            .iter()
            .filter(|title| title.starts_with("worker ") && title.contains(part));
        shown.map(|title| numbers(title)).collect()
    };
    let (places, times) = (shown(" rows from position "), shown(": ticks "));
    assert_eq!((places.len(), times.len()), (filled.len(), filled.len()));
    let mut timed = Vec::new();
    for ((leaf, place), time) in filled.iter().zip(&places).zip(&times) {
        let (start, length) = (leaf.start as u32, (leaf.end - leaf.start) as u32);
        assert_eq!(place[..3], [leaf.worker as u32, length, start]);
        assert_eq!(time[0], leaf.worker as u32);
        assert_eq!(time[2] - time[1], (leaf.moves_end - leaf.moves_before) / 2);
        timed.push((*leaf, [time[1], time[2]]));
    }
    for (leaf, [begin, _]) in &timed {
        let own = reaches(&timed, leaf.worker, leaf.moves_before);
        let others = (0..16).map(|worker| reaches(&timed, worker, leaf.awaited[worker]));
        assert_eq!(*begin, others.max().unwrap_or(0).max(own));
    }
    let end = timed.iter().map(|(_, ticks)| ticks[1]).max();
    assert_eq!(end, Some(leaves.longest_chain() / 2));
}

/// Panics unless each group that is not empty has a box of its colour and depth, and one around its entries.
fn check_groups(picture: &str, plan: &Plan) {
    let colours = ["whole", "red", "blue"];
    for (index, record) in plan.groups.iter().enumerate() {
        let [start, length, first, workers, colour, _, depth] = *record;
        let title = format!(
            "<title>group {index}, {}, depth {depth}: positions {start} to {}, workers {first} to {}</title>",
            colours[colour as usize],
            (start + length).wrapping_sub(1),
            first + workers - 1
        );
        assert_eq!(picture.contains(&title), length > 0, "{title}");
        let around = format!("<title>group {index}</title>");
        assert_eq!(picture.contains(&around), length > 0, "{around}");
    }
}

/// The entries that are drawn one by one, as row and column in plan order.
fn drawn_entries(picture: &str) -> BTreeSet<(u32, u32)> {
    let path = picture
        .split("class=\"single\"")
        .nth(1)
        .expect("the entries");
    let path = path.split(" d=\"").nth(1).expect("their path");
    let path = path.split('"').next().expect("its end");
    let strokes = path.split('M').skip(1).map(numbers);
    strokes.map(|stroke| (stroke[2], stroke[0])).collect()
}

/// Pictures of random nets and plans: lanes, groups and entries are those of the plan.
#[test]
fn pictures() {
    let mut rng = Prng::new(194);
    for round in 0..60 {
        let matrix = nets::random_net(&mut rng, 120);
        let plan = plans::random_plan(&mut rng, &matrix);
        let path = mzk().matrix("drawn.mtx", &matrix);
        let carried = mzk().plan("drawn.plan", &plan);
        let picture = mzk().printed(&["draw", &carried, "-m", &path]);
        assert!(picture.starts_with("<svg ") && picture.ends_with("</svg>\n"));
        check_lanes(&picture, &matrix, &plan);
        check_groups(&picture, &plan);
        let place = |freedom: u32| {
            let mut places = plan.order.iter();
            places.position(|&other| other == freedom).expect("a place") as u32
        };
        let entries = matrix.entries();
        let wanted = entries.iter().flat_map(|entry| {
            let (row, column) = (place(entry.row), place(entry.column));
            [(row, column), (column, row)]
        });
        assert_eq!(drawn_entries(&picture), wanted.collect(), "round {round}");
        let alone = mzk().printed(&["draw", &carried]);
        check_lanes(&alone, &nets::unjoined(matrix.n), &plan);
        assert!(!alone.contains("class=\"single\""));
    }
}

/// The lanes of every matrix file's plan.
#[test]
fn pictures_of_matrix_files() {
    for path in files::matrix_files() {
        let (_, matrix) = files::read(&path);
        let path = path.to_str().expect("a path of Unicode");
        let plan = planner::plan(matrix.rows(), 16, 60);
        let carried = mzk().plan("file.plan", &plan);
        let picture = mzk().printed(&["draw", &carried, "-m", path]);
        check_lanes(&picture, &matrix, &plan);
        check_groups(&picture, &plan);
    }
}

/// README's picture is what `draw` draws, and a file's name cannot break a picture.
#[test]
fn named_pictures() {
    let folder = mzk().path("named");
    let folder: &std::path::Path = folder.as_ref();
    fs::create_dir_all(folder).expect("a folder can be made");
    let path = files::folder().join("roof_1300.mtx");
    let path = path.to_str().expect("a path of Unicode");
    let plan = ["plan", path, "-w", "6", "-o", "roof_1300.plan"];
    ended(mzk().run_in(folder, &plan));
    let draw = ["draw", "roof_1300.plan", "-m", path];
    let picture = ended(mzk().run_in(folder, &draw)).0;
    let kept = concat!(env!("CARGO_MANIFEST_DIR"), "/../docs/roof_1300.svg");
    assert!(picture == fs::read_to_string(kept).expect("README's picture"));
    fs::copy(folder.join("roof_1300.plan"), folder.join("a<b&c>\n.plan")).expect("a copy");
    let picture = ended(mzk().run_in(folder, &["draw", "a<b&c>\n.plan"])).0;
    assert!(
        picture.contains(">a&#60;b&#38;c&#62;?.plan: 3900 rows"),
        "{:.400}",
        picture
    );
}
