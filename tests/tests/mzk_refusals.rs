//! What is wrong with list files, files and arguments of `mzk`, said in a sentence; help, and a terminal.

use std::fs::{self, Permissions};
use std::os::unix::fs::{symlink, PermissionsExt};
use std::process::Command;
use std::sync::OnceLock;

use mazhoketh_tests::files;
use mazhoketh_tests::mzk::{check_said, lines, Mzk, SMALL};
use mazhoketh_tests::oracle::planner;

/// What stands in a line of a list file.
const NUMBER: &str =
    "wanted a whole number alone, such as -12, 0 or 345, and a line feed (refusal 2)";

/// The commands.
const COMMANDS: [&str; 16] = [
    "plan", "list", "check", "draw", "force", "run", "prepare", "pick", "survey", "set", "join",
    "rows", "barrier", "control", "diff", "help",
];

/// The command, built once.
fn mzk() -> &'static Mzk {
    static BUILT: OnceLock<Mzk> = OnceLock::new();
    BUILT.get_or_init(|| Mzk::new(env!("CARGO_TARGET_TMPDIR"), "refusals"))
}

/// A plan of the small net for five workers, in a file for a test.
fn plan(test: &str) -> String {
    let (_, matrix) = files::read(SMALL.as_ref());
    mzk().plan(
        &format!("{test}.plan"),
        &planner::plan(matrix.rows(), 5, 60),
    )
}

/// Each wrong spelling, in the first, a middle and the last line, is named with its line.
#[test]
fn lists_misspelled() {
    let plan = plan("misspelled");
    let wrong = [
        "1e5", "1,500", "1.5", "0x10", "abc", "", " 5", "5 ", "5 6", "+5", "05", "00", "-0", "-",
        "--5", "5-", "1_000",
    ];
    for (word, shown) in wrong.map(|word| (word, word)).into_iter().chain([
        ("5\r", "5\\x0d"),
        ("\t5", "\\x095"),
        ("5\0", "5\\x00"),
        ("−5", "\\xe2\\x88\\x925"),
    ]) {
        for line in [1, 51, 135] {
            let mut numbers: Vec<String> = (1..=135).map(|row: i32| row.to_string()).collect();
            numbers[line - 1] = word.to_string();
            let path = mzk().list("misspelled", numbers);
            let said = format!("{path}:{line}: found '{shown}', {NUMBER}");
            mzk().check_said(&["force", SMALL, &path], 2, &said);
            mzk().check_said(&["control", &path], 2, &said);
            if line == 51 {
                for arguments in [
                    &["run", SMALL, &plan, &path][..],
                    &["run", SMALL, &plan, &path, "--rounds"],
                    &["survey", SMALL, &path],
                    &["set", SMALL, &path, &path, "0=1"],
                    &["join", SMALL, SMALL, &path],
                    &["diff", &path, &path],
                ] {
                    mzk().check_said(arguments, 2, &said);
                }
            }
        }
    }
    let path = mzk().file("misspelled", lines(1..51) + &"x".repeat(100_000));
    let said = format!(
        "{path}:51: found '{}..' without a line feed, {NUMBER}",
        "x".repeat(60)
    );
    mzk().check_said(&["control", &path], 2, &said);
}

/// Numbers past 64 bits, and movements past their limit.
#[test]
fn numbers_too_large() {
    let plan = plan("too large");
    let right = mzk().list("right movements", 1..136);
    let past = [
        "9223372036854775808",
        "-9223372036854775809",
        "99999999999999999999",
        "18446744073709551617",
    ];
    for number in past {
        let path = mzk().list("too large", ["1", "2", number]);
        let said =
            format!("{path}:3: found '{number}', wanted a whole number of 64 bits (refusal 4)");
        mzk().check_said(&["control", &path], 2, &said);
    }
    for number in [
        "1000001",
        "-1000001",
        "4294967297",
        "-4294967295",
        "9223372036854775807",
    ] {
        for line in [1, 51, 135] {
            let mut numbers: Vec<String> = (1..=135).map(|row: i32| row.to_string()).collect();
            numbers[line - 1] = number.to_string();
            let path = mzk().list("too far", numbers);
            let wanted = "wanted a movement of at most 1000000 either side of 0 (refusal 6)";
            let said = format!("{path}:{line}: found '{number}', {wanted}");
            for arguments in [
                &["force", SMALL, &path][..],
                &["run", SMALL, &plan, &path],
                &["run", SMALL, &plan, &right, "--crews", &path],
                &["run", SMALL, &plan, &path, "--crews", &right],
                &["survey", SMALL, &path],
            ] {
                mzk().check_said(arguments, 2, &said);
            }
        }
    }
}

/// Too few, too many, none, and a last line without its end.
#[test]
fn lists_miscounted() {
    let found = |count: u32| format!(": found {count} movements, wanted 135 (refusal 6)");
    let wrong = [
        (String::new(), found(0)),
        (lines(1..135), found(134)),
        (lines(1..137), found(136)),
        (lines(1..100_001), found(100_000)),
        (
            lines(1..136) + "abc\n",
            format!(":136: found 'abc', {NUMBER}"),
        ),
        (lines(1..136) + "\n", format!(":136: found '', {NUMBER}")),
        (
            lines(1..136) + " ",
            format!(":136: found ' ' without a line feed, {NUMBER}"),
        ),
        (
            lines(1..135) + "135",
            format!(":135: found '135' without a line feed, {NUMBER}"),
        ),
    ];
    for (content, sentence) in wrong {
        let path = mzk().file("miscounted", &content);
        mzk().check_said(&["force", SMALL, &path], 2, &format!("{path}{sentence}"));
        let said = format!("standard input{sentence}");
        check_said(
            mzk().run_on(content.as_bytes(), &["force", SMALL, "-"]),
            2,
            &said,
        );
    }
}

/// Files that cannot be read, in every place where one is named.
#[test]
fn files_that_cannot_be_read() {
    let (list, plan) = (mzk().list("right", 1..136), plan("right"));
    let (job, run) = (mzk().path("right job"), mzk().path("right run"));
    let one = mzk().list("right start", [1]);
    mzk().ended(&["prepare", SMALL, &plan, &list, "-o", &job]);
    mzk().ended(&["pick", &job, &run, "--fresh"]);
    let folder = mzk().path("");
    let missing = "no such file: cannot be read: No such file or directory";
    let is_folder = format!("{folder}: cannot be read: Is a directory");
    for (path, said) in [("no such file", missing), (&*folder, &*is_folder)] {
        for arguments in [
            &["plan", path][..],
            &["list", path],
            &["list", &plan, "-m", path],
            &["check", path, &plan],
            &["check", SMALL, path],
            &["draw", path],
            &["draw", &plan, "-m", path],
            &["force", path, &list],
            &["force", SMALL, path],
            &["run", path, &plan, &list],
            &["run", SMALL, path, &list],
            &["run", SMALL, &plan, path],
            &["run", SMALL, &plan, &list, "--crews", path],
            &["run", SMALL, &plan, &list, "--picks", path],
            &["prepare", path, &plan, &list],
            &["prepare", SMALL, path, &list],
            &["prepare", SMALL, &plan, path],
            &["pick", path, &run],
            &["pick", &job, &run, path],
            &["survey", path, &list],
            &["survey", SMALL, path],
            &["set", path, &list, &list, "0=1"],
            &["set", SMALL, path, &list, "0=1"],
            &["set", SMALL, &list, path, "0=1"],
            &["join", path, SMALL, &list],
            &["join", SMALL, path, &list],
            &["join", SMALL, SMALL, path],
            &["rows", path, &list, &list],
            &["rows", &one, path, &list],
            &["rows", &one, &one, path],
            &["control", path],
            &["diff", path, &list],
            &["diff", &list, path],
        ] {
            mzk().check_said(arguments, 3, said);
        }
    }
    let unbegun = format!("{missing}; --fresh begins it");
    for (path, said) in [("no such file", unbegun), (&*folder, is_folder)] {
        mzk().check_said(&["pick", &job, path], 3, &said);
        mzk().check_said(&["barrier", path, "line"], 3, &said);
    }
}

/// Output that cannot be written, by every command.
#[test]
fn output_that_cannot_be_written() {
    let (list, plan) = (mzk().list("list", 1..136), plan("written"));
    let other = mzk().list("other list", 2..137);
    let places = mzk().list("places", 135..270);
    let [forces, job, run] = ["forces", "job", "run"].map(|name| mzk().path(name));
    mzk().ended(&["force", SMALL, &list, "-o", &forces]);
    mzk().ended(&["prepare", SMALL, &plan, &list, "-o", &job]);
    let (starts, entry) = (mzk().list("starts", [0, 1]), mzk().list("entry", [0]));
    let unit = mzk().file("unit", [0; 10]);
    let written = [
        &["plan", SMALL, "-q"][..],
        &["list", &plan, "-q"],
        &["draw", &plan],
        &["force", SMALL, &list],
        &["force", SMALL, &list, "-c"],
        &["run", "-q", SMALL, &plan, &list],
        &["run", "-q", SMALL, &plan, &list, "--crews", &list],
        &["run", "-q", SMALL, &plan, &list, "--crews", &list, "-c"],
        &["prepare", SMALL, &plan, &list],
        &["pick", &job, &run, "--fresh"],
        &["survey", SMALL, &list],
        &["survey", SMALL, &list, "-s", "0"],
        &["set", SMALL, &list, &forces, "0=1"],
        &["join", SMALL, SMALL, &places],
        &["rows", &starts, &entry, &entry],
    ];
    for arguments in written {
        mzk().check_full(arguments);
        for (path, why) in [
            ("/dev/full", "No space left on device"),
            ("/no/such/folder", "No such file or directory"),
        ] {
            let said = format!("{path}: cannot be written: {why}");
            mzk().check_said(&[arguments, &["-o", path]].concat(), 3, &said);
        }
    }
    let alone = [
        &["check", SMALL, &plan][..],
        &["barrier", &unit, "line"],
        &["control", &list],
        &["diff", &list, &other],
    ];
    for arguments in alone {
        mzk().check_full(arguments);
    }
    for arguments in [
        &["help"][..],
        &["help", "run"],
        &["run", "--help"],
        &["--help"],
        &["--version"],
    ] {
        mzk().check_full(arguments);
    }
    for option in ["--new-movements", "--new-matrix"] {
        let said = "/dev/full: cannot be written: No space left on device";
        mzk().check_said(
            &["set", SMALL, &list, &forces, "0=1", option, "/dev/full"],
            3,
            said,
        );
    }
}

/// A run and a unit that cannot be kept: nothing is told.
#[test]
fn kept_files_that_cannot_be_written() {
    let (list, plan) = (mzk().list("kept list", 1..136), plan("kept"));
    let (job, picks) = (mzk().path("kept job"), mzk().list("kept picks", [0]));
    mzk().ended(&["prepare", SMALL, &plan, &list, "-o", &job]);
    for (path, why) in [
        ("/dev/full", "No space left on device"),
        ("/no/such/folder", "No such file or directory"),
    ] {
        let said = format!("{path}: cannot be written: {why}");
        mzk().check_said(&["pick", &job, path, &picks, "--fresh"], 3, &said);
        mzk().check_said(&["barrier", path, "line", "--fresh"], 3, &said);
    }
}

/// A file that cannot be written whole is left as it was, with nothing beside it.
#[test]
fn files_half_written() {
    let (list, plan) = (mzk().list("half list", 1..136), plan("half"));
    let (job, picks) = (mzk().path("half job"), mzk().list("half picks", [0]));
    mzk().ended(&["prepare", SMALL, &plan, &list, "-o", &job]);
    let folder = mzk().path("half");
    _ = fs::remove_dir_all(&folder); /* of an earlier run */
    fs::create_dir_all(&folder).expect("a folder can be made");
    let [run, unit] = ["half/run", "half/unit"].map(|name| mzk().path(name));
    mzk().ended(&["pick", &job, &run, "--fresh"]);
    mzk().ended(&["barrier", &unit, "0=3", "--fresh"]);
    let before = [&run, &unit].map(|path| fs::read(path).expect("a file"));
    for arguments in [
        &["pick", &job, &run, &picks][..],
        &["barrier", &unit, "0=1"],
        &["force", SMALL, &list, "-o", &run],
        &["draw", &plan, "-o", &unit],
    ] {
        let path = arguments.iter().find(|&&word| word == run || word == unit);
        let path = path.expect("one of the files");
        let said = format!("{path}: cannot be written: File too large");
        let output = Command::new("sh")
            .args(["-c", "trap '' XFSZ; ulimit -f 0; exec \"$0\" \"$@\""])
            .arg(&mzk().program)
            .args(arguments)
            .output();
        check_said(output.expect("a shell can be run"), 3, &said);
        let after = [&run, &unit].map(|path| fs::read(path).expect("a file"));
        assert!(before == after, "{arguments:?}");
    }
    let files = fs::read_dir(&folder).expect("the folder").count();
    assert_eq!(files, 2, "the run and the unit alone");
}

/// A file that is replaced keeps its permissions, and a link stays one.
#[test]
fn files_replaced() {
    let list = mzk().list("replaced list", 1..136);
    let (secret, link) = (mzk().file("secret", "old"), mzk().path("link to secret"));
    fs::set_permissions(&secret, Permissions::from_mode(0o600)).expect("its permissions");
    _ = fs::remove_file(&link); /* of an earlier run */
    symlink(&secret, &link).expect("a link can be made");
    let forces = mzk().printed(&["force", SMALL, &list]);
    for path in [&secret, &link] {
        fs::write(&secret, "old").expect("a file can be written");
        mzk().ended(&["force", SMALL, &list, "-o", path]);
        assert_eq!(fs::read_to_string(&secret).expect("the forces"), forces);
        let found = fs::metadata(&secret).expect("the file");
        assert_eq!(found.permissions().mode() & 0o777, 0o600);
    }
    assert!(fs::symlink_metadata(&link).expect("the link").is_symlink());
    let folder = mzk().path("");
    let said = format!("{folder}: cannot be written: Is a directory");
    mzk().check_said(&["force", SMALL, &list, "-o", &folder], 3, &said);
}

/// A large list is found to be unwritten, too, which is more than a buffer takes.
#[test]
fn large_output_that_cannot_be_written() {
    let large = files::folder().join("roof_1300.mtx");
    let list = mzk().list("large list", 1..3_901);
    mzk().check_full(&["force", large.to_str().expect("a path of Unicode"), &list]);
}

/// Standard input and output that are closed.
#[test]
fn closed_files() {
    let list = mzk().list("list of closed files", 1..136);
    let run = |line: &str, said: &str| {
        let output = Command::new("sh")
            .args(["-c", line])
            .arg(&mzk().program)
            .args([SMALL, &list])
            .output();
        check_said(output.expect("a shell can be run"), 3, said);
    };
    let unwritten = "standard output: cannot be written: Bad file descriptor";
    run("\"$0\" force \"$1\" \"$2\" >&-", unwritten);
    let unread = "standard input: cannot be read: Bad file descriptor";
    run("\"$0\" force \"$1\" - <&-", unread);
}

/// Numbers that options cannot have.
#[test]
fn options_refused() {
    let carried = mzk().path("never written");
    let list = mzk().list("movements of options", 1..136);
    let plan = plan("options");
    let any = "0 to 4294967295";
    let cases = [
        (
            ["plan", SMALL, "-o", &carried],
            "--workers",
            any,
            &["", "x", "02", "16x", "5.9", "-1", "4294967296"][..],
        ),
        (
            ["plan", SMALL, "-o", &carried],
            "--closeness",
            any,
            &["", "-60", "4294967356", "60%"],
        ),
        (
            ["check", SMALL, &plan, "--"],
            "--distance",
            any,
            &["", "x", "-2", "4294967298"],
        ),
        (
            ["run", SMALL, &plan, &list],
            "--threads",
            "1 to 16",
            &["0", "17", "+2", " 2", "99999999999"],
        ),
        (
            ["survey", SMALL, &list, "--"],
            "--error",
            any,
            &["-1", "1e3", "4294967297"],
        ),
        (
            ["survey", SMALL, &list, "--"],
            "--shift",
            any,
            &["-1", "4294967296", "x"],
        ),
    ];
    for (call, option, limits, wrong) in cases {
        for value in wrong {
            let command = call[0];
            let said = format!(
                "mzk {command}: {option}: found '{value}', wanted a whole number of {limits}"
            );
            let joined = format!("{option}={value}");
            let arguments = [&[command, option, value][..], &call[1..]].concat();
            mzk().check_said(&arguments, 2, &said);
            if !value.is_empty() {
                mzk().check_said(&[&[command, &joined][..], &call[1..]].concat(), 2, &said);
            }
        }
    }
    assert!(!fs::exists(&carried).expect("a path that can be asked"));
}

/// Workers, closeness and distance outside the library's limits; just inside they are taken.
#[test]
fn parameters_refused() {
    let limits = "workers are 1 to 16, closeness is 50 to 99, and distance 1 to 4 (refusal 7)";
    let [refused, carried] = ["never planned", "planned"].map(|name| mzk().path(name));
    let asked = |path: &str, workers: &str, p: &str, k: &str| {
        let options = ["-w", workers, "-p", p, "-k", k];
        mzk().run(&[&["plan", "-q", SMALL, "-o", path][..], &options].concat())
    };
    for (workers, p, k) in [
        ("0", "60", "2"),
        ("17", "60", "2"),
        ("4294967295", "60", "2"),
        ("16", "49", "2"),
        ("16", "100", "2"),
        ("16", "60", "0"),
        ("16", "60", "5"),
        ("272", "316", "258"),
    ] {
        let found = format!("{workers} workers, closeness {p}, distance {k}");
        check_said(
            asked(&refused, workers, p, k),
            2,
            &format!("mzk plan: {found}: {limits}"),
        );
    }
    assert!(!fs::exists(&refused).expect("a path that can be asked"));
    for (workers, p, k) in [("1", "50", "1"), ("16", "99", "4")] {
        assert!(asked(&carried, workers, p, k).status.success());
    }
    let plan = plan("parameters");
    for k in ["0", "5", "258"] {
        let said = format!("mzk check: distance {k}: {limits}");
        mzk().check_said(&["check", SMALL, &plan, "-k", k], 2, &said);
    }
}

/// Arguments that are too few, too many, or do not go together.
#[test]
fn arguments_refused() {
    let plan = plan("arguments");
    let wrong = [
        (&["plan"][..], "plan: found 0 operands, wanted MATRIX"),
        (&["plan", "a", "b"], "plan: found 2 operands, wanted MATRIX"),
        (&["plan", "-x", "a"], "plan: no option -x"),
        (&["plan", "--work", "2", "a"], "plan: no option --work"),
        (&["plan", "-j", "2", "a"], "plan: no option -j"),
        (&["plan", "a", "-w"], "plan: --workers without its N"),
        (
            &["plan", "a", "-w", "2", "--workers", "2"],
            "plan: --workers twice",
        ),
        (
            &["plan", "a", "--quiet=3"],
            "plan: --quiet takes nothing, found --quiet=3",
        ),
        (&["list"], "list: found 0 operands, wanted PLAN"),
        (
            &["check", "a"],
            "check: found 1 operand, wanted MATRIX PLAN",
        ),
        (&["draw"], "draw: found 0 operands, wanted PLAN"),
        (
            &["force", "a"],
            "force: found 1 operand, wanted MATRIX MOVEMENTS",
        ),
        (
            &["run", "a", "b"],
            "run: found 2 operands, wanted MATRIX PLAN MOVEMENTS",
        ),
        (
            &["run", SMALL, &plan, "b", "-r", "-j", "2"],
            "run: only one of --threads, --rounds and --picks",
        ),
        (
            &["run", SMALL, &plan, "b", "-r", "--picks", "c"],
            "run: only one of --threads, --rounds and --picks",
        ),
        (
            &["run", SMALL, &plan, "b", "-j2", "--picks", "c"],
            "run: only one of --threads, --rounds and --picks",
        ),
        (
            &["run", SMALL, &plan, "b", "-r", "--crews", "b"],
            "run: --rounds serves one crew",
        ),
        (
            &["survey", "a"],
            "survey: found 1 operand, wanted MATRIX MOVEMENTS",
        ),
        (
            &["set", "a", "b", "c"],
            "set: found 3 operands, wanted MATRIX MOVEMENTS FORCES CHANGE ..",
        ),
        (
            &["join", "a", "b"],
            "join: found 2 operands, wanted FIRST SECOND PLACES",
        ),
        (
            &["prepare", "a", "b"],
            "prepare: found 2 operands, wanted MATRIX PLAN MOVEMENTS",
        ),
        (
            &["pick", "a"],
            "pick: found 1 operand, wanted JOB RUN [PICKS]",
        ),
        (
            &["rows", "a", "b"],
            "rows: found 2 operands, wanted STARTS COLUMNS VALUES",
        ),
        (
            &["barrier", "a"],
            "barrier: found 1 operand, wanted UNIT ACCESS ..",
        ),
        (
            &["barrier", "-", "line"],
            "barrier: what is kept has a file, found -",
        ),
        (&["control"], "control: found 0 operands, wanted LIST"),
        (&["diff", "a"], "diff: found 1 operand, wanted LIST LIST"),
        (
            &["help", "a", "b"],
            "help: found 2 operands, wanted [COMMAND]",
        ),
        (&["diff", "-", "-"], "diff: standard input is named twice"),
        (
            &["run", "-", "-", "a"],
            "run: standard input is named twice",
        ),
        (
            &["run", SMALL, &plan, "-", "--crews", "-"],
            "run: standard input is named twice",
        ),
        (
            &["run", SMALL, &plan, "-", "--picks", "-"],
            "run: standard input is named twice",
        ),
        (
            &["list", "-", "-m", "-"],
            "list: standard input is named twice",
        ),
        (
            &["set", "a", "b", "c", "0=1", "--new-matrix", "-"],
            "set: standard output is named twice",
        ),
        (
            &[
                "set",
                "a",
                "b",
                "c",
                "0=1",
                "-o",
                "d",
                "--new-matrix",
                "-",
                "--new-movements",
                "-",
            ],
            "set: standard output is named twice",
        ),
    ];
    for (arguments, said) in wrong {
        let said = format!("mzk {said}; see mzk help {}", arguments[0]);
        mzk().check_said(arguments, 2, &said);
    }
    mzk().check_said(&[], 2, "usage: mzk COMMAND ..; see mzk help");
    let commands = COMMANDS.join(" ");
    for arguments in [&["frob"][..], &["help", "frob"]] {
        let said = format!("mzk: found 'frob', wanted a command: {commands}");
        mzk().check_said(arguments, 2, &said);
    }
}

/// After `--` a name may begin with a minus sign, and a number is a file's name like another.
#[test]
fn odd_names() {
    let folder = mzk().path("odd names");
    let folder: &std::path::Path = folder.as_ref();
    fs::create_dir_all(folder).expect("a folder can be made");
    for name in ["-w", "2026"] {
        fs::write(folder.join(name), lines(1..136)).expect("a file can be written");
        let output = mzk().run_in(folder, &["force", SMALL, "--", name]);
        assert!(output.status.success(), "{name}");
    }
}

/// Every command has its help, the same in three ways, with its options; none is wider than a terminal.
#[test]
fn help() {
    let overview = mzk().printed(&["help"]);
    assert_eq!(overview, mzk().printed(&["--help"]));
    assert_eq!(overview, mzk().printed(&["-h"]));
    for command in COMMANDS {
        assert!(
            overview.contains(&format!("\n  mzk {command} ")),
            "{command}"
        );
        let help = mzk().printed(&["help", command]);
        assert!(help.starts_with(&format!("mzk {command} ")), "{help}");
        assert_eq!(help, mzk().printed(&[command, "--help"]));
        assert_eq!(
            help,
            mzk().printed(&[command, "-h", "more", "than", "it", "takes"])
        );
        assert!(
            help.lines()
                .chain(overview.lines())
                .all(|line| line.len() <= 80),
            "{help}"
        );
        let page = include_str!("../../docs/mzk.1").replace("\\-", "-");
        let options = help
            .split_whitespace()
            .filter(|word| word.starts_with("--"));
        let options = options.map(|option| option.trim_end_matches([',', ';', '.']));
        for option in options.filter(|&option| option != "--help" && option != "--version") {
            assert!(page.contains(option), "the manual page tells of {option}");
        }
        assert!(
            page.contains(&format!(".B mzk {command}")),
            "and of {command}"
        );
    }
    assert!(mzk().printed(&["--version"]).starts_with("mzk "));
}

/// In a terminal a run shows a bar, from 0 to 100 per cent, and takes it away; a quiet one shows nothing.
#[test]
fn progress() {
    let large = files::folder().join("roof_1300.mtx");
    let (_, matrix) = files::read(&large);
    let large = large.to_str().expect("a path of Unicode");
    let plan = mzk().plan("progress.plan", &planner::plan(matrix.rows(), 16, 60));
    let list = mzk().list("movements of progress", 1..3_901);
    let forces = mzk().path("forces of progress");
    let product = lines(matrix.rows().product(&(1..3_901).collect::<Vec<i32>>()));
    for (more, by) in [(&[][..], "by 16 threads"), (&["--rounds"], "in rounds")] {
        let run = [&["run", large, &plan, &list][..], more].concat();
        let (status, shown) = mzk().in_terminal(&run, Some(&forces));
        assert_eq!(status, Some(0), "{shown}");
        let bars: Vec<&str> = shown
            .split('\r')
            .filter(|part| part.starts_with('['))
            .collect();
        let dashes = format!("[{}]   0 %, 0 of 92664 moves", "-".repeat(40));
        let full = format!("[{}] 100 %, 92664 of 92664 moves", "#".repeat(40));
        assert_eq!(
            (bars.first(), bars.last()),
            (Some(&&*dashes), Some(&&*full))
        );
        assert!(bars.len() > 10 && bars.len() <= 101, "{} bars", bars.len());
        let last = shown.trim_end().rsplit('\r').next();
        let told = format!("{large}: 92664 moves of 16 workers {by}, forces as on one core");
        assert_eq!(last, Some(&*told));
        assert!(fs::read_to_string(&forces).expect("the forces") == product);
        let (status, shown) = mzk().in_terminal(&[&run[..], &["-q"]].concat(), Some(&forces));
        assert_eq!((status, &*shown), (Some(0), ""));
        assert!(
            !mzk().ended(&run).1.contains('['),
            "no bar where there is no terminal"
        );
    }
}

/// A plan file is not sent to a terminal.
#[test]
fn plan_to_a_terminal() {
    let said = "mzk plan: a plan file is no text for a terminal: name a file with -o; see mzk help plan\r\n";
    let (status, shown) = mzk().in_terminal(&["plan", SMALL], None);
    assert_eq!((status, &*shown), (Some(2), said));
}
