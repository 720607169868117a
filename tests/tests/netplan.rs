//! The program `netplan`, which `make` builds, beside the other implementation.

use std::fs::File;
use std::io::Write;
use std::process::{Command, Stdio};

use mazhoketh_tests::oracle::netplan::netplan;
use mazhoketh_tests::oracle::prng::Prng;
use mazhoketh_tests::oracle::text::{self, LINE_1};
use mazhoketh_tests::oracle::{damage, nets};

/// The program.
const PROGRAM: &str = "../target/bin/netplan";

/// The most bytes that the program takes.
const LONGEST: usize = 24_576;

/// What the program writes for an input.
fn run(input: &[u8]) -> String {
    let mut program = Command::new(PROGRAM)
        .stdin(Stdio::piped())
        .stdout(Stdio::piped())
        .stderr(Stdio::piped())
        .spawn()
        .expect("`make` has built the program");
    let mut stdin = program.stdin.take().expect("its input is a pipe");
    let fed = stdin.write_all(input);
    drop(stdin);
    let output = program.wait_with_output().expect("the program runs");
    assert!(fed.is_ok() || input.len() > LONGEST, "all input is read");
    assert!(output.status.success(), "the program ends well");
    assert!(output.stderr.is_empty(), "nothing is amiss");
    String::from_utf8(output.stdout).expect("the output is ASCII")
}

/// A first line, line 1 and more.
fn input(line: &str, more: &str) -> Vec<u8> {
    [line.as_bytes(), b"\n", LINE_1, more.as_bytes()].concat()
}

/// The chain of eight after a first line.
fn chain(line: &str) -> Vec<u8> {
    [line.as_bytes(), b"\n", &text::write(&nets::chain(8))].concat()
}

/// The chain of eight with a `%` line that brings the input to this length.
fn chain_of_length(length: usize) -> Vec<u8> {
    let plain = chain("2 60");
    let head = "2 60\n".len() + LINE_1.len();
    let mut remark = vec![b'%'; length - plain.len() - 1];
    remark.push(b'\n');
    [&plain[..head], &remark, &plain[head..]].concat()
}

#[test]
fn plans_the_chain() {
    let expected = "order 0 1 2 3 4 5 6 7\ngroup start length first workers colour parent depth\n\
        0 0 8 0 2 0 0 0\n1 0 2 0 1 1 0 1\n2 2 2 0 1 2 0 1\n3 4 2 1 1 1 0 1\n4 6 2 1 1 2 0 1\n";
    assert_eq!(run(&chain("2 60")), expected);
    assert_eq!(run(&chain_of_length(LONGEST)), expected);
    assert_eq!(run(&chain_of_length(LONGEST + 1)), "refused 2 0\n");
    assert_eq!(run(&chain_of_length(4 * LONGEST)), "refused 2 0\n");
}

/// The sample runs: what is read and what is written, in files; the chain's stand beside the program's source.
#[test]
fn runs_samples() {
    let samples = [
        "refused_1",
        "refused_2",
        "refused_3",
        "refused_4",
        "refused_7",
        "lund_a",
        "roof_45",
    ];
    let names = samples.map(|name| format!("netplan/{name}."));
    for name in names
        .iter()
        .map(String::as_str)
        .chain(["../crates/netplan/"])
    {
        let read = |kind: &str| std::fs::read(format!("{name}{kind}")).expect("a sample's file");
        assert_eq!(run(&read("stdin")).as_bytes(), read("stdout"), "{name}");
    }
}

/// Output that cannot be written is said on standard error, and only that.
#[test]
fn says_unwritten_output() {
    let input = File::open("../crates/netplan/stdin").expect("the chain's input");
    let full = File::options().write(true).open("/dev/full");
    let program = Command::new(PROGRAM)
        .stdin(input)
        .stdout(full.expect("the device can be opened"))
        .stderr(Stdio::piped())
        .output();
    let told = program.expect("the program runs").stderr;
    assert_eq!(told, b"netplan: standard output cannot be written\n");
}

#[test]
fn refuses_texts() {
    let refused = [
        ("", "refused 2 2\n"),
        ("1 1 2\n", "refused 2 3\n"),
        ("1 1 1\n1 1 -0\n", "refused 2 3\n"),
        ("1 1 0", "refused 2 2\n"),
        ("1 2 0\n", "refused 3 2\n"),
        ("4097 4097 0\n", "refused 3 2\n"),
        ("%\n0 0 0\n", "refused 3 3\n"),
        ("2 2 1\n1 2 5\n", "refused 4 3\n"),
        ("1 1 2\n1 1 5\n1 1 5\n", "refused 4 4\n"),
        ("1 1 1\n1 1 1000000001\n", "refused 4 3\n"),
    ];
    for (more, expected) in refused {
        for line in ["2 60", "17 60", "", "x"] {
            assert_eq!(run(&input(line, more)), expected, "{line:?} {more:?}");
        }
    }
    for bytes in [&b""[..], b"\n", b"2 60", b"2 60\n", &chain("2 60")[5..]] {
        assert_eq!(run(bytes), "refused 1 1\n");
    }
}

#[test]
fn refuses_parameters() {
    let lines = [
        "",
        " ",
        "2",
        "2 ",
        " 2 60",
        "2  60",
        "2 60 ",
        "2 60 1",
        "02 60",
        "2 060",
        "2 -60",
        "+2 60",
        "2\t60",
        "0 60",
        "17 60",
        "2 49",
        "2 100",
        "4294967298 60",
        "2 4294967356",
        "9999999999 9999999999",
        "00000000002 60",
    ];
    for line in lines {
        assert_eq!(run(&chain(line)), "refused 7 0\n", "{line:?}");
    }
    for line in ["1 50", "16 99", "2 50", "16 60"] {
        assert_eq!(run(&chain(line)), netplan(&chain(line)), "{line:?}");
    }
}

#[test]
fn plans_the_largest() {
    for line in ["1 50", "7 70", "16 99"] {
        let input = input(line, "4096 4096 0\n");
        assert_eq!(run(&input), netplan(&input), "{line:?}");
    }
}

#[test]
fn plans_matrix_files() {
    let mut planned = 0;
    for file in std::fs::read_dir("../data").expect("the matrices stand beside the tests") {
        let path = file.expect("the folder can be read").path();
        if path.extension().is_none_or(|kind| kind != "mtx") {
            continue;
        }
        let text = std::fs::read(&path).expect("the file can be read");
        for line in ["1 60\n", "2 60\n", "5 50\n", "8 80\n", "16 60\n", "16 99\n"] {
            let input = [line.as_bytes(), &text].concat();
            assert_eq!(run(&input), netplan(&input), "{path:?} {line}");
            planned += usize::from(input.len() <= LONGEST);
        }
    }
    assert!(planned >= 60, "{planned} plans");
}

#[test]
fn answers_alike() {
    let mut rng = Prng::new(107);
    let mut plans = 0;
    for _ in 0..1_500 {
        let matrix = nets::random_net(&mut rng, 40);
        let mut text = damage::random_text(&mut rng, &matrix);
        if rng.chance(30) {
            damage::damage_text(&mut rng, &mut text);
        }
        let line = match rng.below(8) {
            0 => format!("{} {}", rng.below(19), 45 + rng.below(60)),
            _ => format!("{} {}", 1 + rng.below(16), 50 + rng.below(50)),
        };
        let mut input = [line.as_bytes(), b"\n", &text].concat();
        if rng.chance(10) {
            let at = rng.below(line.len() + 1);
            input[at] = rng.one_of(b"0123456789 \n-x");
        }
        let ours = run(&input);
        assert_eq!(
            ours,
            netplan(&input),
            "{:?}",
            String::from_utf8_lossy(&input)
        );
        plans += usize::from(ours.starts_with("order"));
    }
    assert!(plans >= 500, "{plans} plans");
}
