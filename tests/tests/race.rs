//! Workers that share sums without a lock, under the compiler's race detector, stopped at random.

use mazhoketh_tests::built;
use std::path::{Path, PathBuf};
use std::process::Output;

const DATA: &str = concat!(env!("CARGO_MANIFEST_DIR"), "/../data/");

/// Builds the program that runs them many times over.
fn stress(name: &str) -> PathBuf {
    let program = Path::new(env!("CARGO_TARGET_TMPDIR")).join(name);
    let arguments = [
        "-std=c11",
        "-D_POSIX_C_SOURCE=200809L",
        "-g",
        "-fsanitize=thread",
        "-finstrument-functions",
    ];
    let sources = [
        "tests/c/stress.c",
        "tests/c/restless.c",
        "mzk/workers.c",
        "mzk/nets.c",
        "mzk/lists.c",
        "mzk/files.c",
        "mzk/refusals.c",
    ];
    built::compile("gcc", &arguments, &sources.map(String::from), &program);
    program
}

/// Runs it on some nets.
fn run(program: &Path, arguments: &[&str]) -> Output {
    let nets = [
        "roof_1300",
        "roof_45",
        "can_144",
        "gr_30_30",
        "bcsstk01",
        "jagmesh7",
    ];
    let paths = nets.map(|net| format!("{DATA}{net}.mtx"));
    let paths: Vec<&str> = paths.iter().map(String::as_str).collect();
    built::run(program, &[arguments, &paths[..]].concat())
}

/// No race, and the state and sums of every run are those of a run by proved calls.
#[test]
fn no_race() {
    let output = run(&stress("stress"), &["4"]);
    let told = String::from_utf8_lossy(&output.stderr);
    assert_eq!(told, "");
    assert_eq!(
        String::from_utf8_lossy(&output.stdout),
        "120 runs, 0 differed, 0 in sums\n"
    );
    assert!(output.status.success());
}

/// Where a gate is opened that should be shut, the detector tells of a race.
#[test]
fn open_gate() {
    let output = run(&stress("stress, a gate open"), &["--open-gate", "4"]);
    let told = String::from_utf8_lossy(&output.stderr);
    assert!(told.contains("ThreadSanitizer: data race"), "{told}");
    assert!(!output.status.success());
}
