//! The programs of the tests, called wrongly: a usage line and status 2.

use std::process::Command;

/// Panics unless a program called so prints nothing, says its usage and ends with 2.
fn check_usage(program: &str, arguments: &[&str], usage: &str) {
    let output = Command::new(program).args(arguments).output();
    let output = output.expect("the program can be run");
    let told = String::from_utf8_lossy(&output.stderr);
    assert_eq!(output.status.code(), Some(2), "{arguments:?}: {told}");
    assert!(told.starts_with(usage), "{arguments:?}: {told}");
    assert_eq!(told.lines().count(), 1, "{arguments:?}: {told}");
    assert!(output.stdout.is_empty(), "{arguments:?}");
}

#[test]
fn fuzz() {
    let wrong = ["-1", "0", "inf", "-inf", "nan", "1e300", "", "x", "1x"];
    for minutes in wrong {
        check_usage(env!("CARGO_BIN_EXE_fuzz"), &["7", minutes], "usage: fuzz ");
    }
    for seed in ["-1", "x", "", "1.5", "4294967296"] {
        check_usage(env!("CARGO_BIN_EXE_fuzz"), &[seed, "1"], "usage: fuzz ");
    }
    for arguments in [&[][..], &["7"], &["7", "1", "1"]] {
        check_usage(env!("CARGO_BIN_EXE_fuzz"), arguments, "usage: fuzz ");
    }
}

#[test]
fn bench() {
    let usage = "usage: bench [NAME ..] (read, write, product, survey, set_movement, set_entry, join, plan, check, \
                 write_plan, read_plan, numbers_read, numbers_write, control, barrier, picks, rounds, preview, ready, \
                 forces, prepare, prepared_picks, prepared_rounds, prepared_ready, prepared_forces, picks_both, \
                 ready_both, efficiency, roof, bcsstk14, gr_30_30, chain, unjoined)";
    for arguments in [
        &["pick"][..],
        &["picks", "roofs"],
        &[""],
        &["picks, a run in 1 list"],
    ] {
        check_usage(env!("CARGO_BIN_EXE_bench"), arguments, usage);
    }
}

/// A call and a net, in any order, are one line of the table.
#[test]
fn bench_alone() {
    for arguments in [["ready", "chain"], ["chain", "ready"]] {
        let output = Command::new(env!("CARGO_BIN_EXE_bench"))
            .args(arguments)
            .output();
        let output = output.expect("the program can be run");
        let table = String::from_utf8_lossy(&output.stdout);
        let found = table
            .lines()
            .skip(2)
            .map(|line| line.starts_with("| chain of 4,096 | ready |"));
        assert_eq!(found.collect::<Vec<bool>>(), [true], "{table}");
    }
}

#[test]
fn stack() {
    for arguments in [&[][..], &["read"], &["reads", "2097152"], &["read", "x"]] {
        check_usage(env!("CARGO_BIN_EXE_stack"), arguments, "usage: stack ");
    }
}
