//! The stack that each call is said to need, in include/mazhoketh.h: no call uses more, on the largest inputs.

use std::os::unix::process::ExitStatusExt;
use std::process::Command;

/// The header's sentence, and its figures in tenths of a MiB; beside them, the calls that need next to nothing.
const SENTENCE: &str = "mzk_join uses up to 2.6 MiB, mzk_read up to 2.5 MiB, mzk_picks, mzk_rounds and mzk_preview up \
                        to 1.6 MiB, mzk_picks_both and mzk_ready_both up to 1.5 MiB, mzk_prepare up to 1.3 MiB, \
                        mzk_plan, mzk_ready and mzk_forces up to 1 MiB, mzk_set_movement and mzk_set_entry up to \
                        0.7 MiB, the calls on a prepared list, mzk_write_plan, mzk_read_plan, mzk_numbers_read, \
                        mzk_numbers_write, mzk_control and the calls on a barrier unit up to 8 KiB, the others up to \
                        0.6 MiB.";
const SMALL: &[&str] = &[
    "prepared_picks",
    "prepared_rounds",
    "prepared_ready",
    "prepared_forces",
    "write_plan",
    "read_plan",
    "barrier_write",
    "barrier_read",
    "barrier_line",
    "barrier_releases",
    "numbers_read",
    "numbers_write",
    "control",
];
const TENTHS: &[(&str, usize)] = &[
    ("join", 26),
    ("read", 25),
    ("picks", 16),
    ("rounds", 16),
    ("preview", 16),
    ("picks_both", 15),
    ("ready_both", 15),
    ("prepare", 13),
    ("plan", 10),
    ("ready", 10),
    ("forces", 10),
    ("set_movement", 7),
    ("set_entry", 7),
    ("write", 6),
    ("product", 6),
    ("survey", 6),
    ("check", 6),
];

/// The signal by which a call on too little stack ends, or None if it ends well.
fn run(call: &str, bytes: usize) -> Option<i32> {
    let mut program = Command::new(env!("CARGO_BIN_EXE_stack"));
    let output = program.args([call, &bytes.to_string()]).output();
    let output = output.expect("the program can be run");
    let ended = output.status;
    let told = String::from_utf8_lossy(&output.stderr);
    assert!(ended.success() || ended.signal().is_some(), "{told}");
    ended.signal()
}

#[test]
fn is_enough() {
    for &(call, tenths) in TENTHS {
        let bytes = tenths * (1 << 20) / 10;
        assert_eq!(run(call, bytes), None, "{call} needs more than {bytes}");
    }
    for call in SMALL {
        assert_eq!(run(call, 8 << 10), None, "{call} needs more than 8 KiB");
    }
}

/// Half of it is not: the measure would notice.
#[test]
fn half_is_too_little() {
    for &(call, tenths) in TENTHS {
        let bytes = tenths * (1 << 20) / 20;
        assert!(run(call, bytes).is_some(), "{call} needs less than {bytes}");
    }
}

#[test]
fn is_what_the_header_says() {
    let path = concat!(env!("CARGO_MANIFEST_DIR"), "/../include/mazhoketh.h");
    let header = std::fs::read_to_string(path).expect("the header can be read");
    let words: Vec<&str> = header
        .split_whitespace()
        .filter(|&word| word != "*")
        .collect();
    assert!(words.join(" ").contains(SENTENCE));
}
