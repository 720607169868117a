//! The C header: compiled as C99 and as C++, its macros, sizes and names against what the library answers.

use std::path::Path;
use std::process::Command;

use mazhoketh_tests::built;
use mazhoketh_tests::lists::REFUSALS;

/// Builds a C file of the tests by a compiler with these arguments, and runs it; what it printed.
fn build_and_run(name: &str, compiler: &str, arguments: &[&str]) -> String {
    build_with(&[], name, compiler, arguments)
}

/// The same with further files.
fn build_with(files: &[&str], name: &str, compiler: &str, arguments: &[&str]) -> String {
    let program = Path::new(env!("CARGO_TARGET_TMPDIR")).join(format!("{name} by {compiler}"));
    let sources = files.iter().map(|file| file.to_string());
    let sources: Vec<String> = sources.chain([format!("tests/c/{name}.c")]).collect();
    built::compile(compiler, arguments, &sources, &program);
    let output = Command::new(program).output();
    let output = output.expect("the program can be run");
    let printed = String::from_utf8_lossy(&output.stdout).to_string();
    assert!(output.status.success(), "{compiler}: {printed}");
    printed
}

#[test]
fn as_c99() {
    build_and_run("header", "gcc", &["-std=c99", "-pedantic"]);
}

#[test]
fn as_cpp() {
    build_and_run("header", "g++", &["-x", "c++"]);
}

/// A program without a C library links the archive, with no more than a `memcpy` and a `memset` of its own.
#[test]
fn without_a_c_library() {
    let arguments = [
        "-std=c11",
        "-ffreestanding",
        "-nostdlib",
        "-static",
        "-fno-stack-protector",
        "-fno-tree-loop-distribute-patterns",
    ];
    build_and_run("bare", "gcc", &arguments);
}

/// Every refusal has a sentence of its own, which ends in its number; a later one is said to be unknown.
#[test]
fn sentences() {
    let files = ["mzk/refusals.c", "mzk/files.c"];
    let arguments = ["-std=c11", "-pedantic", "-D_POSIX_C_SOURCE=200809L"];
    let printed = build_with(&files, "refusals", "gcc", &arguments);
    let mut sentences: Vec<&str> = printed.lines().collect();
    assert_eq!(sentences.len(), REFUSALS + 1);
    for (number, sentence) in (1..).zip(&sentences) {
        assert!(sentence.starts_with("FILE:"), "{sentence}");
        assert!(
            sentence.ends_with(&format!(" (refusal {number})")),
            "{sentence}"
        );
        assert_eq!(
            sentence.contains("does not know"),
            number == REFUSALS + 1,
            "{sentence}"
        );
    }
    for (number, place) in [
        (4, "FILE:7: found '7', wanted an entry "),
        (6, "FILE:8: found '8', wanted a movement "),
        (9, ", wanted 7 at least "),
        (13, "FILE:8: found '8', wanted a worker that does not wait "),
    ] {
        assert!(
            sentences[number - 1].contains(place),
            "{}",
            sentences[number - 1]
        );
    }
    let text = |sentence: &mut &str| sentence.rfind(" (").map(|end| sentence[..end].to_string());
    sentences.sort_unstable();
    sentences.dedup_by_key(text);
    assert_eq!(sentences.len(), REFUSALS + 1, "two sentences are the same");
}
