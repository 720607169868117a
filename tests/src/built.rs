//! C programs over the library, built and run for a test.

use std::fs::File;
use std::path::{Path, PathBuf};
use std::process::{Command, Output, Stdio};

/// The repository.
const ROOT: &str = concat!(env!("CARGO_MANIFEST_DIR"), "/..");

/// Compiles C files of the repository and links them with the library. Panics at an error or a warning.
pub fn compile(compiler: &str, arguments: &[&str], sources: &[String], program: &Path) {
    let built = Command::new(compiler)
        .args(["-Wall", "-Wextra", "-Werror", "-O2", "-pthread"])
        .arg(format!("-I{ROOT}/include"))
        .args(arguments)
        .args(sources.iter().map(|source| format!("{ROOT}/{source}")))
        .args(["-x", "none"])
        .arg(format!("{ROOT}/target/staticlib/libmazhoketh.a"))
        .arg("-o")
        .arg(program)
        .status();
    let built = built.unwrap_or_else(|error| panic!("{compiler}: {error}"));
    assert!(built.success(), "{compiler} builds {sources:?}");
}

/// Builds an example into a folder; the program.
pub fn example(folder: &str, name: &str) -> PathBuf {
    let program = Path::new(folder).join(format!("example {name}"));
    let arguments = ["-std=c99", "-pedantic"];
    compile("gcc", &arguments, &[format!("examples/{name}.c")], &program);
    program
}

/// Builds `mzk` into a folder, as the Makefile does, with further arguments; the program.
pub fn mzk(folder: &str, name: &str, further: &[&str]) -> PathBuf {
    let program = Path::new(folder).join(name);
    let files = std::fs::read_dir(format!("{ROOT}/mzk")).expect("the folder of the program");
    let names = files.map(|file| file.expect("a file of the folder").file_name());
    let names = names.map(|name| name.to_str().expect("a name of Unicode").to_string());
    let sources: Vec<String> = names
        .filter(|name| name.ends_with(".c"))
        .map(|name| format!("mzk/{name}"))
        .collect();
    let arguments = ["-std=c11", "-pedantic", "-D_POSIX_C_SOURCE=200809L"];
    compile("gcc", &[&arguments, further].concat(), &sources, &program);
    program
}

/// Runs a program.
pub fn run(program: &Path, arguments: &[&str]) -> Output {
    run_into(program, arguments, Stdio::piped())
}

/// Runs a program with its output to a device that is always full.
pub fn run_full(program: &Path, arguments: &[&str]) -> Output {
    let full = File::options().write(true).open("/dev/full");
    let full = full.expect("the device can be opened");
    run_into(program, arguments, full.into())
}

/// Runs a program with its output to a file or a pipe.
fn run_into(program: &Path, arguments: &[&str], stdout: Stdio) -> Output {
    let mut command = Command::new(program);
    command.args(arguments).stdout(stdout);
    let output = command.stderr(Stdio::piped()).output();
    output.expect("the program can be run")
}

/// Panics unless a program printed nothing, ended with this status, and this is the last line that it told.
pub fn check_ended(output: Output, status: i32, line: &str) {
    let told = String::from_utf8_lossy(&output.stderr);
    assert_eq!(output.status.code(), Some(status), "{told}");
    assert_eq!(told.lines().last(), Some(line));
    assert!(output.stdout.is_empty(), "printed beside: {told}");
}

/// The path of a file of a folder.
pub fn path_in(folder: &str, name: &str) -> String {
    let path = Path::new(folder).join(name);
    path.to_str().expect("a path of Unicode").to_string()
}
