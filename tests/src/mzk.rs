//! The command `mzk`, built for the tests of one file, and run.

use std::fs;
use std::io::Write;
use std::path::{Path, PathBuf};
use std::process::{Command, Output, Stdio};

use crate::built;
use crate::oracle::matrix::Matrix;
use crate::oracle::planner::Plan;
use crate::oracle::{plan_file, text};

/// A net of 135 rows.
pub const SMALL: &str = concat!(env!("CARGO_MANIFEST_DIR"), "/../data/roof_45.mtx");

/// The program, and a folder for its files.
pub struct Mzk {
    pub program: PathBuf,
    folder: String,
}

impl Mzk {
    /// Builds the program into a folder, for the tests of a name.
    pub fn new(folder: &str, name: &str) -> Mzk {
        let folder = built::path_in(folder, name);
        fs::create_dir_all(&folder).expect("a folder can be made");
        let program = built::mzk(&folder, "mzk", &[]);
        Mzk { program, folder }
    }

    /// The path of a file of the folder.
    pub fn path(&self, name: &str) -> String {
        built::path_in(&self.folder, name)
    }

    /// A file of the folder with this content; its path.
    pub fn file(&self, name: &str, content: impl AsRef<[u8]>) -> String {
        let path = self.path(name);
        fs::write(&path, content).expect("a file can be written");
        path
    }

    /// A file of numbers, one a line; its path.
    pub fn list<T: ToString>(&self, name: &str, numbers: impl IntoIterator<Item = T>) -> String {
        self.file(name, lines(numbers))
    }

    /// A matrix file; its path.
    pub fn matrix(&self, name: &str, matrix: &Matrix) -> String {
        self.file(name, text::write(matrix))
    }

    /// The file of a plan; its path.
    pub fn plan(&self, name: &str, plan: &Plan) -> String {
        self.file(name, plan_file::write(&plan.order, &plan.flat()))
    }

    /// Runs the program.
    pub fn run(&self, arguments: &[&str]) -> Output {
        built::run(&self.program, arguments)
    }

    /// Runs it with this on its standard input.
    pub fn run_on(&self, input: &[u8], arguments: &[&str]) -> Output {
        let mut program = Command::new(&self.program)
            .args(arguments)
            .stdin(Stdio::piped())
            .stdout(Stdio::piped())
            .stderr(Stdio::piped())
            .spawn()
            .expect("the program can be run");
        let mut stdin = program.stdin.take().expect("its input is a pipe");
        stdin.write_all(input).expect("all input is read");
        drop(stdin);
        program.wait_with_output().expect("the program ends")
    }

    /// What it prints, and tells on standard error, if it ends well.
    pub fn ended(&self, arguments: &[&str]) -> (String, String) {
        ended(self.run(arguments))
    }

    /// What it prints if it ends well.
    pub fn printed(&self, arguments: &[&str]) -> String {
        self.ended(arguments).0
    }

    /// Panics unless it prints nothing, ends with this status, and says this alone.
    pub fn check_said(&self, arguments: &[&str], status: i32, line: &str) {
        check_said(self.run(arguments), status, line);
    }

    /// Panics unless it prints nothing and is refused with a sentence that begins so, and this number.
    pub fn check_refused(&self, arguments: &[&str], start: &str, number: usize) {
        let output = self.run(arguments);
        check_refused(&output, start, number);
        assert!(output.stdout.is_empty(), "printed beside: {arguments:?}");
    }

    /// The same as `check_said` of an output that is always full.
    pub fn check_full(&self, arguments: &[&str]) {
        let sentence = "standard output: cannot be written: No space left on device";
        check_said(built::run_full(&self.program, arguments), 3, sentence);
    }

    /// Runs it in a terminal, its standard output to a file; the exit status, and what the terminal shows.
    pub fn in_terminal(&self, arguments: &[&str], stdout: Option<&str>) -> (Option<i32>, String) {
        let program = self.program.to_str().expect("a path of Unicode");
        let words = [program].into_iter().chain(arguments.iter().copied());
        let mut line: String = words.map(|word| format!("'{word}' ")).collect();
        if let Some(path) = stdout {
            line += &format!("> '{path}'");
        }
        let output = Command::new("script")
            .args(["--quiet", "--return", "--command", &line, "/dev/null"])
            .stdin(Stdio::null())
            .output()
            .expect("script can be run");
        let shown = String::from_utf8_lossy(&output.stdout).to_string();
        (output.status.code(), shown)
    }

    /// Runs it in a folder.
    pub fn run_in(&self, folder: &Path, arguments: &[&str]) -> Output {
        let mut command = Command::new(&self.program);
        let output = command.args(arguments).current_dir(folder).output();
        output.expect("the program can be run")
    }
}

/// What a program printed, and told, that ended well.
pub fn ended(output: Output) -> (String, String) {
    let told = String::from_utf8_lossy(&output.stderr).to_string();
    assert!(output.status.success(), "{told}");
    let printed = String::from_utf8(output.stdout).expect("the output is ASCII");
    (printed, told)
}

/// Panics unless a program printed nothing, ended with this status, and this is all that it told.
pub fn check_said(output: Output, status: i32, line: &str) {
    let told = String::from_utf8_lossy(&output.stderr);
    assert_eq!(told, line.to_string() + "\n");
    assert_eq!(output.status.code(), Some(status), "{told}");
    assert!(output.stdout.is_empty(), "printed beside: {told}");
}

/// Panics unless a program ended with 2 and told one line, which begins so and ends in the number of the refusal.
pub fn check_refused(output: &Output, start: &str, number: usize) {
    let told = String::from_utf8_lossy(&output.stderr);
    let end = format!(" (refusal {number})\n");
    assert!(told.starts_with(start) && told.ends_with(&end), "{told}");
    assert_eq!((output.status.code(), told.lines().count()), (Some(2), 1));
}

/// So many things of a name.
pub fn counted(count: u32, name: &str) -> String {
    let ending = if count == 1 { "" } else { "s" };
    format!("{count} {name}{ending}")
}

/// Numbers, one a line.
pub fn lines<T: ToString>(numbers: impl IntoIterator<Item = T>) -> String {
    let line = |number: T| number.to_string() + "\n";
    numbers.into_iter().map(line).collect()
}
