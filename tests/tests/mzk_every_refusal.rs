//! Every refusal of documents 01 and 02, met by `mzk` with its sentence, on document 01's chain of eight rows.

use mazhoketh_tests::lists::REFUSALS;
use mazhoketh_tests::mzk::{ended, lines, Mzk};
use mazhoketh_tests::oracle::planner::{self, Plan};
use mazhoketh_tests::oracle::{calls, nets};

/// For each refusal, in the order of their numbers, a command and what it says.
const REFUSED: [(&str, &str); REFUSALS] = [
    (
        "plan ones",
        "ones:1: found '1', wanted '%%MatrixMarket matrix coordinate integer symmetric'",
    ),
    (
        "plan form",
        "form:3: found '1 1 1.5', wanted three whole numbers with spaces between: the size line, a line for each \
         entry, and no more",
    ),
    (
        "plan size",
        "size:2: found '1 2 0', wanted as many columns as rows, 1 to 4096, and 0 to 32768 entries",
    ),
    (
        "plan entry",
        "entry:3: found '1 2 5', wanted an entry on or below the diagonal, inside the rows, not given before, of at \
         most 1000000000 either side of 0",
    ),
    (
        "rows starts columns values",
        "mzk rows: the lists are no matrix: 1 to 4096 rows of ascending columns, each entry with its mirror, at most \
         32768 on and below the diagonal, of at most 1000000000 either side of 0",
    ),
    (
        "force chain far",
        "far:8: found '1000001', wanted a movement of at most 1000000 either side of 0",
    ),
    (
        "plan chain -w 17",
        "mzk plan: 17 workers, closeness 60, distance 2: workers are 1 to 16, closeness is 50 to 99, and distance 1 \
         to 4",
    ),
    (
        "check chain red",
        "red: the plan is not sound for this matrix",
    ),
    (
        "barrier short line",
        "short: too short, wanted 10 at least",
    ),
    (
        "pick job run third",
        "third:2: found '2', wanted a worker of the plan",
    ),
    (
        "pick job unit",
        "unit: no run of this job: it has 192 bytes and 8 for each row, and no worker past its moves",
    ),
    (
        "pick job run many",
        "many:33: found '1', wanted a worker that has moves left",
    ),
    (
        "pick job run thirteen",
        "thirteen:13: found '0', wanted a worker that does not wait for others",
    ),
    (
        "pick job full thirteen",
        "thirteen:2: found '0', wanted a worker whose next sum fits 64 bits, as all do in a run that began with zeros",
    ),
    (
        "pick job run --forces",
        "run: the run is not finished: a worker has moves left",
    ),
    (
        "list ones",
        "ones: no plan file, or a damaged or an older one",
    ),
    (
        "survey chain ones -s 8",
        "mzk survey: error 1, row 8: the matrix has no such row, or the survey error is above 1000000",
    ),
    (
        "run chain plan ones --crews ones --picks crews",
        "crews:13: found '32', wanted 16 times the crew, 0 or 1, and a worker",
    ),
    (
        "run chain plan ones --crews ones --picks inside",
        "inside:2: found '16', wanted a worker that is not inside a row of the other crew",
    ),
    (
        "set chain ones ones 0=1",
        "ones: the forces are not those of the matrix and the movements",
    ),
    (
        "set chain ones forces 8=1",
        "8=1: the matrix has no such row, or no such entry is stored",
    ),
    (
        "set chain ones forces 0=1000001",
        "0=1000001: a movement is at most 1000000, a value at most 1000000000 either side of 0",
    ),
    (
        "join chain chain ones",
        "ones: a place repeats, or leaves a gap past the rows of the first matrix",
    ),
    (
        "join large chain places",
        "places: the joined matrix has more than 4096 rows or 32768 entries, or a value above 1000000000 either side \
         of 0",
    ),
    (
        "barrier unit 6=1",
        "6=1: a barrier unit has the registers 0 to 5",
    ),
    (
        "pick ones run",
        "ones: no prepared job, or a damaged one",
    ),
];

/// Writes the chain, its plan for two workers, movements, forces and a fresh run; and what is refused.
fn write_files(mzk: &Mzk) {
    let chain = nets::chain(8);
    let plan = planner::plan(chain.rows(), 2, 60);
    mzk.matrix("chain", &chain);
    mzk.plan("plan", &plan);
    let mut red = Plan { ..plan };
    red.groups[0][4] = 1;
    mzk.plan("red", &red);
    mzk.list("ones", [1; 8]);
    mzk.list("forces", [1, 0, 0, 0, 0, 0, 0, 1]);
    mzk.file("run", [0; calls::STATE_BYTES + 64]);
    mzk.file("unit", [0; 10]);
    let head = "%%MatrixMarket matrix coordinate integer symmetric\n";
    mzk.file("form", format!("{head}1 1 1\n1 1 1.5\n"));
    mzk.file("size", format!("{head}1 2 0\n"));
    mzk.file("entry", format!("{head}2 2 1\n1 2 5\n"));
    mzk.list("starts", [0, 2, 4]);
    mzk.list("columns", [0, 1, 0, 1]);
    mzk.list("values", [1, 2, 3, 4]);
    mzk.list("far", [0, 0, 0, 0, 0, 0, 0, 1_000_001]);
    mzk.file("short", [0; 9]);
    mzk.list("third", [1, 2]);
    mzk.file("many", lines([0; 12]) + &lines([1; 21]));
    mzk.list("thirteen", [0; 13]);
    let sums = [i64::MAX; 8].map(i64::to_le_bytes).concat();
    mzk.file("full", [&[0; calls::STATE_BYTES][..], &sums].concat());
    mzk.file("crews", lines([17; 12]) + "32\n");
    mzk.list("inside", [0, 16]);
    mzk.matrix("large", &nets::chain(4_096));
    mzk.list("places", 4_096..4_104);
}

/// Each ends with status 2, and says its sentence and number alone; picks also tell how far they came.
#[test]
fn every_refusal() {
    let mzk = Mzk::new(env!("CARGO_TARGET_TMPDIR"), "every refusal");
    let folder = mzk.path("");
    let run = |words: &str| mzk.run_in(folder.as_ref(), &words.split(' ').collect::<Vec<&str>>());
    write_files(&mzk);
    ended(run("prepare chain plan ones -o job"));
    for (number, (words, sentence)) in (1..).zip(REFUSED) {
        write_files(&mzk);
        let output = run(words);
        let told = String::from_utf8_lossy(&output.stderr);
        assert_eq!(told, format!("{sentence} (refusal {number})\n"));
        assert_eq!(output.status.code(), Some(2), "{words}");
        let is_told = [10, 12, 13, 14].contains(&number);
        assert_eq!(output.stdout.starts_with(b"moves "), is_told, "{words}");
        assert_eq!(output.stdout.is_empty(), !is_told, "{words}");
    }
}
