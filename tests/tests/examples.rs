//! The C examples, built and run.

use mazhoketh_tests::built::{self, check_ended, run};
use mazhoketh_tests::files;
use mazhoketh_tests::mzk::{ended, lines};

/// A folder to build in.
const BUILT: &str = env!("CARGO_TARGET_TMPDIR");

/// The forces of a net whose rows all move by 1,000.
#[test]
fn force() {
    let force = built::example(BUILT, "force");
    for name in ["roof_45.mtx", "bcsstk14.mtx"] {
        let path = files::folder().join(name);
        let (_, matrix) = files::read(&path);
        let product = matrix.rows().product(&vec![1_000; matrix.n as usize]);
        let path = path.to_str().expect("a path of Unicode");
        assert_eq!(ended(run(&force, &[path])).0, lines(product), "{name}");
    }
    check_ended(run(&force, &[]), 2, "usage: force MATRIX");
    check_ended(run(&force, &["no such.mtx"]), 2, "usage: force MATRIX");
    let refused = run(
        &force,
        &[concat!(env!("CARGO_MANIFEST_DIR"), "/Cargo.toml")],
    );
    check_ended(refused, 2, "read: refused with 1 at 1");
}

/// Threads that are often run give what one core does.
#[test]
fn threads() {
    let threads = built::example(BUILT, "threads");
    for _ in 0..20 {
        let printed = ended(run(&threads, &[])).0;
        assert_eq!(printed, "9 groups, forces as on one core\n");
    }
}
