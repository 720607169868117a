//! The gate's part of the fuzzing: a fixed seed's cases of all calls. `cargo run --release --bin fuzz` runs longer.

use mazhoketh_tests::cases;
use mazhoketh_tests::lists::REFUSALS;

/// How many cases a call of weight 1 has.
const FOLD: u64 = 4_400;

#[test]
fn every_refusal() {
    let seen = cases::each(1, 0..FOLD * cases::all_weights(), cases::any);
    seen.require(0..=REFUSALS, 1_000);
}
