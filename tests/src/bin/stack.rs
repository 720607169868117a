//! A call on a stack of so many bytes: `stack CALL BYTES` makes the call on the largest nets, each time with no more
//! stack than that, and ends well; if it needs more, it meets memory that may not be touched and ends by a signal.
//!
//! The bytes are counted from the frame of `on_stack` down to the next page, so the frames of this program between it
//! and the call, of some hundred bytes, are the call's.

use std::ffi::{c_int, c_void};
use std::process::exit;
use std::thread;

use mazhoketh_tests::given::{At, Given};
use mazhoketh_tests::library;
use mazhoketh_tests::lists::refusal_number;
use mazhoketh_tests::oracle::matrix::MOST_ENTRIES;
use mazhoketh_tests::oracle::nets::{self, Roof};
use mazhoketh_tests::oracle::prng::Prng;

/// A page, and the memory below the stack that may not be touched.
const PAGE: usize = 4_096;
const FENCE: usize = 1 << 20;
/// What the thread has beside the call's stack and the fence.
const OWN: usize = 2 << 20;

const PROT_NONE: c_int = 0;
const PROT_READ_WRITE: c_int = 3;

extern "C" {
    fn mprotect(address: *mut c_void, length: usize, protection: c_int) -> c_int;
}

/// Opens or closes the fence that ends at an address.
fn protect(end: usize, protection: c_int) {
    let done = unsafe { mprotect((end - FENCE) as *mut c_void, FENCE, protection) };
    assert_eq!(done, 0, "the stack can be fenced");
}

/// What a call answers with no more than so many bytes of stack below this frame.
#[inline(never)]
fn on_stack(bytes: usize, call: impl FnOnce() -> u64) -> u64 {
    let here = std::ptr::from_ref(&bytes) as usize;
    let end = (here - bytes).next_multiple_of(PAGE);
    protect(end, PROT_NONE);
    let word = call();
    protect(end, PROT_READ_WRITE);
    word
}

/// The records of every plan, of seven numbers each.
const GROUP_BYTES: usize = 4 * 7 * 481;

/// Makes a call on so many bytes of stack; its word, or None if no call has this name.
#[rustfmt::skip]
fn make(call: &str, stack: usize, given: &Given) -> Option<u64> {
    let blank = |list: &[u8]| vec![0; list.len()];
    let (mut order, mut groups, mut text) = (blank(&given.order), vec![0; GROUP_BYTES], blank(&given.text));
    let (mut starts, mut columns, mut values) = (blank(&given.row_starts), blank(&given.columns), blank(&given.values));
    let At { mut state, mut sums } = At::fresh(given.n);
    let At { state: mut state1, sums: mut sums1 } = At::fresh(given.n);
    let (mut forces, mut shift, mut file) = (blank(&sums), blank(&given.movements), blank(&given.file));
    let (mut movements, mut own, mut kept) = (given.movements.clone(), given.values.clone(), given.product());
    let (mut lines, mut list) = (blank(&given.lines), blank(&given.prepared));
    let end = &given.finished;
    Some(match call {
        "read" => on_stack(stack, || library::read(&given.text, &mut starts, &mut columns, &mut values)),
        "write" => on_stack(stack, || library::write(given.matrix(), &mut text)),
        "product" => on_stack(stack, || library::product(given.matrix(), &given.movements, &mut forces)),
        "survey" => on_stack(stack, || {
            library::survey(given.matrix(), &given.movements, 1, given.n / 2, &mut forces, &mut shift)
        }),
        "set_movement" => on_stack(stack, || {
            library::set_movement(given.matrix(), &mut movements, &mut kept, given.n / 2, 1_000_000)
        }),
        "set_entry" => on_stack(stack, || {
            library::set_entry(given.pattern(), &mut own, &given.movements, &mut kept, given.altered())
        }),
        "join" => on_stack(stack, || {
            let (first, second) = (given.matrix(), given.opposite());
            library::join(first, second, &given.places, &mut starts, &mut columns, &mut values)
        }),
        "plan" => on_stack(stack, || library::plan(given.matrix(), 16, given.p, 4, &mut order, &mut groups)),
        "check" => on_stack(stack, || library::check(given.matrix(), given.farther[1].lists(), 4)),
        "write_plan" => on_stack(stack, || library::write_plan(given.n, given.plan(), &mut file)),
        "read_plan" => on_stack(stack, || library::read_plan(&given.file, &mut order, &mut groups)),
        "numbers_read" => on_stack(stack, || library::numbers_read(&given.lines, &mut forces)),
        "numbers_write" => on_stack(stack, || library::numbers_write(&given.list, &mut lines)),
        "control" => on_stack(stack, || library::control(&end.sums)),
        "barrier_write" => on_stack(stack, || library::barrier_write(&mut state, (2, 1))),
        "barrier_read" => on_stack(stack, || library::barrier_read(&state, 2)),
        "barrier_line" => on_stack(stack, || library::barrier_line(&state)),
        "barrier_releases" => on_stack(stack, || library::barrier_releases(&state)),
        "picks" => on_stack(stack, || {
            let (one, others) = given.schedule.split_at(1);
            let word = library::picks(given.run(), &mut state, &mut sums, one);
            word + library::picks(given.run(), &mut state, &mut sums, others)
        }),
        "rounds" => on_stack(stack, || library::rounds(given.run(), &mut state, &mut sums, &given.schedule)),
        "preview" => on_stack(stack, || library::preview(given.run(), &state, &sums, &given.schedule)),
        "ready" => on_stack(stack, || library::ready(given.run(), &state, &sums)),
        "forces" => on_stack(stack, || library::forces(given.run(), &end.state, &end.sums, &mut forces)),
        "prepare" => on_stack(stack, || library::prepare(given.run(), &mut list)),
        "prepared_picks" => on_stack(stack, || {
            library::prepared_picks(&given.prepared, &mut state, &mut sums, &given.schedule)
        }),
        "prepared_rounds" => on_stack(stack, || {
            library::prepared_rounds(&given.prepared, &mut state, &mut sums, &given.schedule)
        }),
        "prepared_ready" => on_stack(stack, || library::prepared_ready(&given.prepared, &state, &sums)),
        "prepared_forces" => on_stack(stack, || {
            library::prepared_forces(&given.prepared, &end.state, &end.sums, &mut forces)
        }),
        "picks_both" => on_stack(stack, || {
            let (states, sums) = ([&mut state[..], &mut state1], [&mut sums[..], &mut sums1]);
            library::picks_both(given.crews(), states, sums, &given.schedule_both)
        }),
        "ready_both" => on_stack(stack, || {
            library::ready_both(given.crews(), [&state, &state1], [&sums, &sums1])
        }),
        _ => return None,
    })
}

/// Makes a call for nets with the most levels, components and entries, and for a roof, planned with the least and the
/// largest p.
fn run(call: &str, stack: usize) {
    let nets = [
        nets::chain(4_096),
        nets::unjoined(4_096),
        nets::filled_band(4_096, MOST_ENTRIES),
        nets::roof(&mut Prng::new(1), Roof::default()),
    ];
    for (net, p) in nets.iter().flat_map(|net| [(net, 50), (net, 99)]) {
        let word = make(call, stack, &Given::new(net, p)).unwrap_or_else(|| usage());
        assert_eq!(refusal_number(word), 0, "{call} is accepted");
    }
}

/// Says how the program is called.
fn usage() -> ! {
    eprintln!(
        "usage: stack CALL BYTES (read, write, product, survey, set_movement, set_entry, join, plan, check, \
         write_plan, read_plan, picks, rounds, preview, ready, forces, picks_both, ready_both, barrier_write, \
         barrier_read, barrier_line, barrier_releases, numbers_read, numbers_write or control)"
    );
    exit(2);
}

fn main() {
    let arguments: Vec<String> = std::env::args().skip(1).collect();
    let [call, stack] = &arguments[..] else {
        usage()
    };
    let Ok(stack) = stack.parse() else { usage() };
    let call = call.clone();
    let thread = thread::Builder::new().stack_size(stack + FENCE + OWN);
    let ended = thread
        .spawn(move || run(&call, stack))
        .expect("a thread can be started")
        .join();
    exit(i32::from(ended.is_err()));
}
