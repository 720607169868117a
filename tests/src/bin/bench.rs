//! Benchmarks: the verified library beside the other implementation, in one run, as a Markdown table.
//!
//! `cargo run --release --bin bench` prints it all; `bench picks roof` the lines of a call, of a net, or of both.
//! A line for each net and call: the least time of many rounds of each, their ratio, and how the library's time grows
//! from the net of half the size. Then, for each net, what its plan for 16 workers is worth (`bench efficiency` alone).

use std::hint::black_box;
use std::thread;
use std::time::{Duration, Instant};

use mazhoketh_tests::given::{At, Given};
use mazhoketh_tests::guarded::STACK;
use mazhoketh_tests::lists::{Altered, CrewLists, MatrixLists, PatternLists, PlanLists, RunLists};
use mazhoketh_tests::oracle::barrier::Write;
use mazhoketh_tests::oracle::leaves::leaves_of;
use mazhoketh_tests::oracle::matrix::Matrix;
use mazhoketh_tests::oracle::nets::{self, Roof};
use mazhoketh_tests::oracle::planner::{self, Rules, RULES};
use mazhoketh_tests::oracle::prng::Prng;
use mazhoketh_tests::oracle::{calls, WORKERS};
use mazhoketh_tests::{files, library};

/// A call is timed at least so long, and in so many rounds.
const TIME: Duration = Duration::from_millis(500);
const ROUNDS: usize = 5;

/// What calls write.
struct Lent {
    text: Vec<u8>,
    row_starts: Vec<u8>,
    columns: Vec<u8>,
    values: Vec<u8>,
    order: Vec<u8>,
    groups: Vec<u8>,
    file: Vec<u8>,
    forces: Vec<u8>,
    shift: Vec<u8>,
    movements: Vec<u8>,
    kept: Vec<u8>,
    lines: Vec<u8>,
    prepared: Vec<u8>,
    at: At,
    at1: At,
}

impl Lent {
    /// Lists of the lengths needed, and a fresh state.
    fn new(given: &Given) -> Lent {
        Lent {
            text: given.text.clone(),
            row_starts: given.row_starts.clone(),
            columns: given.columns.clone(),
            values: given.values.clone(),
            order: given.order.clone(),
            groups: given.groups.clone(),
            file: given.file.clone(),
            forces: vec![0; 8 * given.n as usize],
            shift: vec![0; 4 * given.n as usize],
            movements: given.movements.clone(),
            kept: given.product(),
            lines: given.lines.clone(),
            prepared: given.prepared.clone(),
            at: At::fresh(given.n),
            at1: At::fresh(given.n),
        }
    }
}

/// A list that a call writes.
type Out<'a> = &'a mut [u8];

/// The calls of an implementation.
struct Implementation {
    read: fn(&[u8], Out, Out, Out) -> u64,
    write: fn(MatrixLists, Out) -> u64,
    product: fn(MatrixLists, &[u8], Out) -> u64,
    survey: fn(MatrixLists, &[u8], u32, u32, Out, Out) -> u64,
    set_movement: fn(MatrixLists, Out, Out, u32, i32) -> u64,
    set_entry: fn(PatternLists, Out, &[u8], Out, Altered) -> u64,
    join: fn(MatrixLists, MatrixLists, &[u8], Out, Out, Out) -> u64,
    plan: fn(MatrixLists, u32, u32, u32, Out, Out) -> u64,
    check: fn(MatrixLists, PlanLists, u32) -> u64,
    write_plan: fn(u32, PlanLists, Out) -> u64,
    read_plan: fn(&[u8], Out, Out) -> u64,
    numbers_read: fn(&[u8], Out) -> u64,
    numbers_write: fn(&[u8], Out) -> u64,
    control: fn(&[u8]) -> u64,
    barrier_write: fn(Out, Write) -> u64,
    barrier_releases: fn(&[u8]) -> u64,
    picks: fn(RunLists, Out, Out, &[u8]) -> u64,
    rounds: fn(RunLists, Out, Out, &[u8]) -> u64,
    preview: fn(RunLists, &[u8], &[u8], &[u8]) -> u64,
    ready: fn(RunLists, &[u8], &[u8]) -> u64,
    forces: fn(RunLists, &[u8], &[u8], Out) -> u64,
    prepare: fn(RunLists, Out) -> u64,
    prepared_picks: fn(&[u8], Out, Out, &[u8]) -> u64,
    prepared_rounds: fn(&[u8], Out, Out, &[u8]) -> u64,
    prepared_ready: fn(&[u8], &[u8], &[u8]) -> u64,
    prepared_forces: fn(&[u8], &[u8], &[u8], Out) -> u64,
    picks_both: fn(CrewLists, [Out; 2], [Out; 2], &[u8]) -> u64,
    ready_both: fn(CrewLists, [&[u8]; 2], [&[u8]; 2]) -> u64,
}

const LIBRARY: Implementation = Implementation {
    read: library::read,
    write: library::write,
    product: library::product,
    survey: library::survey,
    set_movement: library::set_movement,
    set_entry: library::set_entry,
    join: library::join,
    plan: library::plan,
    check: library::check,
    write_plan: library::write_plan,
    read_plan: library::read_plan,
    numbers_read: library::numbers_read,
    numbers_write: library::numbers_write,
    control: library::control,
    barrier_write: library::barrier_write,
    barrier_releases: library::barrier_releases,
    picks: library::picks,
    rounds: library::rounds,
    preview: library::preview,
    ready: library::ready,
    forces: library::forces,
    prepare: library::prepare,
    prepared_picks: library::prepared_picks,
    prepared_rounds: library::prepared_rounds,
    prepared_ready: library::prepared_ready,
    prepared_forces: library::prepared_forces,
    picks_both: library::picks_both,
    ready_both: library::ready_both,
};

const RUST: Implementation = Implementation {
    read: calls::read,
    write: calls::write,
    product: calls::product,
    survey: calls::survey,
    set_movement: calls::set_movement,
    set_entry: calls::set_entry,
    join: calls::join,
    plan: calls::plan,
    check: calls::check,
    write_plan: calls::write_plan,
    read_plan: calls::read_plan,
    numbers_read: calls::numbers_read,
    numbers_write: calls::numbers_write,
    control: calls::control,
    barrier_write: calls::barrier_write,
    barrier_releases: calls::barrier_releases,
    picks: calls::picks,
    rounds: calls::rounds,
    preview: calls::preview,
    ready: calls::ready,
    forces: calls::forces,
    prepare: calls::prepare,
    prepared_picks: calls::prepared_picks,
    prepared_rounds: calls::prepared_rounds,
    prepared_ready: calls::prepared_ready,
    prepared_forces: calls::prepared_forces,
    picks_both: calls::picks_both,
    ready_both: calls::ready_both,
};

/// As many picks as a run has moves, of all workers in turn.
fn everyone_in_turn(given: &Given) -> Vec<u8> {
    let everyone: Vec<u8> = (0..16).collect();
    everyone.repeat(given.schedule.len() / 16)
}

/// What is timed: a call, or all calls of a run.
type Work = fn(&Implementation, &Given, &mut Lent) -> u64;

/// All that is timed, by name.
#[rustfmt::skip]
const WORKS: &[(&str, Work)] = &[
    ("read", |by, given, lent| (by.read)(&given.text, &mut lent.row_starts, &mut lent.columns, &mut lent.values)),
    ("write", |by, given, lent| (by.write)(given.matrix(), &mut lent.text)),
    ("product", |by, given, lent| (by.product)(given.matrix(), &given.movements, &mut lent.forces)),
    ("survey", |by, given, lent| {
        (by.survey)(given.matrix(), &given.movements, 1, given.n / 2, &mut lent.forces, &mut lent.shift)
    }),
    ("set_movement", |by, given, lent| {
        (by.set_movement)(given.matrix(), &mut lent.movements, &mut lent.kept, given.n / 2, 1_000_000)
    }),
    ("set_entry", |by, given, lent| {
        (by.set_entry)(given.pattern(), &mut lent.values, &given.movements, &mut lent.kept, given.altered())
    }),
    ("join, a net and its opposite", |by, given, lent| {
        let Lent { row_starts, columns, values, .. } = lent;
        (by.join)(given.matrix(), given.opposite(), &given.places, row_starts, columns, values)
    }),
    ("plan", |by, given, lent| (by.plan)(given.matrix(), 16, given.p, 2, &mut lent.order, &mut lent.groups)),
    ("plan, at 1", |by, given, lent| (by.plan)(given.matrix(), 16, given.p, 1, &mut lent.order, &mut lent.groups)),
    ("plan, at 3", |by, given, lent| (by.plan)(given.matrix(), 16, given.p, 3, &mut lent.order, &mut lent.groups)),
    ("plan, at 4", |by, given, lent| (by.plan)(given.matrix(), 16, given.p, 4, &mut lent.order, &mut lent.groups)),
    ("check", |by, given, _| (by.check)(given.matrix(), given.plan(), 2)),
    ("check, at 1", |by, given, _| (by.check)(given.matrix(), given.plan(), 1)),
    ("check, at 3", |by, given, _| (by.check)(given.matrix(), given.farther[0].lists(), 3)),
    ("check, at 4", |by, given, _| (by.check)(given.matrix(), given.farther[1].lists(), 4)),
    ("write_plan", |by, given, lent| (by.write_plan)(given.n, given.plan(), &mut lent.file)),
    ("read_plan", |by, given, lent| (by.read_plan)(&given.file, &mut lent.order, &mut lent.groups)),
    ("numbers_read", |by, given, lent| (by.numbers_read)(&given.lines, &mut lent.forces)),
    ("numbers_write", |by, given, lent| (by.numbers_write)(&given.list, &mut lent.lines)),
    ("control", |by, given, _| (by.control)(&given.finished.sums)),
    ("barrier, an arrival a pick", |by, given, _| {
        let mut unit = [0xff, 0xff, 0, 0, 0, 0, 0, 0, 0, 0];
        for &worker in &given.schedule {
            (by.barrier_write)(&mut unit, (2 + u32::from(worker) / 8, 1 << (worker % 8)));
        }
        (by.barrier_releases)(&unit)
    }),
    ("picks, a run in 1 list", |by, given, lent| {
        let At { state, sums } = lent.at.clear();
        (by.picks)(given.run(), state, sums, &given.schedule)
    }),
    ("picks, a run in 1,000 lists", |by, given, lent| {
        let At { state, sums } = lent.at.clear();
        given.lists().map(|picks| (by.picks)(given.run(), state, sums, picks)).sum()
    }),
    ("picks, 1 pick", |by, given, lent| {
        let At { state, sums } = lent.at.clear();
        (by.picks)(given.run(), state, sums, &given.schedule[..1])
    }),
    ("rounds", |by, given, lent| {
        let At { state, sums } = lent.at.clear();
        (by.rounds)(given.run(), state, sums, &everyone_in_turn(given))
    }),
    ("preview", |by, given, lent| {
        let At { state, sums } = lent.at.clear();
        (by.preview)(given.run(), state, sums, &given.schedule)
    }),
    ("ready", |by, given, _| (by.ready)(given.run(), &given.halfway.state, &given.halfway.sums)),
    ("forces", |by, given, lent| {
        let At { state, sums } = &given.finished;
        (by.forces)(given.run(), state, sums, &mut lent.forces)
    }),
    ("prepare", |by, given, lent| (by.prepare)(given.run(), &mut lent.prepared)),
    ("prepared_picks, a run in 1 list", |by, given, lent| {
        let At { state, sums } = lent.at.clear();
        (by.prepared_picks)(&given.prepared, state, sums, &given.schedule)
    }),
    ("prepared_picks, a run in 1,000 lists", |by, given, lent| {
        let At { state, sums } = lent.at.clear();
        given.lists().map(|picks| (by.prepared_picks)(&given.prepared, state, sums, picks)).sum()
    }),
    ("prepared_picks, 1,000 lists of 1 pick", |by, given, lent| {
        let At { state, sums } = lent.at.clear();
        let picks = given.schedule[..1_000].chunks(1);
        picks.map(|pick| (by.prepared_picks)(&given.prepared, state, sums, pick)).sum()
    }),
    ("prepared_rounds", |by, given, lent| {
        let At { state, sums } = lent.at.clear();
        (by.prepared_rounds)(&given.prepared, state, sums, &everyone_in_turn(given))
    }),
    ("prepared_ready", |by, given, _| {
        let At { state, sums } = &given.halfway;
        (by.prepared_ready)(&given.prepared, state, sums)
    }),
    ("prepared_forces", |by, given, lent| {
        let At { state, sums } = &given.finished;
        (by.prepared_forces)(&given.prepared, state, sums, &mut lent.forces)
    }),
    ("picks_both, two runs in 1 list", |by, given, lent| {
        let (at0, at1) = (lent.at.clear(), lent.at1.clear());
        let (states, sums) = ([&mut at0.state[..], &mut at1.state], [&mut at0.sums[..], &mut at1.sums]);
        (by.picks_both)(given.crews(), states, sums, &given.schedule_both)
    }),
    ("ready_both", |by, given, _| {
        let [at0, at1] = &given.halfway_both;
        (by.ready_both)(given.crews(), [&at0.state, &at1.state], [&at0.sums, &at1.sums])
    }),
];

/// The least times of a work, in µs: by the library and by the other implementation, timed in turn.
fn least_times(work: Work, given: &Given) -> [f64; 2] {
    let mut lent = Lent::new(given);
    let (ours, theirs) = (
        work(&LIBRARY, given, &mut lent),
        work(&RUST, given, &mut lent),
    );
    assert_eq!(ours, theirs, "the answer words");
    let mut least = [f64::MAX; 2];
    let start = Instant::now();
    let mut rounds = 0;
    while rounds < ROUNDS || start.elapsed() < TIME {
        for (least, by) in least.iter_mut().zip([&LIBRARY, &RUST]) {
            let start = Instant::now();
            black_box(work(by, black_box(given), &mut lent));
            *least = least.min(start.elapsed().as_secs_f64() * 1e6);
        }
        rounds += 1;
    }
    least
}

/// A net by name, what the table calls it, and how it is made: with one of half its size, if there is one.
type Net = (&'static str, &'static str, fn() -> (Matrix, Option<Matrix>));

/// All nets that calls are timed on.
#[rustfmt::skip]
const NETS: [Net; 5] = [
    ("roof", "roof of 3,900 rows", || (roof(52), Some(roof(26)))),
    ("bcsstk14", "bcsstk14", || (in_file("bcsstk14.mtx"), None)),
    ("gr_30_30", "gr_30_30", || (in_file("gr_30_30.mtx"), None)),
    ("chain", "chain of 4,096", || (nets::chain(4_096), Some(nets::chain(2_048)))),
    ("unjoined", "4,096 unjoined rows", || (nets::unjoined(4_096), Some(nets::unjoined(2_048)))),
];

/// The matrix of a file.
fn in_file(name: &str) -> Matrix {
    files::read(&files::folder().join(name)).1
}

/// A roof of so many spokes, 75 freedoms each.
fn roof(spokes: usize) -> Matrix {
    let roof = Roof {
        spokes,
        ..Roof::default()
    };
    nets::roof(&mut Prng::new(1), roof)
}

/// The call that a work is of.
fn call_of(work: &str) -> &str {
    work.split(',').next().unwrap_or(work)
}

/// What is asked for by name: calls and nets, all of a kind if none of it is named.
struct Asked(Vec<String>);

impl Asked {
    /// The arguments, if each names a call or a net.
    fn new(arguments: Vec<String>) -> Option<Asked> {
        let is_known = |name: &String| Asked::names().contains(&name.as_str());
        arguments.iter().all(is_known).then_some(Asked(arguments))
    }

    /// The calls, each once, and the table of efficiency.
    fn calls() -> Vec<&'static str> {
        let mut calls: Vec<&str> = WORKS.iter().map(|(work, _)| call_of(work)).collect();
        calls.dedup();
        calls.push(EFFICIENCY);
        calls
    }

    /// Whether some call is asked for.
    fn has_calls(&self) -> bool {
        WORKS
            .iter()
            .any(|(work, _)| self.has(call_of(work), &Asked::calls()))
    }

    /// The nets that are asked for.
    fn nets(&self) -> impl Iterator<Item = Net> + '_ {
        let names = NETS.map(|(name, _, _)| name);
        NETS.into_iter()
            .filter(move |(name, _, _)| self.has(name, &names))
    }

    /// The calls and the nets.
    fn names() -> Vec<&'static str> {
        let nets = NETS.iter().map(|(name, _, _)| *name);
        Asked::calls().into_iter().chain(nets).collect()
    }

    /// Whether a name is asked for, among those of its kind.
    fn has(&self, name: &str, kind: &[&str]) -> bool {
        let named: Vec<&String> = self
            .0
            .iter()
            .filter(|name| kind.contains(&name.as_str()))
            .collect();
        named.is_empty() || named.iter().any(|&asked| asked == name)
    }
}

/// A time in µs, a short one with two decimals.
fn told(time: f64) -> String {
    if time < 10.0 {
        format!("{time:.2}")
    } else {
        format!("{time:.0}")
    }
}

/// Prints the lines of a net, with the growth from a net of half its size if there is one.
fn print_net(asked: &Asked, name: &str, net: &Matrix, half: Option<&Matrix>) {
    let given = Given::new(net, 60);
    let half = half.map(|half| Given::new(half, 60));
    for &(call, work) in WORKS {
        if !asked.has(call_of(call), &Asked::calls()) {
            continue;
        }
        let [ours, theirs] = least_times(work, &given);
        let growth = half.as_ref().map(|half| ours / least_times(work, half)[0]);
        let growth = growth.map_or(String::new(), |growth| format!("{growth:.2}"));
        let (ratio, ours, theirs) = (ours / theirs, told(ours), told(theirs));
        println!("| {name} | {call} | {ours} | {theirs} | {ratio:.2} | {growth} |");
    }
}

/// Prints the table of what is asked for.
fn print_table(asked: &Asked) {
    println!("| net | call | library µs | Rust µs | ratio | growth from half |");
    println!("|---|---|---:|---:|---:|---:|");
    for (_, title, make) in asked.nets() {
        let (net, half) = make();
        print_net(asked, title, &net, half.as_ref());
    }
}

/// The table that is no call's.
const EFFICIENCY: &str = "efficiency";

/// Document 01's rules, and those after each request that changed them.
const EACH: [Rules; 3] = [
    Rules {
        load: planner::alike,
        root: planner::alike,
        k: planner::DISTANCE,
    },
    Rules {
        root: planner::alike,
        ..RULES
    },
    RULES,
];

/// The share of 16 workers' time that a plan uses, in per cent, with its levels, its groups and the updates of its
/// longest chain.
fn worth(rules: Rules, net: &Matrix) -> String {
    let whole: Vec<u32> = (0..net.n).collect();
    let levels = planner::levels_by(rules, net.rows(), &whole).1;
    let plan = planner::plan_by(rules, net.rows(), WORKERS as u32, 60);
    let leaves = leaves_of(net, &plan);
    let share = 100.0 * leaves.efficiency();
    let (groups, chain) = (plan.groups.len(), leaves.longest_chain() / 2);
    format!("{share:.0} % ({levels}, {groups}, {chain})")
}

/// Prints what the plan of each net is worth: all its updates, by those of the longest chain for each of 16 workers.
fn print_efficiency(asked: &Asked) {
    println!(
        "| net | rows | updates | document 01: used (levels, groups, longest chain) | loads by entries | roots at the edge |"
    );
    println!("|---|---:|---:|---:|---:|---:|");
    for (_, title, make) in asked.nets() {
        let net = make().0;
        let updates = net.n as usize + 2 * net.rows().joined_pairs();
        let [first, loads, roots] = EACH.map(|rules| worth(rules, &net));
        println!(
            "| {title} | {} | {updates} | {first} | {loads} | {roots} |",
            net.n
        );
    }
}

/// Prints what is asked for.
fn print_all(asked: &Asked) {
    if asked.has_calls() {
        print_table(asked);
    }
    if asked.has(EFFICIENCY, &Asked::calls()) {
        println!();
        print_efficiency(asked);
    }
}

fn main() {
    let Some(asked) = Asked::new(std::env::args().skip(1).collect()) else {
        eprintln!("usage: bench [NAME ..] ({})", Asked::names().join(", "));
        std::process::exit(2);
    };
    let thread = thread::Builder::new().stack_size(STACK);
    let ended = thread
        .spawn(move || print_all(&asked))
        .expect("a thread can be started")
        .join();
    ended.expect("the table is printed");
}
