//! The calls on byte lists, as C makes them: little-endian numbers, and one answer word.
//!
//! The word has the refusal's number in its high half; its low half is the refusal's place or the call's count.

use super::barrier::{self, Unit, Write, UNIT_BYTES};
use super::crews::{self, LentBoth};
use super::machine::{self, Lent, Picked, State};
use super::matrix::{Matrix, Rows};
use super::prepared::{Prepared, Tables};
use super::{
    control, join, numbers, plan_file, planner, soundness, survey, text, upkeep, Refusal, FIELDS,
    WORKERS,
};
use crate::lists::{Altered, CrewLists, MatrixLists, PatternLists, PlanLists, RunLists};

/// The bytes of a state: sixteen counts of moves, then sixteen held numbers.
pub const STATE_BYTES: usize = WORKERS * (4 + 8);
/// More numbers than any accepted matrix or plan has in one list; the rest of a list is not read.
const MOST_READ: usize = 1 << 17;

/// A matrix text into row starts, columns and values; counts n.
pub fn read(text: &[u8], row_starts: &mut [u8], columns: &mut [u8], values: &mut [u8]) -> u64 {
    word(text::read(text).and_then(|matrix| put_matrix(&matrix, row_starts, columns, values)))
}

/// A matrix into row starts, columns and values; counts n.
fn put_matrix(
    matrix: &Matrix,
    row_starts: &mut [u8],
    columns: &mut [u8],
    values: &mut [u8],
) -> Result<u32, Refusal> {
    super::room(row_starts.len() / 4, matrix.starts.len())?;
    super::room(columns.len() / 4, matrix.columns.len())?;
    super::room(values.len() / 4, matrix.values.len())?;
    put(row_starts, &matrix.starts, u32::to_le_bytes);
    put(columns, &matrix.columns, u32::to_le_bytes);
    put(values, &matrix.values, i32::to_le_bytes);
    Ok(matrix.n)
}

/// The text of a matrix; counts the bytes written.
pub fn write(matrix: MatrixLists, text: &mut [u8]) -> u64 {
    let lists = Lists::of(matrix);
    word(lists.rows().and_then(|rows| text::write_into(rows, text)))
}

/// The product of a matrix and movements on one core.
pub fn product(matrix: MatrixLists, movements: &[u8], forces: &mut [u8]) -> u64 {
    let lists = Lists::of(matrix);
    let movements = get(movements, usize::MAX, i32::from_le_bytes);
    let mut product = || {
        let rows = lists.rows()?;
        super::matrix::judge_movements(rows.n, &movements)?;
        super::room(forces.len() / 8, rows.n)?;
        put(forces, &rows.product(&movements), i64::to_le_bytes);
        Ok(0)
    };
    word(product())
}

/// How far an error of t reaches, and a shift that reaches one freedom's amount; counts the shifts written.
pub fn survey(
    matrix: MatrixLists,
    movements: &[u8],
    t: u32,
    freedom: u32,
    amounts: &mut [u8],
    shift: &mut [u8],
) -> u64 {
    let lists = Lists::of(matrix);
    let movements = get(movements, usize::MAX, i32::from_le_bytes);
    let mut tell = || {
        let rows = lists.rows()?;
        super::matrix::judge_movements(rows.n, &movements)?;
        survey::judge(rows.n, t, freedom)?;
        super::room(amounts.len() / 8, rows.n)?;
        let has_room = survey::has_room(&movements, t);
        if has_room {
            super::room(shift.len() / 4, rows.n)?;
            put(shift, &survey::shift(rows, t, freedom), i32::to_le_bytes);
        }
        put(amounts, &survey::amounts(rows, t), i64::to_le_bytes);
        Ok(u32::from(has_room))
    };
    word(tell())
}

/// A new movement for one freedom of a kept force list.
pub fn set_movement(
    matrix: MatrixLists,
    movements: &mut [u8],
    forces: &mut [u8],
    freedom: u32,
    value: i32,
) -> u64 {
    let lists = Lists::of(matrix);
    let mut moved = get(movements, usize::MAX, i32::from_le_bytes);
    let mut kept = get(forces, usize::MAX, i64::from_le_bytes);
    let mut change = || {
        let rows = lists.rows()?;
        super::matrix::judge_movements(rows.n, &moved)?;
        upkeep::judge(rows, &moved, &kept)?;
        upkeep::set_movement(rows, &mut moved, &mut kept, freedom, value)?;
        put(movements, &moved, i32::to_le_bytes);
        put(forces, &kept, i64::to_le_bytes);
        Ok(0)
    };
    word(change())
}

/// A new value for an entry and its mirror, of a kept force list.
pub fn set_entry(
    pattern: PatternLists,
    values: &mut [u8],
    movements: &[u8],
    forces: &mut [u8],
    entry: Altered,
) -> u64 {
    let PatternLists {
        n,
        row_starts,
        columns,
    } = pattern;
    let lists = Lists::of(MatrixLists {
        n,
        row_starts,
        columns,
        values,
    });
    let moved = get(movements, usize::MAX, i32::from_le_bytes);
    let mut kept = get(forces, usize::MAX, i64::from_le_bytes);
    let mut change = || {
        let rows = lists.rows()?;
        super::matrix::judge_movements(rows.n, &moved)?;
        upkeep::judge(rows, &moved, &kept)?;
        let places = upkeep::set_entry(rows, &moved, &mut kept, entry)?;
        for place in places {
            put(&mut values[4 * place..], &[entry.value], i32::to_le_bytes);
        }
        put(forces, &kept, i64::to_le_bytes);
        Ok(0)
    };
    word(change())
}

/// Two nets sewn together; counts the joined net's freedoms.
pub fn join(
    first: MatrixLists,
    second: MatrixLists,
    places: &[u8],
    row_starts: &mut [u8],
    columns: &mut [u8],
    values: &mut [u8],
) -> u64 {
    let (first, second) = (Lists::of(first), Lists::of(second));
    let places = get(places, usize::MAX, u32::from_le_bytes);
    let mut sew = || {
        let matrix = join::join(first.rows()?, second.rows()?, &places)?;
        put_matrix(&matrix, row_starts, columns, values)
    };
    word(sew())
}

/// The plan of a matrix; counts its groups.
pub fn plan(
    matrix: MatrixLists,
    workers: u32,
    p: u32,
    k: u32,
    order: &mut [u8],
    groups: &mut [u8],
) -> u64 {
    let lists = Lists::of(matrix);
    let mut plan = || {
        let rows = lists.rows()?;
        planner::judge_limits(workers, p, k)?;
        let plan = planner::plan_at(rows, workers, p, k);
        super::room(order.len() / 4, rows.n)?;
        super::room(groups.len() / 4 / super::FIELDS, plan.groups.len())?;
        put(order, &plan.order, u32::to_le_bytes);
        put(groups, plan.groups.as_flattened(), u32::to_le_bytes);
        Ok(plan.group_count())
    };
    word(plan())
}

/// The check of a plan at the distance k.
pub fn check(matrix: MatrixLists, plan: PlanLists, k: u32) -> u64 {
    let lists = Lists::of(matrix).with_plan(plan);
    let checked = lists.rows().and_then(|rows| {
        planner::judge_distance(k)?;
        soundness::check_at(rows, &lists.order, &lists.groups, lists.group_count, k).map(|_| 0)
    });
    word(checked)
}

/// The file of a plan; counts the bytes written.
pub fn write_plan(n: u32, plan: PlanLists, file: &mut [u8]) -> u64 {
    let (rows, records) = (n as usize, plan.group_count as usize);
    let mut write = || {
        plan_file::judge_counts(rows, records)?;
        let order = get(plan.order, rows, u32::from_le_bytes);
        let groups = get(plan.groups, FIELDS * records, u32::from_le_bytes);
        if order.len() < rows || groups.len() < FIELDS * records {
            return Err(Refusal::at(8, 0));
        }
        let written = plan_file::write(&order, &groups);
        super::room(file.len(), written.len())?;
        file[..written.len()].copy_from_slice(&written);
        Ok(written.len() as u32)
    };
    word(write())
}

/// The plan in a file; counts its rows, and its groups × 65,536.
pub fn read_plan(file: &[u8], order: &mut [u8], groups: &mut [u8]) -> u64 {
    let mut read = || {
        let [rows, records] = plan_file::read(file)?;
        let group_count = records.len() / FIELDS;
        super::room(order.len() / 4, rows.len())?;
        super::room(groups.len() / 4 / FIELDS, group_count)?;
        put(order, &rows, u32::to_le_bytes);
        put(groups, &records, u32::to_le_bytes);
        Ok(rows.len() as u32 + ((group_count as u32) << 16))
    };
    word(read())
}

/// A byte written to a register of a barrier unit.
pub fn barrier_write(unit: &mut [u8], write: Write) -> u64 {
    let mut written = || {
        barrier::judge(write.0)?;
        let after = barrier::write(kept(unit)?, write);
        unit[..UNIT_BYTES].copy_from_slice(&after);
        Ok(0)
    };
    word(written())
}

/// A register of a barrier unit; counts its byte.
pub fn barrier_read(unit: &[u8], address: u32) -> u64 {
    let read = || {
        barrier::judge(address)?;
        Ok(barrier::read(&kept(unit)?, address).into())
    };
    word(read())
}

/// The interrupt line of a barrier unit: 1 while it is up.
pub fn barrier_line(unit: &[u8]) -> u64 {
    word(kept(unit).map(|unit| barrier::is_up(&unit).into()))
}

/// The releases of a barrier unit.
pub fn barrier_releases(unit: &[u8]) -> u64 {
    word(kept(unit).map(|unit| barrier::releases(&unit)))
}

/// The barrier unit in a list of bytes, or 9.
fn kept(unit: &[u8]) -> Result<Unit, Refusal> {
    super::room(unit.len(), UNIT_BYTES)?;
    let mut registers = [0; UNIT_BYTES];
    registers.copy_from_slice(&unit[..UNIT_BYTES]);
    Ok(registers)
}

/// The control number of a list of forces.
pub fn control(forces: &[u8]) -> u64 {
    let forces = forces.as_chunks().0.iter();
    control::number(forces.map(|&word| i64::from_le_bytes(word))).into()
}

/// The list of a text of numbers; counts them.
pub fn numbers_read(text: &[u8], list: &mut [u8]) -> u64 {
    let mut read = || {
        let numbers = numbers::read(text)?;
        super::room(list.len() / 8, numbers.len())?;
        put(list, &numbers, i64::to_le_bytes);
        Ok(numbers.len() as u32)
    };
    word(read())
}

/// The text of a list of numbers; counts its bytes.
pub fn numbers_write(list: &[u8], text: &mut [u8]) -> u64 {
    let numbers = list.as_chunks().0.iter();
    let written = numbers::write(numbers.map(|&number| i64::from_le_bytes(number)));
    let mut write = || {
        super::room(text.len(), written.len())?;
        text[..written.len()].copy_from_slice(&written);
        Ok(written.len() as u32)
    };
    word(write())
}

/// Picks of a run; counts those taken.
pub fn picks(run: RunLists, state: &mut [u8], sums: &mut [u8], picks: &[u8]) -> u64 {
    picks_word(take(run, state, sums, picks, &[]))
}

/// Picks of a run, of which 12 and 13 skip those that they refuse; the word also has the moves made × 2^40.
pub fn rounds(run: RunLists, state: &mut [u8], sums: &mut [u8], picks: &[u8]) -> u64 {
    rounds_word(take(run, state, sums, picks, &[12, 13]))
}

/// The word of picks.
fn picks_word(picked: Result<Picked, Refusal>) -> u64 {
    word(picked.and_then(|picked| picked.stopped.map_or(Ok(picked.taken), Err)))
}

/// The word of rounds.
fn rounds_word(picked: Result<Picked, Refusal>) -> u64 {
    let moves = picked.map_or(0, |picked| picked.taken);
    picks_word(picked) | u64::from(moves) << 40
}

/// Takes picks and leaves state and sums as they are then; 5, 6, 8 and 11 leave them as they were.
fn take(
    run: RunLists,
    state: &mut [u8],
    sums: &mut [u8],
    picks: &[u8],
    skips: &[u32],
) -> Result<Picked, Refusal> {
    let lists = Lists::of_run(run);
    let mut numbers = lists.state(state)?;
    let mut list = get(sums, usize::MAX, i64::from_le_bytes);
    let picked = machine::skipping(&lists.lent(), &mut numbers, &mut list, picks, skips);
    if has_begun(&picked) {
        put_state(state, &numbers);
        put(sums, &list, i64::to_le_bytes);
    }
    Ok(picked)
}

/// Whether a call came to its picks: 5, 6, 8 and 11 write nothing.
fn has_begun(picked: &Picked) -> bool {
    let unchanged = [5, 6, 8, 11];
    !picked
        .stopped
        .is_some_and(|refusal| unchanged.contains(&refusal.number))
}

/// Picks of two crews; counts those taken.
pub fn picks_both(
    lists: CrewLists,
    states: [&mut [u8]; 2],
    sums: [&mut [u8]; 2],
    picks: &[u8],
) -> u64 {
    let numbers = Lists::of_run(lists.run);
    let movements1 = get(lists.movements1, usize::MAX, i32::from_le_bytes);
    let take = || {
        let mut at = numbers.both(
            &movements1,
            [&*states[0], &*states[1]],
            [&*sums[0], &*sums[1]],
        )?;
        let picked = crews::picks(&numbers.lent_both(&movements1), &mut at, picks);
        if has_begun(&picked) {
            for ((at, state), sums) in at.iter().zip(states).zip(sums) {
                put_state(state, &at.state);
                put(sums, &at.sums, i64::to_le_bytes);
            }
        }
        picked.stopped.map_or(Ok(picked.taken), Err)
    };
    word(take())
}

/// The ready sets of two crews: sixteen bits of each in the low half, their counts in bits 40 to 47 and 48 to 55.
pub fn ready_both(lists: CrewLists, states: [&[u8]; 2], sums: [&[u8]; 2]) -> u64 {
    let numbers = Lists::of_run(lists.run);
    let movements1 = get(lists.movements1, usize::MAX, i32::from_le_bytes);
    let ready = || {
        let at = numbers.both(&movements1, states, sums)?;
        crews::ready(&numbers.lent_both(&movements1), &at)
    };
    match ready() {
        Ok([crew0, crew1]) => {
            let sets = u64::from(crew0.set) | u64::from(crew1.set) << 16;
            sets | u64::from(crew0.count) << 40 | u64::from(crew1.count) << 48
        }
        Err(refusal) => word(Err(refusal)),
    }
}

/// The ready set of a run: sixteen bits, plus the count × 65,536.
pub fn ready(run: RunLists, state: &[u8], sums: &[u8]) -> u64 {
    let lists = Lists::of_run(run);
    let ready = || {
        let numbers = lists.state(state)?;
        let list = get(sums, usize::MAX, i64::from_le_bytes);
        let ready = machine::ready(&lists.lent(), &numbers, &list)?;
        Ok(ready.count << 16 | u32::from(ready.set))
    };
    word(ready())
}

/// What picks would do: their answer word, plus the count of those ready afterwards × 2^40, plus their set × 2^48.
pub fn preview(run: RunLists, state: &[u8], sums: &[u8], picks: &[u8]) -> u64 {
    let lists = Lists::of_run(run);
    let tell = || {
        let numbers = lists.state(state)?;
        let list = get(sums, usize::MAX, i64::from_le_bytes);
        machine::preview(&lists.lent(), numbers, list, picks)
    };
    match tell() {
        Ok((picked, ready)) => {
            let ended = word(picked.stopped.map_or(Ok(picked.taken), Err));
            ended | u64::from(ready.count) << 40 | u64::from(ready.set) << 48
        }
        Err(refusal) => word(Err(refusal)),
    }
}

/// The force list of a finished run.
pub fn forces(run: RunLists, state: &[u8], sums: &[u8], forces: &mut [u8]) -> u64 {
    let lists = Lists::of_run(run);
    let mut tell = || {
        let numbers = lists.state(state)?;
        let list = get(sums, usize::MAX, i64::from_le_bytes);
        let mut out = vec![0; (forces.len() / 8).min(lists.n as usize)];
        machine::forces(&lists.lent(), &numbers, &list, &mut out)?;
        put(forces, &out, i64::to_le_bytes);
        Ok(0)
    };
    word(tell())
}

/// The prepared list of a run; counts the bytes written.
pub fn prepare(run: RunLists, list: &mut [u8]) -> u64 {
    let lists = Lists::of_run(run);
    let mut prepare = || {
        let bytes = Tables::of(&lists.lent())?.bytes();
        super::room(list.len(), bytes.len())?;
        list[..bytes.len()].copy_from_slice(&bytes);
        Ok(bytes.len() as u32)
    };
    word(prepare())
}

/// Picks of a prepared run; counts those taken.
pub fn prepared_picks(list: &[u8], state: &mut [u8], sums: &mut [u8], picks: &[u8]) -> u64 {
    picks_word(take_prepared(list, state, sums, picks, &[]))
}

/// Picks of a prepared run, of which 12 and 13 skip those that they refuse; the word also has the moves made × 2^40.
pub fn prepared_rounds(list: &[u8], state: &mut [u8], sums: &mut [u8], picks: &[u8]) -> u64 {
    rounds_word(take_prepared(list, state, sums, picks, &[12, 13]))
}

/// Takes picks and leaves state and sums as they are then; 26 and 11 leave them as they were.
fn take_prepared(
    list: &[u8],
    state: &mut [u8],
    sums: &mut [u8],
    picks: &[u8],
    skips: &[u32],
) -> Result<Picked, Refusal> {
    let (prepared, mut numbers) = prepared(list, state, sums)?;
    let picked = prepared.picks(&mut numbers, sums, picks, skips);
    put_state(state, &numbers);
    Ok(picked)
}

/// A prepared run and its state, or 26, or 11.
fn prepared<'a>(
    list: &'a [u8],
    state: &[u8],
    sums: &[u8],
) -> Result<(Prepared<'a>, State), Refusal> {
    let prepared = Prepared::read(list)?;
    let state = get_state(state).ok_or(Refusal::at(11, 0))?;
    prepared.judge(&state, sums)?;
    Ok((prepared, state))
}

/// The ready set of a prepared run: sixteen bits, plus the count × 65,536.
pub fn prepared_ready(list: &[u8], state: &[u8], sums: &[u8]) -> u64 {
    word(prepared(list, state, sums).map(|(prepared, state)| {
        let ready = prepared.ready(&state);
        ready.count << 16 | u32::from(ready.set)
    }))
}

/// The force list of a finished prepared run.
pub fn prepared_forces(list: &[u8], state: &[u8], sums: &[u8], forces: &mut [u8]) -> u64 {
    word(prepared(list, state, sums).and_then(|(prepared, state)| {
        prepared.forces(&state, sums, forces)?;
        Ok(0)
    }))
}

/// The answer word.
fn word(answer: Result<u32, Refusal>) -> u64 {
    match answer {
        Ok(count) => u64::from(count),
        Err(Refusal { number, place }) => u64::from(number) << 32 | u64::from(place),
    }
}

/// The numbers that bytes stand for, at most so many; a trailing part is none.
fn get<const W: usize, T>(bytes: &[u8], most: usize, number: fn([u8; W]) -> T) -> Vec<T> {
    let words = bytes.as_chunks().0;
    let words = &words[..words.len().min(most)];
    words.iter().map(|&word| number(word)).collect()
}

/// Puts numbers at the front of a list of bytes that has room for them.
fn put<const W: usize, T: Copy>(bytes: &mut [u8], numbers: &[T], word: fn(T) -> [u8; W]) {
    let words = bytes.as_chunks_mut().0;
    for (place, &number) in words.iter_mut().zip(numbers) {
        *place = word(number);
    }
}

/// The state that 192 bytes stand for.
fn get_state(bytes: &[u8]) -> Option<State> {
    if bytes.len() != STATE_BYTES {
        return None;
    }
    let (made, held) = bytes.split_at(WORKERS * 4);
    Some(State {
        made: get(made, WORKERS, u32::from_le_bytes).try_into().ok()?,
        held: get(held, WORKERS, i64::from_le_bytes).try_into().ok()?,
    })
}

/// Puts a state into its 192 bytes.
fn put_state(bytes: &mut [u8], state: &State) {
    let (made, held) = bytes.split_at_mut(WORKERS * 4);
    put(made, &state.made, u32::to_le_bytes);
    put(held, &state.held, i64::to_le_bytes);
}

/// The lists of numbers that a call's byte lists stand for.
struct Lists {
    n: u32,
    starts: Vec<u32>,
    columns: Vec<u32>,
    values: Vec<i32>,
    movements: Vec<i32>,
    order: Vec<u32>,
    groups: Vec<u32>,
    group_count: u32,
}

impl Lists {
    /// The lists of a matrix alone.
    fn of(matrix: MatrixLists) -> Lists {
        let starts = get(matrix.row_starts, MOST_READ, u32::from_le_bytes);
        let stored = starts.get(matrix.n as usize).map_or(0, |&end| end as usize);
        let stored = stored.min(MOST_READ);
        Lists {
            n: matrix.n,
            starts,
            columns: get(matrix.columns, stored, u32::from_le_bytes),
            values: get(matrix.values, stored, i32::from_le_bytes),
            movements: Vec::new(),
            order: Vec::new(),
            groups: Vec::new(),
            group_count: 0,
        }
    }

    /// The same with a plan.
    fn with_plan(mut self, plan: PlanLists) -> Lists {
        self.order = get(plan.order, MOST_READ, u32::from_le_bytes);
        self.groups = get(plan.groups, MOST_READ, u32::from_le_bytes);
        self.group_count = plan.group_count;
        self
    }

    /// The lists of a run.
    fn of_run(run: RunLists) -> Lists {
        let mut lists = Lists::of(run.matrix).with_plan(run.plan);
        lists.movements = get(run.movements, usize::MAX, i32::from_le_bytes);
        lists
    }

    /// The matrix, or 5.
    fn rows(&self) -> Result<Rows<'_>, Refusal> {
        Rows::lent(self.n, &self.starts, &self.columns, &self.values)
    }

    /// What a run's call is lent.
    fn lent(&self) -> Lent<'_> {
        Lent {
            n: self.n,
            starts: &self.starts,
            columns: &self.columns,
            values: &self.values,
            movements: &self.movements,
            order: &self.order,
            groups: &self.groups,
            group_count: self.group_count,
        }
    }

    /// The state of a run's call; one that is not 192 bytes long gives 11 after 5, 6 and 8.
    fn state(&self, bytes: &[u8]) -> Result<State, Refusal> {
        match get_state(bytes) {
            Some(state) => Ok(state),
            None => Err(self.lent().judge().err().unwrap_or(Refusal::at(11, 0))),
        }
    }

    /// What a call for two crews is lent, with the movements of crew 1.
    fn lent_both<'a>(&'a self, movements1: &'a [i32]) -> LentBoth<'a> {
        LentBoth {
            run: self.lent(),
            movements1,
        }
    }

    /// The states and sums of two crews; a state that is not 192 bytes long gives 11 after 5, 6 and 8.
    fn both(
        &self,
        movements1: &[i32],
        states: [&[u8]; 2],
        sums: [&[u8]; 2],
    ) -> Result<[crews::At; 2], Refusal> {
        let [Some(state0), Some(state1)] = states.map(get_state) else {
            let judged = self.lent_both(movements1).judge();
            return Err(judged.err().unwrap_or(Refusal::at(11, 0)));
        };
        let [sums0, sums1] = sums.map(|list| get(list, usize::MAX, i64::from_le_bytes));
        Ok([(state0, sums0), (state1, sums1)].map(|(state, sums)| crews::At { state, sums }))
    }
}
