//! Calls made to the library and to the other implementation, and compared: the answer word, and every list that was
//! lent.

use crate::guarded::Twin;
use crate::library;
use crate::lists::{Altered, CrewLists, MatrixLists, PatternLists, PlanLists, RunLists};
use crate::oracle::barrier::Write;
use crate::oracle::calls;

/// The lists of a matrix, twice.
pub struct MatrixTwins {
    pub n: u32,
    pub row_starts: Twin,
    pub columns: Twin,
    pub values: Twin,
}

impl MatrixTwins {
    /// The library's lists.
    fn ours(&self) -> MatrixLists<'_> {
        MatrixLists {
            n: self.n,
            row_starts: self.row_starts.ours(),
            columns: self.columns.ours(),
            values: self.values.ours(),
        }
    }

    /// The other implementation's lists.
    pub fn theirs(&self) -> MatrixLists<'_> {
        MatrixLists {
            n: self.n,
            row_starts: &self.row_starts.theirs,
            columns: &self.columns.theirs,
            values: &self.values.theirs,
        }
    }

    /// Every list.
    fn lists(&self) -> Vec<&Twin> {
        vec![&self.row_starts, &self.columns, &self.values]
    }
}

/// The lists of a plan, twice.
pub struct PlanTwins {
    pub order: Twin,
    pub groups: Twin,
    pub group_count: u32,
}

impl PlanTwins {
    /// The library's lists.
    fn ours(&self) -> PlanLists<'_> {
        PlanLists {
            order: self.order.ours(),
            groups: self.groups.ours(),
            group_count: self.group_count,
        }
    }

    /// The other implementation's lists.
    pub fn theirs(&self) -> PlanLists<'_> {
        PlanLists {
            order: &self.order.theirs,
            groups: &self.groups.theirs,
            group_count: self.group_count,
        }
    }
}

/// The lists of a run, its state and sums apart, twice.
pub struct RunTwins {
    pub matrix: MatrixTwins,
    pub movements: Twin,
    pub plan: PlanTwins,
}

impl RunTwins {
    /// The library's lists.
    fn ours(&self) -> RunLists<'_> {
        RunLists {
            matrix: self.matrix.ours(),
            movements: self.movements.ours(),
            plan: self.plan.ours(),
        }
    }

    /// The other implementation's lists.
    pub fn theirs(&self) -> RunLists<'_> {
        RunLists {
            matrix: self.matrix.theirs(),
            movements: &self.movements.theirs,
            plan: self.plan.theirs(),
        }
    }

    /// Every list.
    fn lists(&self) -> Vec<&Twin> {
        let others = [&self.movements, &self.plan.order, &self.plan.groups];
        self.matrix.lists().into_iter().chain(others).collect()
    }
}

/// The lists of two crews over one matrix and plan, their states and sums apart, twice.
pub struct CrewTwins {
    pub run: RunTwins,
    pub movements1: Twin,
}

impl CrewTwins {
    /// The library's lists.
    pub fn ours(&self) -> CrewLists<'_> {
        CrewLists {
            run: self.run.ours(),
            movements1: self.movements1.ours(),
        }
    }

    /// The other implementation's lists.
    pub fn theirs(&self) -> CrewLists<'_> {
        CrewLists {
            run: self.run.theirs(),
            movements1: &self.movements1.theirs,
        }
    }

    /// Every list.
    fn lists(&self) -> Vec<&Twin> {
        let mut lists = self.run.lists();
        lists.push(&self.movements1);
        lists
    }
}

/// The state and the sums of a run, twice.
pub struct StateTwins {
    pub state: Twin,
    pub sums: Twin,
}

/// The answer word of a call, if the two words are alike and so are both copies of each list.
fn alike(call: &str, ours: u64, theirs: u64, read: Vec<&Twin>, others: &[&Twin]) -> u64 {
    assert_eq!(
        ours, theirs,
        "{call}: the answer words {ours:#x} and {theirs:#x}"
    );
    for list in read.iter().chain(others) {
        list.check(call);
    }
    ours
}

/// Reads a text into row starts, columns and values.
pub fn read(text: &Twin, lists: &mut [Twin; 3]) -> u64 {
    let [starts, columns, values] = lists;
    let ours = library::read(
        text.ours(),
        starts.ours_mut(),
        columns.ours_mut(),
        values.ours_mut(),
    );
    let theirs = calls::read(
        &text.theirs,
        &mut starts.theirs,
        &mut columns.theirs,
        &mut values.theirs,
    );
    alike("read", ours, theirs, vec![text], &[starts, columns, values])
}

/// Writes the text of a matrix.
pub fn write(matrix: &MatrixTwins, text: &mut Twin) -> u64 {
    let ours = library::write(matrix.ours(), text.ours_mut());
    let theirs = calls::write(matrix.theirs(), &mut text.theirs);
    alike("write", ours, theirs, matrix.lists(), &[text])
}

/// Multiplies a matrix by movements.
pub fn product(matrix: &MatrixTwins, movements: &Twin, forces: &mut Twin) -> u64 {
    let ours = library::product(matrix.ours(), movements.ours(), forces.ours_mut());
    let theirs = calls::product(matrix.theirs(), &movements.theirs, &mut forces.theirs);
    alike(
        "product",
        ours,
        theirs,
        matrix.lists(),
        &[movements, forces],
    )
}

/// Surveys a matrix into amounts and a shift.
pub fn survey(
    matrix: &MatrixTwins,
    movements: &Twin,
    t: u32,
    freedom: u32,
    lists: &mut [Twin; 2],
) -> u64 {
    let [amounts, shift] = lists;
    let (matrix_ours, matrix_theirs) = (matrix.ours(), matrix.theirs());
    let ours = library::survey(
        matrix_ours,
        movements.ours(),
        t,
        freedom,
        amounts.ours_mut(),
        shift.ours_mut(),
    );
    let theirs = calls::survey(
        matrix_theirs,
        &movements.theirs,
        t,
        freedom,
        &mut amounts.theirs,
        &mut shift.theirs,
    );
    alike(
        "survey",
        ours,
        theirs,
        matrix.lists(),
        &[movements, amounts, shift],
    )
}

/// Sets one movement of a kept force list.
pub fn set_movement(
    matrix: &MatrixTwins,
    movements: &mut Twin,
    forces: &mut Twin,
    freedom: u32,
    value: i32,
) -> u64 {
    let ours = library::set_movement(
        matrix.ours(),
        movements.ours_mut(),
        forces.ours_mut(),
        freedom,
        value,
    );
    let theirs = calls::set_movement(
        matrix.theirs(),
        &mut movements.theirs,
        &mut forces.theirs,
        freedom,
        value,
    );
    let lists = matrix.lists();
    alike("set_movement", ours, theirs, lists, &[movements, forces])
}

/// Sets one entry and its mirror, of a kept force list.
pub fn set_entry(
    matrix: &mut MatrixTwins,
    movements: &Twin,
    forces: &mut Twin,
    entry: Altered,
) -> u64 {
    let MatrixTwins {
        n,
        row_starts,
        columns,
        values,
    } = matrix;
    let pattern = |row_starts, columns| PatternLists {
        n: *n,
        row_starts,
        columns,
    };
    let ours = library::set_entry(
        pattern(row_starts.ours(), columns.ours()),
        values.ours_mut(),
        movements.ours(),
        forces.ours_mut(),
        entry,
    );
    let theirs = calls::set_entry(
        pattern(&row_starts.theirs, &columns.theirs),
        &mut values.theirs,
        &movements.theirs,
        &mut forces.theirs,
        entry,
    );
    let lists = matrix.lists();
    alike("set_entry", ours, theirs, lists, &[movements, forces])
}

/// Sews two nets together into row starts, columns and values.
pub fn join(
    first: &MatrixTwins,
    second: &MatrixTwins,
    places: &Twin,
    lists: &mut [Twin; 3],
) -> u64 {
    let [starts, columns, values] = lists;
    let ours = library::join(
        first.ours(),
        second.ours(),
        places.ours(),
        starts.ours_mut(),
        columns.ours_mut(),
        values.ours_mut(),
    );
    let theirs = calls::join(
        first.theirs(),
        second.theirs(),
        &places.theirs,
        &mut starts.theirs,
        &mut columns.theirs,
        &mut values.theirs,
    );
    let read = first.lists().into_iter().chain(second.lists()).collect();
    alike(
        "join",
        ours,
        theirs,
        read,
        &[places, starts, columns, values],
    )
}

/// Plans a matrix at the distance k.
pub fn plan(matrix: &MatrixTwins, workers: u32, p: u32, k: u32, lists: &mut [Twin; 2]) -> u64 {
    let [order, groups] = lists;
    let (matrix_ours, matrix_theirs) = (matrix.ours(), matrix.theirs());
    let ours = library::plan(
        matrix_ours,
        workers,
        p,
        k,
        order.ours_mut(),
        groups.ours_mut(),
    );
    let theirs = calls::plan(
        matrix_theirs,
        workers,
        p,
        k,
        &mut order.theirs,
        &mut groups.theirs,
    );
    alike("plan", ours, theirs, matrix.lists(), &[order, groups])
}

/// Checks a plan at the distance k.
pub fn check(matrix: &MatrixTwins, plan: &PlanTwins, k: u32) -> u64 {
    let ours = library::check(matrix.ours(), plan.ours(), k);
    let theirs = calls::check(matrix.theirs(), plan.theirs(), k);
    let lists = [&plan.order, &plan.groups];
    alike("check", ours, theirs, matrix.lists(), &lists)
}

/// Writes the file of a plan.
pub fn write_plan(n: u32, plan: &PlanTwins, file: &mut Twin) -> u64 {
    let ours = library::write_plan(n, plan.ours(), file.ours_mut());
    let theirs = calls::write_plan(n, plan.theirs(), &mut file.theirs);
    let lists = vec![&plan.order, &plan.groups];
    alike("write_plan", ours, theirs, lists, &[file])
}

/// Reads the plan in a file.
pub fn read_plan(file: &Twin, lists: &mut [Twin; 2]) -> u64 {
    let [order, groups] = lists;
    let ours = library::read_plan(file.ours(), order.ours_mut(), groups.ours_mut());
    let theirs = calls::read_plan(&file.theirs, &mut order.theirs, &mut groups.theirs);
    alike("read_plan", ours, theirs, vec![file], &[order, groups])
}

/// Writes to a register of a barrier unit.
pub fn barrier_write(unit: &mut Twin, write: Write) -> u64 {
    let ours = library::barrier_write(unit.ours_mut(), write);
    let theirs = calls::barrier_write(&mut unit.theirs, write);
    alike("barrier_write", ours, theirs, vec![], &[unit])
}

/// Reads a register of a barrier unit.
pub fn barrier_read(unit: &Twin, address: u32) -> u64 {
    let ours = library::barrier_read(unit.ours(), address);
    let theirs = calls::barrier_read(&unit.theirs, address);
    alike("barrier_read", ours, theirs, vec![], &[unit])
}

/// Asks for the line of a barrier unit.
pub fn barrier_line(unit: &Twin) -> u64 {
    let ours = library::barrier_line(unit.ours());
    let theirs = calls::barrier_line(&unit.theirs);
    alike("barrier_line", ours, theirs, vec![], &[unit])
}

/// Asks for the releases of a barrier unit.
pub fn barrier_releases(unit: &Twin) -> u64 {
    let ours = library::barrier_releases(unit.ours());
    let theirs = calls::barrier_releases(&unit.theirs);
    alike("barrier_releases", ours, theirs, vec![], &[unit])
}

/// Reads a list of numbers from its text.
pub fn numbers_read(text: &Twin, list: &mut Twin) -> u64 {
    let ours = library::numbers_read(text.ours(), list.ours_mut());
    let theirs = calls::numbers_read(&text.theirs, &mut list.theirs);
    alike("numbers_read", ours, theirs, vec![], &[text, list])
}

/// Writes a list of numbers as text.
pub fn numbers_write(list: &Twin, text: &mut Twin) -> u64 {
    let ours = library::numbers_write(list.ours(), text.ours_mut());
    let theirs = calls::numbers_write(&list.theirs, &mut text.theirs);
    alike("numbers_write", ours, theirs, vec![], &[list, text])
}

/// Asks for the control number of forces.
pub fn control(forces: &Twin) -> u64 {
    let ours = library::control(forces.ours());
    let theirs = calls::control(&forces.theirs);
    alike("control", ours, theirs, vec![], &[forces])
}

/// Takes picks.
pub fn picks(run: &RunTwins, at: &mut StateTwins, picks: &Twin) -> u64 {
    let StateTwins { state, sums } = at;
    let ours = library::picks(run.ours(), state.ours_mut(), sums.ours_mut(), picks.ours());
    let theirs = calls::picks(
        run.theirs(),
        &mut state.theirs,
        &mut sums.theirs,
        &picks.theirs,
    );
    alike("picks", ours, theirs, run.lists(), &[state, sums, picks])
}

/// Asks for the ready set.
pub fn ready(run: &RunTwins, at: &StateTwins) -> u64 {
    let StateTwins { state, sums } = at;
    let ours = library::ready(run.ours(), state.ours(), sums.ours());
    let theirs = calls::ready(run.theirs(), &state.theirs, &sums.theirs);
    alike("ready", ours, theirs, run.lists(), &[state, sums])
}

/// Takes picks, and passes over those whose workers cannot move.
pub fn rounds(run: &RunTwins, at: &mut StateTwins, picks: &Twin) -> u64 {
    let StateTwins { state, sums } = at;
    let ours = library::rounds(run.ours(), state.ours_mut(), sums.ours_mut(), picks.ours());
    let theirs = calls::rounds(
        run.theirs(),
        &mut state.theirs,
        &mut sums.theirs,
        &picks.theirs,
    );
    alike("rounds", ours, theirs, run.lists(), &[state, sums, picks])
}

/// Asks what picks would do.
pub fn preview(run: &RunTwins, at: &StateTwins, picks: &Twin) -> u64 {
    let StateTwins { state, sums } = at;
    let ours = library::preview(run.ours(), state.ours(), sums.ours(), picks.ours());
    let theirs = calls::preview(run.theirs(), &state.theirs, &sums.theirs, &picks.theirs);
    alike("preview", ours, theirs, run.lists(), &[state, sums, picks])
}

/// Asks for the force list.
pub fn forces(run: &RunTwins, at: &StateTwins, forces: &mut Twin) -> u64 {
    let StateTwins { state, sums } = at;
    let ours = library::forces(run.ours(), state.ours(), sums.ours(), forces.ours_mut());
    let theirs = calls::forces(
        run.theirs(),
        &state.theirs,
        &sums.theirs,
        &mut forces.theirs,
    );
    alike("forces", ours, theirs, run.lists(), &[state, sums, forces])
}

/// Prepares a run.
pub fn prepare(run: &RunTwins, list: &mut Twin) -> u64 {
    let ours = library::prepare(run.ours(), list.ours_mut());
    let theirs = calls::prepare(run.theirs(), &mut list.theirs);
    alike("prepare", ours, theirs, run.lists(), &[list])
}

/// Takes picks by a prepared list.
pub fn prepared_picks(list: &Twin, at: &mut StateTwins, picks: &Twin) -> u64 {
    let StateTwins { state, sums } = at;
    let ours =
        library::prepared_picks(list.ours(), state.ours_mut(), sums.ours_mut(), picks.ours());
    let theirs = calls::prepared_picks(
        &list.theirs,
        &mut state.theirs,
        &mut sums.theirs,
        &picks.theirs,
    );
    alike(
        "prepared_picks",
        ours,
        theirs,
        vec![list],
        &[state, sums, picks],
    )
}

/// Takes picks by a prepared list, and passes over those whose workers cannot move.
pub fn prepared_rounds(list: &Twin, at: &mut StateTwins, picks: &Twin) -> u64 {
    let StateTwins { state, sums } = at;
    let ours =
        library::prepared_rounds(list.ours(), state.ours_mut(), sums.ours_mut(), picks.ours());
    let theirs = calls::prepared_rounds(
        &list.theirs,
        &mut state.theirs,
        &mut sums.theirs,
        &picks.theirs,
    );
    alike(
        "prepared_rounds",
        ours,
        theirs,
        vec![list],
        &[state, sums, picks],
    )
}

/// Asks for the ready set by a prepared list.
pub fn prepared_ready(list: &Twin, at: &StateTwins) -> u64 {
    let StateTwins { state, sums } = at;
    let ours = library::prepared_ready(list.ours(), state.ours(), sums.ours());
    let theirs = calls::prepared_ready(&list.theirs, &state.theirs, &sums.theirs);
    alike("prepared_ready", ours, theirs, vec![list], &[state, sums])
}

/// Asks for the force list by a prepared list.
pub fn prepared_forces(list: &Twin, at: &StateTwins, forces: &mut Twin) -> u64 {
    let StateTwins { state, sums } = at;
    let ours = library::prepared_forces(list.ours(), state.ours(), sums.ours(), forces.ours_mut());
    let theirs = calls::prepared_forces(
        &list.theirs,
        &state.theirs,
        &sums.theirs,
        &mut forces.theirs,
    );
    alike(
        "prepared_forces",
        ours,
        theirs,
        vec![list],
        &[state, sums, forces],
    )
}

/// Takes picks for two crews.
pub fn picks_both(lists: &CrewTwins, at: &mut [StateTwins; 2], picks: &Twin) -> u64 {
    let [at0, at1] = at;
    let ours = library::picks_both(
        lists.ours(),
        [at0.state.ours_mut(), at1.state.ours_mut()],
        [at0.sums.ours_mut(), at1.sums.ours_mut()],
        picks.ours(),
    );
    let theirs = calls::picks_both(
        lists.theirs(),
        [&mut at0.state.theirs, &mut at1.state.theirs],
        [&mut at0.sums.theirs, &mut at1.sums.theirs],
        &picks.theirs,
    );
    let others = [&at0.state, &at0.sums, &at1.state, &at1.sums, picks];
    alike("picks_both", ours, theirs, lists.lists(), &others)
}

/// Asks for the ready sets of two crews.
pub fn ready_both(lists: &CrewTwins, at: &[StateTwins; 2]) -> u64 {
    let [at0, at1] = at;
    let ours = library::ready_both(
        lists.ours(),
        [at0.state.ours(), at1.state.ours()],
        [at0.sums.ours(), at1.sums.ours()],
    );
    let theirs = calls::ready_both(
        lists.theirs(),
        [&at0.state.theirs, &at1.state.theirs],
        [&at0.sums.theirs, &at1.sums.theirs],
    );
    let others = [&at0.state, &at0.sums, &at1.state, &at1.sums];
    alike("ready_both", ours, theirs, lists.lists(), &others)
}
