//! Document 01's sentences written down a second time, slowly, against the quick code.

use std::collections::{BTreeMap, BTreeSet};

use mazhoketh_tests::oracle::machine::{self, Lent, State};
use mazhoketh_tests::oracle::matrix::{Matrix, Rows};
use mazhoketh_tests::oracle::planner::{self, Plan};
use mazhoketh_tests::oracle::prng::Prng;
use mazhoketh_tests::oracle::{damage, nets, plans, soundness, text, Fields, Refusal, FIELDS};

/// Whether two freedoms are joined.
fn joined(matrix: &Matrix, one: u32, two: u32) -> bool {
    one != two && matrix.rows().columns(one as usize).contains(&two)
}

/// The number of freedoms joined to a freedom in the whole matrix.
fn joins(matrix: &Matrix, freedom: u32) -> usize {
    (0..matrix.n)
        .filter(|&other| joined(matrix, freedom, other))
        .count()
}

/// "The unreached freedom of the group with the fewest joined freedoms in the whole matrix, the lowest number on a tie."
fn root(matrix: &Matrix, own: &BTreeSet<u32>, reached: &BTreeMap<u32, u32>) -> Option<u32> {
    let unreached = own.iter().filter(|freedom| !reached.contains_key(*freedom));
    unreached
        .copied()
        .min_by_key(|&freedom| (joins(matrix, freedom), freedom))
}

/// The levels of a region by freedom, level sets grown from each root.
fn levels(matrix: &Matrix, own: &BTreeSet<u32>) -> BTreeMap<u32, u32> {
    let near = |&freedom: &u32| own.iter().any(|&other| joined(matrix, freedom, other));
    let region: BTreeSet<u32> = (0..matrix.n)
        .filter(|f| own.contains(f) || near(f))
        .collect();
    let mut levels = BTreeMap::new();
    while let Some(root) = root(matrix, own, &levels) {
        let mut level = levels.values().max().map_or(0, |highest| highest + 2);
        let mut wave = BTreeSet::from([root]);
        while !wave.is_empty() {
            levels.extend(wave.iter().map(|&freedom| (freedom, level)));
            let fresh = region
                .iter()
                .filter(|&freedom| !levels.contains_key(freedom));
            let next = fresh.filter(|&&freedom| wave.iter().any(|&f| joined(matrix, f, freedom)));
            wave = next.copied().collect();
            level += 1;
        }
    }
    levels
}

/// The plan by the sentences of "Levels, pairs, groups".
fn plan(matrix: &Matrix, workers: u32, p: u32) -> Plan {
    let mut plan = Plan {
        order: (0..matrix.n).collect(),
        groups: Vec::new(),
    };
    plan_group(matrix, p, &mut plan, [0, matrix.n, 0, workers, 0, 0, 0]);
    plan
}

/// Plans one group.
fn plan_group(matrix: &Matrix, p: u32, plan: &mut Plan, record: Fields) {
    let index = plan.groups.len() as u32;
    plan.groups.push(record);
    let [start, length, _, workers, _, _, depth] = record;
    let stretch = start as usize..(start + length) as usize;
    let own: BTreeSet<u32> = plan.order[stretch.clone()].iter().copied().collect();
    let levels = levels(matrix, &own);
    let m = own.iter().map(|freedom| levels[freedom] + 1).max();
    let m = m.unwrap_or(0);
    let split = workers >= 2 && depth < 4 && m >= 4;
    if split || depth == 0 {
        plan.order[stretch].sort_by_key(|freedom| (levels[freedom], *freedom));
    }
    if split {
        let between = |row: &&u32, from, end| (from..end).contains(&levels[*row]);
        let count = |from, end| own.iter().filter(|row| between(row, from, end)).count() as u32;
        let load = |from, end| {
            let rows = own.iter().filter(|row| between(row, from, end));
            rows.map(|&row| weight(matrix, row)).sum()
        };
        for child in pairs(&count, &load, m, record, index, p) {
            plan_group(matrix, p, plan, child);
        }
    }
}

/// "A freedom's load becomes 1 plus the number of freedoms joined to it in the whole matrix."
fn weight(matrix: &Matrix, row: u32) -> u32 {
    1 + joins(matrix, row) as u32
}

/// The records of a split group's children.
fn pairs(
    count: &dyn Fn(u32, u32) -> u32,
    load: &dyn Fn(u32, u32) -> u32,
    m: u32,
    record: Fields,
    index: u32,
    p: u32,
) -> Vec<Fields> {
    let [start, _, first, workers, _, _, depth] = record;
    let mut children = Vec::new();
    let (mut level, mut worker, mut place) = (0, first, start);
    while level < m {
        let free = first + workers - worker;
        let (end, crew) = pair(load, level, m, workers, free, p);
        let differ = |&cut: &u32| (load(level, cut).abs_diff(load(cut, end)), cut);
        let cut = (level + 2..=end - 2).min_by_key(differ).expect("a cut");
        for (colour, from, end) in [(1, level, cut), (2, cut, end)] {
            let (size, down) = (count(from, end), depth + 1);
            children.push([place, size, worker, crew, colour, index, down]);
            place += size;
        }
        level = end;
        worker += crew;
    }
    children
}

/// The end and the workers of the pair from a level; all is counted in parts of 1 / R.
fn pair(
    load: &dyn Fn(u32, u32) -> u32,
    from: u32,
    m: u32,
    w: u32,
    free: u32,
    p: u32,
) -> (u32, u32) {
    let scaled = |end: u32| i64::from(load(from, end) * w);
    let unit = i64::from(load(0, m));
    let all = (m, free);
    for end in from + 4..=m {
        let b = (0..)
            .find(|b| 2 * scaled(end) < (2 * b + 1) * unit)
            .expect("some b")
            .max(1);
        let closeness = unit - (scaled(end) - b * unit).abs();
        if 100 * closeness <= i64::from(p) * unit {
            continue;
        }
        let nearness = |&later: &u32| ((scaled(later) - b * unit).abs(), later);
        let best = (end..=m).min_by_key(nearness).expect("an end");
        if m - best < 4 || b >= i64::from(free) {
            return all;
        }
        return (best, b as u32);
    }
    all
}

#[test]
fn levels_agree() {
    let mut rng = Prng::new(11);
    for _ in 0..3_000 {
        let matrix = nets::random_net(&mut rng, 30);
        let percent = rng.one_of(&[5, 40, 80, 100]);
        let own: BTreeSet<u32> = (0..matrix.n).filter(|_| rng.chance(percent)).collect();
        let slow = levels(&matrix, &own);
        let slow: Vec<u32> = own.iter().map(|freedom| slow[freedom]).collect();
        let list: Vec<u32> = own.into_iter().collect();
        let (quick, highest) = planner::levels(matrix.rows(), &list);
        assert_eq!(quick, slow);
        assert_eq!(
            highest as u32,
            slow.iter().max().map_or(0, |level| level + 1)
        );
    }
}

#[test]
fn plans_agree() {
    let mut rng = Prng::new(12);
    for round in 0..2_500 {
        let most = if round % 10 == 0 { 90 } else { 30 };
        let matrix = nets::random_net(&mut rng, most);
        let (workers, p) = (1 + rng.below(16) as u32, 50 + rng.below(50) as u32);
        let quick = planner::plan(matrix.rows(), workers, p);
        assert_eq!(quick, plan(&matrix, workers, p), "{matrix:?} {workers} {p}");
    }
}

/// Whether a plan is sound, sentence by sentence.
fn is_sound(matrix: &Matrix, order: &[u32], groups: &[u32], count: u32) -> bool {
    let (n, count) = (matrix.n as usize, count as usize);
    if order.len() < n || !(1..=512).contains(&count) || groups.len() / FIELDS < count {
        return false;
    }
    let order = &order[..n];
    let names: BTreeSet<u32> = order.iter().copied().collect();
    let records: Vec<[u64; FIELDS]> = groups.chunks(FIELDS).take(count).map(wide).collect();
    let [start, length, first, workers, colour, parent, depth] = records[0];
    let whole = (start, length, first, colour, parent, depth) == (0, n as u64, 0, 0, 0, 0);
    names.len() == n
        && names.iter().all(|&freedom| (freedom as usize) < n)
        && whole
        && (1..=16).contains(&workers)
        && records
            .iter()
            .skip(1)
            .all(|record| record[5] < count as u64)
        && reads_in(&records, 0, 0, &mut 0)
        && (1..count).all(|group| is_one_deeper(&records, group))
        && (0..count).all(|parent| children_fit(&records, parent))
        && (0..count).all(|parent| children_apart(matrix, order, &records, parent))
}

/// A record, widened.
fn wide(record: &[u32]) -> [u64; FIELDS] {
    std::array::from_fn(|field| u64::from(record[field]))
}

/// The indices of a group's children.
fn children(records: &[[u64; FIELDS]], parent: usize) -> Vec<usize> {
    let is_child = |&child: &usize| records[child][5] == parent as u64;
    (1..records.len()).filter(is_child).collect()
}

/// Whether the records from `next` on are a group and all below it depth first, and, from the whole, all records.
fn reads_in(records: &[[u64; FIELDS]], group: usize, depth: u32, next: &mut usize) -> bool {
    if *next != group || depth > 4 {
        return false;
    }
    *next += 1;
    let mut below = children(records, group).into_iter();
    let fits = below.all(|child| reads_in(records, child, depth + 1, next));
    fits && (group > 0 || *next == records.len())
}

/// Whether a record's depth is "its parent's plus 1".
fn is_one_deeper(records: &[[u64; FIELDS]], group: usize) -> bool {
    records[group][6] == records[records[group][5] as usize][6] + 1
}

/// Whether children tile, alternate, pair and share workers as they must.
fn children_fit(records: &[[u64; FIELDS]], parent: usize) -> bool {
    let children = children(records, parent);
    let (mut place, mut worker) = (records[parent][0], records[parent][2]);
    for pair in children.chunks(2) {
        let &[red, blue] = pair else { return false };
        let (red, blue) = (records[red], records[blue]);
        let colours = red[4] == 1 && blue[4] == 2;
        let tile = red[0] == place && blue[0] == place + red[1];
        let crew = red[2] == worker && red[2..4] == blue[2..4] && red[3] >= 1;
        if !(colours && tile && crew) {
            return false;
        }
        place += red[1] + blue[1];
        worker += red[3];
    }
    let ends = (
        records[parent][0] + records[parent][1],
        records[parent][2] + records[parent][3],
    );
    children.is_empty() || (place, worker) == ends
}

/// Whether like-coloured children of a parent are apart; their records tile it.
fn children_apart(
    matrix: &Matrix,
    order: &[u32],
    records: &[[u64; FIELDS]],
    parent: usize,
) -> bool {
    let children = children(records, parent);
    let stretch = |child: usize| {
        let [start, length, ..] = records[child];
        &order[start as usize..(start + length) as usize]
    };
    let near = |one: u32, two: u32| {
        let common = |other| joined(matrix, one, other) && joined(matrix, other, two);
        joined(matrix, one, two) || (0..matrix.n).any(common)
    };
    children.iter().all(|&one| {
        let like = |&&two: &&usize| two > one && records[one][4] == records[two][4];
        let clash = |&two: &usize| {
            let pairs = stretch(one)
                .iter()
                .flat_map(|&f| stretch(two).iter().map(move |&g| (f, g)));
            pairs.into_iter().any(|(f, g)| near(f, g))
        };
        !children.iter().filter(like).any(clash)
    })
}

#[test]
fn soundness_agrees() {
    let mut rng = Prng::new(13);
    let mut sound = [0; 2];
    for _ in 0..20_000 {
        let matrix = nets::random_net(&mut rng, 14);
        let most_pairs = 1 + rng.below(3);
        let plan = if rng.chance(50) {
            plans::random_plan(&mut rng, &matrix)
        } else {
            let mut order: Vec<u32> = (0..matrix.n).collect();
            rng.shuffle(&mut order);
            let workers = 1 + rng.below(16) as u32;
            match rng.below(3) {
                0 => plans::flawed_tree(&mut rng, &order, workers),
                _ => plans::random_tree(&mut rng, &order, workers, most_pairs),
            }
        };
        let (mut order, mut groups) = (plan.order.clone(), plan.flat());
        let mut count = plan.group_count();
        for _ in 0..rng.below(3) {
            damage::damage_plan(&mut rng, &mut order, &mut groups, &mut count);
        }
        let quick = soundness::check(matrix.rows(), &order, &groups, count).is_ok();
        let slow = is_sound(&matrix, &order, &groups, count);
        assert_eq!(quick, slow, "{matrix:?} {order:?} {groups:?} {count}");
        sound[usize::from(quick)] += 1;
    }
    assert!(sound.iter().all(|&count| count > 3_000), "{sound:?}");
}

/// Whether lent rows are a matrix, sentence by sentence.
fn is_matrix(matrix: &Matrix) -> bool {
    let n = matrix.n as usize;
    if !(1..=4096).contains(&n) || matrix.starts.len() < n + 1 || matrix.starts[0] != 0 {
        return false;
    }
    let starts: Vec<usize> = matrix.starts[..=n]
        .iter()
        .map(|&start| start as usize)
        .collect();
    let stored = starts[n];
    if !starts.is_sorted() || matrix.columns.len() < stored || matrix.values.len() < stored {
        return false;
    }
    let mut entries = BTreeMap::new();
    for row in 0..n {
        let columns = &matrix.columns[starts[row]..starts[row + 1]];
        if !columns.windows(2).all(|two| two[0] < two[1]) {
            return false;
        }
        for at in starts[row]..starts[row + 1] {
            entries.insert((row, matrix.columns[at] as usize), matrix.values[at]);
        }
    }
    let fits = |(&(row, column), &value): (&(usize, usize), &i32)| {
        let mirror = entries.get(&(column, row));
        column < n && mirror == Some(&value) && value.unsigned_abs() <= 1_000_000_000
    };
    let below = entries.keys().filter(|(row, column)| column <= row).count();
    below <= 32_768 && entries.iter().all(fits)
}

#[test]
fn lent_rows_agree() {
    let mut rng = Prng::new(14);
    let mut good = [0; 2];
    for _ in 0..60_000 {
        let mut matrix = nets::random_net(&mut rng, 6);
        for _ in 0..rng.below(4) {
            damage::damage_matrix(&mut rng, &mut matrix);
        }
        let judged = Rows::lent(matrix.n, &matrix.starts, &matrix.columns, &matrix.values);
        assert_eq!(judged.is_ok(), is_matrix(&matrix), "{matrix:?}");
        good[usize::from(judged.is_ok())] += 1;
    }
    assert!(good.iter().all(|&count| count > 10_000), "{good:?}");
}

/// Reads a text line by line, looking at whole lines.
fn read(text: &[u8]) -> Result<Matrix, Refusal> {
    if text.len() > 1_048_576 {
        return Err(Refusal::at(2, 0));
    }
    let lines: Vec<&[u8]> = text.split_inclusive(|&byte| byte == b'\n').collect();
    if lines.first() != Some(&text::LINE_1) {
        return Err(Refusal::at(1, 1));
    }
    let remark = |line: &&&[u8]| line.starts_with(b"%") && line.ends_with(b"\n");
    let at = 1 + lines.iter().skip(1).take_while(remark).count();
    let form = |index: usize, signed: bool| {
        let line = lines.get(index).ok_or(Refusal::at(2, index + 1))?;
        fields(line, signed).ok_or(Refusal::at(2, index + 1))
    };
    let [rows, columns, count] = form(at, false)?;
    if rows != columns || !(1..=4_096).contains(&rows) || count > 32_768 {
        return Err(Refusal::at(3, at + 1));
    }
    let mut entries: BTreeMap<(i64, i64), i64> = BTreeMap::new();
    for index in at + 1..=at + count as usize {
        let [row, column, value] = form(index, true)?;
        let inside = 1 <= column && column <= row && row <= rows;
        let again = entries.insert((row, column), value).is_some();
        if !inside || again || value.abs() > 1_000_000_000 {
            return Err(Refusal::at(4, index + 1));
        }
    }
    let end = at + 1 + count as usize;
    if lines.len() > end {
        return Err(Refusal::at(2, end + 1));
    }
    let triple = |((row, column), value)| (row as u32 - 1, column as u32 - 1, value as i32);
    Ok(nets::of_triples(
        rows as u32,
        entries.into_iter().map(triple),
    ))
}

/// The three numbers of a line, the last of which may be signed.
fn fields(line: &[u8], signed: bool) -> Option<[i64; 3]> {
    let line = std::str::from_utf8(line.strip_suffix(b"\n")?).ok()?;
    if line.starts_with(' ') || line.ends_with(' ') {
        return None;
    }
    let fields: Vec<&str> = line.split(' ').filter(|field| !field.is_empty()).collect();
    let &[first, second, third] = fields.as_slice() else {
        return None;
    };
    let number = |field: &str| {
        let zero = field.len() > 1 && field.starts_with('0');
        let digits = field.bytes().all(|byte| byte.is_ascii_digit());
        let good = (1..=10).contains(&field.len()) && digits && !zero;
        good.then(|| field.parse::<i64>().expect("digits"))
    };
    let third = match third.strip_prefix('-') {
        Some(digits) if signed => -number(digits).filter(|&number| number > 0)?,
        _ => number(third)?,
    };
    Some([number(first)?, number(second)?, third])
}

#[test]
fn readers_agree() {
    let mut rng = Prng::new(15);
    let mut numbers = [0; 5];
    for _ in 0..60_000 {
        let matrix = nets::random_net(&mut rng, 5);
        let mut text = damage::random_text(&mut rng, &matrix);
        for _ in 0..rng.below(4) {
            damage::damage_text(&mut rng, &mut text);
        }
        let quick = text::read(&text);
        assert_eq!(quick, read(&text), "{}", String::from_utf8_lossy(&text));
        numbers[quick.map_or_else(|refusal| refusal.number as usize, |_| 0)] += 1;
    }
    assert!(numbers.iter().all(|&count| count > 300), "{numbers:?}");
}

/// One move: a load of a sum, or a store of it with a product added.
#[derive(Clone, Copy)]
enum Move {
    Load(usize),
    Store(usize, i64),
}

/// A worker's moves, each with its leaf's record.
type Moves = Vec<(usize, Move)>;

/// A run written out: every worker's moves, and every leaf's end.
struct WrittenOut {
    moves: Vec<Moves>,
    /// Leaf's record, worker, and the worker's moves up to the leaf's end.
    ends: Vec<(usize, usize, usize)>,
    plan: Plan,
}

impl WrittenOut {
    /// Writes out the moves of a plan.
    fn new(matrix: &Matrix, movements: &[i32], plan: &Plan) -> WrittenOut {
        let mut moves = vec![Moves::new(); plan.groups[0][3] as usize];
        let mut ends = Vec::new();
        for (index, &[start, length, worker, ..]) in plan.groups.iter().enumerate() {
            let is_leaf = plan
                .groups
                .iter()
                .skip(1)
                .all(|group| group[5] as usize != index);
            if is_leaf {
                let worker = worker as usize;
                for row in start..start + length {
                    let row = row_moves(matrix, movements, plan, row as usize);
                    moves[worker].extend(row.into_iter().map(|step| (index, step)));
                }
                ends.push((index, worker, moves[worker].len()));
            }
        }
        let plan = plan.clone();
        WrittenOut { moves, ends, plan }
    }

    /// A group and all groups it lies in.
    fn path(&self, mut group: usize) -> Vec<usize> {
        let mut path = vec![group];
        while group != 0 {
            group = self.plan.groups[group][5] as usize;
            path.push(group);
        }
        path
    }

    /// Whether a leaf waits by the counts.
    fn waits(&self, leaf: usize, made: &[u32; 16]) -> bool {
        let groups = &self.plan.groups;
        let blues = self
            .path(leaf)
            .into_iter()
            .filter(|&group| groups[group][4] == 2);
        blues.into_iter().any(|blue| {
            let red =
                |group: &usize| groups[*group][4] == 1 && groups[*group][5] == groups[blue][5];
            let unfinished = self
                .ends
                .iter()
                .filter(|(_, w, end)| (made[*w] as usize) < *end);
            unfinished
                .into_iter()
                .any(|(leaf, ..)| self.path(*leaf).iter().any(red))
        })
    }

    /// One pick on a state and sums: the number of its refusal, 0 if it is taken.
    fn pick(&self, state: &mut State, sums: &mut [i64], worker: usize) -> u32 {
        let Some(moves) = self.moves.get(worker) else {
            return 10;
        };
        let Some(&(leaf, step)) = moves.get(state.made[worker] as usize) else {
            return 12;
        };
        if self.waits(leaf, &state.made) {
            return 13;
        }
        match step {
            Move::Load(place) => state.held[worker] = sums[place],
            Move::Store(place, product) => match state.held[worker].checked_add(product) {
                Some(sum) => sums[place] = sum,
                None => return 14,
            },
        }
        state.made[worker] += 1;
        0
    }

    /// A list of picks on a state and sums: the refusal that ends it, if any.
    fn picks(&self, state: &mut State, sums: &mut [i64], picks: &[u8]) -> Option<Refusal> {
        for (index, &pick) in picks.iter().enumerate() {
            let number = self.pick(state, sums, pick.into());
            if number != 0 {
                return Some(Refusal::at(number, index));
            }
        }
        None
    }
}

/// The moves of the row at a plan position.
fn row_moves(matrix: &Matrix, movements: &[i32], plan: &Plan, row: usize) -> Vec<Move> {
    let own = plan.order[row] as usize;
    let entry = |other: usize| {
        let found = matrix
            .rows()
            .entries(own)
            .find(|&(column, _)| column == other);
        found.map(|(_, value)| i64::from(value))
    };
    let movement = |freedom: usize| i64::from(movements[freedom]);
    let diagonal = entry(own).unwrap_or(0) * movement(own);
    let mut moves = vec![Move::Load(row), Move::Store(row, diagonal)];
    for place in row + 1..plan.order.len() {
        let other = plan.order[place] as usize;
        if let Some(value) = entry(other) {
            moves.push(Move::Load(row));
            moves.push(Move::Store(row, value * movement(other)));
            moves.push(Move::Load(place));
            moves.push(Move::Store(place, value * movement(own)));
        }
    }
    moves
}

/// A made-up state for a plan: counts within the workers' moves, sums and held numbers at the ends of 64 bits.
fn made_up(rng: &mut Prng, run: &WrittenOut, n: usize) -> (State, Vec<i64>) {
    let mut state = State::fresh();
    let odd = |rng: &mut Prng| match rng.below(4) {
        0 => i64::MAX - rng.below(3) as i64,
        1 => i64::MIN + rng.below(3) as i64,
        _ => rng.between(-1_000, 1_000),
    };
    for (worker, moves) in run.moves.iter().enumerate() {
        let all = rng.chance(30);
        let made = if all {
            moves.len()
        } else {
            rng.below(moves.len() + 1)
        };
        state.made[worker] = made as u32;
    }
    state.held = [0; 16].map(|_: i64| odd(rng));
    let sums = (0..n).map(|_| odd(rng)).collect();
    (state, sums)
}

#[test]
fn made_up_runs_agree() {
    let mut rng = Prng::new(16);
    let mut seen = [0; 15];
    for _ in 0..6_000 {
        let matrix = nets::random_net(&mut rng, 14);
        let movements = nets::random_movements(&mut rng, matrix.n);
        let plan = plans::random_plan(&mut rng, &matrix);
        let run = WrittenOut::new(&matrix, &movements, &plan);
        let groups = plan.flat();
        let lent = Lent::new(&matrix, &movements, &plan, &groups);
        let (mut state, mut sums) = made_up(&mut rng, &run, matrix.n as usize);
        for _ in 0..6 {
            let any: Vec<u8> = (0..=run.moves.len() as u8).collect();
            let picks = plans::random_picks(&mut rng, &any, 12);
            let (mut slow_state, mut slow_sums) = (state.clone(), sums.clone());
            let stopped = run.picks(&mut slow_state, &mut slow_sums, &picks);
            let picked = machine::picks(&lent, &mut state, &mut sums, &picks);
            let taken = stopped.map_or(picks.len() as u32, |refusal| refusal.place);
            assert_eq!(picked.stopped, stopped);
            assert_eq!(picked.taken, taken);
            assert_eq!((&state, &sums), (&slow_state, &slow_sums));
            seen[stopped.map_or(0, |refusal| refusal.number) as usize] += 1;
            check_ready(&run, &lent, &state, &sums);
        }
    }
    assert!(
        [0, 10, 12, 13, 14].iter().all(|&number| seen[number] > 100),
        "{seen:?}"
    );
}

/// Compares the ready set with what picks would get.
fn check_ready(run: &WrittenOut, lent: &Lent, state: &State, sums: &[i64]) {
    let ready = machine::ready(lent, state, sums).expect("the state is good");
    for worker in 0..16 {
        let number = run.pick(&mut state.clone(), &mut sums.to_vec(), worker);
        let is_ready = ready.set >> worker & 1 == 1;
        assert_eq!(is_ready, [0, 14].contains(&number));
    }
    assert_eq!(ready.count, ready.set.count_ones());
}
