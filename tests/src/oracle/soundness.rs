//! The check of a plan (8), on lists with any contents.

use super::matrix::Rows;
use super::planner::DISTANCE;
use super::{Fields, Refusal, WORKERS};

/// The most records of a plan.
const MOST_GROUPS: u32 = 512;
/// The greatest depth of a group.
const DEEPEST: usize = 4;
/// Red and blue, as records have them.
pub const RED: u32 = 1;
pub const BLUE: u32 = 2;

/// A record, its fields by name.
#[derive(Clone, Copy, Debug)]
pub struct Record {
    pub start: usize,
    pub length: usize,
    pub first_worker: usize,
    pub workers: usize,
    pub colour: u32,
    pub parent: usize,
    pub depth: usize,
}

impl Record {
    /// The record that its numbers stand for.
    pub fn of(fields: Fields) -> Record {
        let [start, length, first_worker, workers, colour, parent, depth] = fields;
        Record {
            start: start as usize,
            length: length as usize,
            first_worker: first_worker as usize,
            workers: workers as usize,
            colour,
            parent: parent as usize,
            depth: depth as usize,
        }
    }
}

/// A plan found sound, with what the check learnt of it.
pub struct SoundPlan<'a> {
    /// Original numbers by plan position, n of them.
    pub order: &'a [u32],
    pub records: Vec<Record>,
    /// The plan position of each freedom.
    pub places: Vec<u32>,
    /// The indices of the leaves' records, in plan order.
    pub leaves: Vec<usize>,
}

impl SoundPlan<'_> {
    /// The number of the plan's workers.
    pub fn workers(&self) -> usize {
        self.records[0].workers
    }
}

/// The check of a plan: refusal 8 if it is "not sound for this matrix".
pub fn check<'a>(
    matrix: Rows,
    order: &'a [u32],
    groups: &[u32],
    group_count: u32,
) -> Result<SoundPlan<'a>, Refusal> {
    check_at(matrix, order, groups, group_count, DISTANCE)
}

/// The check at the distance k.
pub fn check_at<'a>(
    matrix: Rows,
    order: &'a [u32],
    groups: &[u32],
    group_count: u32,
    k: u32,
) -> Result<SoundPlan<'a>, Refusal> {
    sound(matrix, order, groups, group_count, k).ok_or(Refusal::at(8, 0))
}

/// The plan, if it is sound.
fn sound<'a>(
    matrix: Rows,
    order: &'a [u32],
    groups: &[u32],
    group_count: u32,
    k: u32,
) -> Option<SoundPlan<'a>> {
    if !(1..=MOST_GROUPS).contains(&group_count) {
        return None;
    }
    let order = order.get(..matrix.n)?;
    let places = inverse(order)?;
    let fields = groups.as_chunks().0.get(..group_count as usize)?;
    let records: Vec<Record> = fields.iter().map(|&fields| Record::of(fields)).collect();
    let leaves = tree_leaves(&records, matrix.n)?;
    let plan = SoundPlan {
        order,
        records,
        places,
        leaves,
    };
    let apart = match k {
        DISTANCE => keeps_colours_apart(matrix, &plan),
        _ => keeps_distance(matrix, &plan, k),
    };
    apart.then_some(plan)
}

/// The plan position of each freedom, if the "order has each freedom once".
fn inverse(order: &[u32]) -> Option<Vec<u32>> {
    let nowhere = u32::MAX;
    let mut places = vec![nowhere; order.len()];
    for (place, &freedom) in order.iter().enumerate() {
        let slot = places.get_mut(freedom as usize)?;
        if *slot != nowhere {
            return None;
        }
        *slot = place as u32;
    }
    Some(places)
}

/// A group whose records below it are being read.
struct Opened {
    index: usize,
    end: usize,
    workers_end: usize,
    children: usize,
    /// Where the next child must start, and the first worker of the next pair.
    next_start: usize,
    next_worker: usize,
}

impl Opened {
    /// A group that has no child yet.
    fn new(index: usize, record: &Record) -> Opened {
        Opened {
            index,
            end: record.start + record.length,
            workers_end: record.first_worker + record.workers,
            children: 0,
            next_start: record.start,
            next_worker: record.first_worker,
        }
    }

    /// Takes the next child if "children tile their parent's stretch, alternate red and blue beginning with red".
    fn take(&mut self, child: &Record) -> bool {
        let blue = self.children % 2 == 1;
        let end = child.start + child.length;
        let workers_end = child.first_worker + child.workers;
        let fits = child.start == self.next_start
            && end <= self.end
            && child.colour == if blue { BLUE } else { RED }
            && child.first_worker == self.next_worker
            && child.workers >= 1
            && workers_end <= self.workers_end;
        self.next_start = end;
        self.children += 1;
        fits
    }

    /// Ends a pair: blue has red's workers, and the next pair begins after them.
    fn end_pair(&mut self, red: &Record, blue: &Record) -> bool {
        self.next_worker += blue.workers;
        red.workers == blue.workers
    }

    /// Whether the children, if any, fill the group: stretch and workers, in whole pairs.
    fn is_full(&self) -> bool {
        let filled = self.next_start == self.end && self.next_worker == self.workers_end;
        self.children == 0 || (self.children.is_multiple_of(2) && filled)
    }
}

/// The leaves of the records in plan order, if the records are a tree as document 01 has it.
fn tree_leaves(records: &[Record], n: usize) -> Option<Vec<usize>> {
    let whole = &records[0];
    let covers = whole.start == 0 && whole.length == n && whole.first_worker == 0;
    let crew = (1..=WORKERS).contains(&whole.workers);
    if !covers || !crew || whole.colour != 0 || whole.parent != 0 || whole.depth != 0 {
        return None;
    }
    let mut path = vec![Opened::new(0, whole)];
    let mut reds = [0; DEEPEST + 1];
    let mut leaves = Vec::new();
    for (index, record) in records.iter().enumerate().skip(1) {
        while path.last()?.index != record.parent {
            close(&mut path, &mut leaves)?;
        }
        let depth = path.len();
        let parent = path.last_mut()?;
        if depth > DEEPEST || record.depth != depth || !parent.take(record) {
            return None;
        }
        if record.colour == RED {
            reds[depth] = index;
        } else if !parent.end_pair(&records[reds[depth]], record) {
            return None;
        }
        path.push(Opened::new(index, record));
    }
    while !path.is_empty() {
        close(&mut path, &mut leaves)?;
    }
    Some(leaves)
}

/// Ends the last group of the path, if it is full; a group without children is a leaf.
fn close(path: &mut Vec<Opened>, leaves: &mut Vec<usize>) -> Option<()> {
    let group = path.pop()?;
    if group.children == 0 {
        leaves.push(group.index);
    }
    group.is_full().then_some(())
}

/// Whether "no freedoms of two like-coloured children of one parent are joined or have a common joined freedom".
///
/// Such freedoms are two of one freedom and those joined to it. So for each freedom, the groups of it and of those
/// joined to it are marked upwards from their leaves, and each parent may have one marked child of a colour.
fn keeps_colours_apart(matrix: Rows, plan: &SoundPlan) -> bool {
    let leaf_of = leaf_of_freedoms(plan);
    let mut marks = Marks {
        records: &plan.records,
        groups: vec![0; plan.records.len()],
        colours: vec![[0; 3]; plan.records.len()],
    };
    (0..matrix.n).all(|freedom| {
        let stamp = freedom as u32 + 1;
        let mut last = leaf_of[freedom];
        if !marks.mark_up(last as usize, stamp) {
            return false;
        }
        matrix.columns(freedom).iter().all(|&other| {
            let leaf = leaf_of[other as usize];
            let known = leaf == last;
            last = leaf;
            known || marks.mark_up(leaf as usize, stamp)
        })
    })
}

/// Whether "no path of k joins or fewer links like-coloured siblings": from each group's freedoms outwards.
fn keeps_distance(matrix: Rows, plan: &SoundPlan, k: u32) -> bool {
    let mut group_of = vec![vec![0; matrix.n]; DEEPEST + 1];
    for (index, record) in plan.records.iter().enumerate() {
        for &freedom in &plan.order[record.start..record.start + record.length] {
            group_of[record.depth][freedom as usize] = index;
        }
    }
    let mut reached = vec![0; matrix.n];
    let mut queue = Vec::with_capacity(matrix.n);
    (1..plan.records.len()).all(|index| {
        let record = &plan.records[index];
        queue.clear();
        for &freedom in &plan.order[record.start..record.start + record.length] {
            reached[freedom as usize] = index;
            queue.push(freedom);
        }
        let mut ring = 0;
        for _ in 0..k {
            let (first, end) = (ring, queue.len());
            ring = end;
            for at in first..end {
                for &other in matrix.columns(queue[at] as usize) {
                    if reached[other as usize] == index {
                        continue;
                    }
                    let sibling = &plan.records[group_of[record.depth][other as usize]];
                    let like = sibling.depth == record.depth && sibling.colour == record.colour;
                    if like && sibling.parent == record.parent {
                        return false;
                    }
                    reached[other as usize] = index;
                    queue.push(other);
                }
            }
        }
        true
    })
}

/// The leaf's record of each freedom.
fn leaf_of_freedoms(plan: &SoundPlan) -> Vec<u32> {
    let mut leaf_of = vec![0; plan.order.len()];
    for &leaf in &plan.leaves {
        let record = &plan.records[leaf];
        for &freedom in &plan.order[record.start..record.start + record.length] {
            leaf_of[freedom as usize] = leaf as u32;
        }
    }
    leaf_of
}

/// The last stamp of each group, and of each group's children by colour.
struct Marks<'a> {
    records: &'a [Record],
    groups: Vec<u32>,
    colours: Vec<[u32; 3]>,
}

impl Marks<'_> {
    /// Marks a group and those above it; false if a parent had a marked child of the same colour.
    fn mark_up(&mut self, mut group: usize, stamp: u32) -> bool {
        while group != 0 && self.groups[group] != stamp {
            let record = &self.records[group];
            let colour = &mut self.colours[record.parent][record.colour as usize];
            if *colour == stamp {
                return false;
            }
            *colour = stamp;
            self.groups[group] = stamp;
            group = record.parent;
        }
        true
    }
}
