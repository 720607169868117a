//! Two nets sewn together, document 02's request Q-11.

use super::matrix::{Matrix, Rows, LARGEST_VALUE, MOST_ENTRIES, MOST_FREEDOMS};
use super::Refusal;

/// For each freedom of the joined net the second net's freedom there; "23: the list has not one place for each freedom
/// of the second net, or a place repeats or leaves a gap".
fn judge_places(first: Rows, second: Rows, places: &[u32]) -> Result<Vec<Option<usize>>, Refusal> {
    let past = places.iter().filter(|&&place| place as usize >= first.n);
    let mut freedoms = vec![None; first.n + past.count()];
    let mut take = |(freedom, &place): (usize, &u32)| match freedoms.get_mut(place as usize) {
        Some(taken) => taken.replace(freedom).is_none(),
        None => false,
    };
    if places.len() == second.n && places.iter().enumerate().all(&mut take) {
        return Ok(freedoms);
    }
    Err(Refusal::at(23, 0))
}

/// The joined net: "the tool adds stiffnesses wherever entries fall together"; "24: the joined matrix breaks a limit of
/// document 01".
pub fn join(first: Rows, second: Rows, places: &[u32]) -> Result<Matrix, Refusal> {
    let freedoms = judge_places(first, second, places)?;
    let mut joined = Matrix {
        n: freedoms.len() as u32,
        starts: vec![0],
        columns: Vec::new(),
        values: Vec::new(),
    };
    let (mut below, mut large) = (0, false);
    let mut entries: Vec<(u32, i64)> = Vec::new();
    for (row, freedom) in freedoms.iter().enumerate() {
        entries.clear();
        if row < first.n {
            entries.extend(
                first
                    .entries(row)
                    .map(|(column, value)| (column as u32, value.into())),
            );
        }
        if let &Some(freedom) = freedom {
            entries.extend(
                second
                    .entries(freedom)
                    .map(|(column, value)| (places[column], value.into())),
            );
        }
        entries.sort_unstable_by_key(|&(column, _)| column);
        for pair in entries.chunk_by(|one, other| one.0 == other.0) {
            let sum: i64 = pair.iter().map(|&(_, value)| value).sum();
            large |= sum.unsigned_abs() > LARGEST_VALUE.into();
            below += usize::from(pair[0].0 as usize <= row);
            joined.columns.push(pair[0].0);
            joined.values.push(sum as i32);
        }
        joined.starts.push(joined.columns.len() as u32);
    }
    if joined.n > MOST_FREEDOMS || below > MOST_ENTRIES || large {
        return Err(Refusal::at(24, 0));
    }
    Ok(joined)
}
