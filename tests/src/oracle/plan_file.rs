//! Plan files, document 02's requests.

use super::{Refusal, FIELDS};

/// The most freedoms and the most groups of a plan that is carried.
pub const MOST_ROWS: usize = 4_096;
pub const MOST_GROUPS: usize = 512;

/// The kinds of the bodies: the order, and the groups with their depths, "kind 3 in place of 2".
const KINDS: [u32; 2] = [1, 3];

/// "file breaks this layout or these counts, or a plan to be written does".
const BROKEN: Refusal = Refusal::at(16, 0);

/// Refusal 16 unless a plan has "1 to 4,096 freedoms and 1 to 512 groups".
pub fn judge_counts(rows: usize, groups: usize) -> Result<(), Refusal> {
    if (1..=MOST_ROWS).contains(&rows) && (1..=MOST_GROUPS).contains(&groups) {
        return Ok(());
    }
    Err(BROKEN)
}

/// The file of an order and flat groups, without a look at their counts: a table of contents and the bodies.
pub fn write(order: &[u32], groups: &[u32]) -> Vec<u8> {
    let mut offset = 4 + 12 * KINDS.len();
    let mut numbers = vec![KINDS.len() as u32];
    for (kind, body) in KINDS.into_iter().zip([order, groups]) {
        numbers.extend([kind, offset as u32, 4 * body.len() as u32]);
        offset += 4 * body.len();
    }
    let mut file = vec![0; offset];
    let mut places = file.as_chunks_mut().0.iter_mut();
    for part in [&numbers[..], order, groups] {
        for (&number, place) in part.iter().zip(&mut places) {
            *place = u32::to_le_bytes(number);
        }
    }
    file
}

/// The order and the flat groups in a file, or 16.
pub fn read(file: &[u8]) -> Result<[Vec<u32>; 2], Refusal> {
    let (number_of_bodies, mut contents) = take_number(file)?;
    if number_of_bodies != 2 {
        return Err(BROKEN);
    }
    let mut bodies = file.get(28..).ok_or(BROKEN)?;
    let mut taken = [Vec::new(), Vec::new()];
    for (kind, body) in KINDS.into_iter().zip(&mut taken) {
        let (its_kind, offset, length);
        (its_kind, contents) = take_number(contents)?;
        (offset, contents) = take_number(contents)?;
        (length, contents) = take_number(contents)?;
        let here = file.len() - bodies.len();
        if its_kind != kind || offset as usize != here || length % 4 != 0 {
            return Err(BROKEN);
        }
        let bytes;
        (bytes, bodies) = bodies.split_at_checked(length as usize).ok_or(BROKEN)?;
        let numbers = bytes.as_chunks().0.iter();
        *body = numbers.map(|&word| u32::from_le_bytes(word)).collect();
    }
    let [order, groups] = &taken;
    if !bodies.is_empty() || groups.len() % FIELDS != 0 {
        return Err(BROKEN);
    }
    judge_counts(order.len(), groups.len() / FIELDS)?;
    Ok(taken)
}

/// The first number of some bytes, and those after it.
fn take_number(bytes: &[u8]) -> Result<(u32, &[u8]), Refusal> {
    let (word, rest) = bytes.split_first_chunk().ok_or(BROKEN)?;
    Ok((u32::from_le_bytes(*word), rest))
}
