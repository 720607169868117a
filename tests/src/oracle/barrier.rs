//! The barrier unit, document 02's request Q-12: its registers as bytes, and the gatherings of a history of writes.

use super::{Refusal, WORKERS};

/// The bytes of a kept unit: six registers, then the count of releases.
pub const UNIT_BYTES: usize = 10;
pub type Unit = [u8; UNIT_BYTES];

/// A write: its address and its byte.
pub type Write = (u32, u8);

/// "25: address above 5".
pub fn judge(address: u32) -> Result<(), Refusal> {
    if address > 5 {
        return Err(Refusal::at(25, 0));
    }
    Ok(())
}

/// The unit after a write to one of its registers.
pub fn write(mut unit: Unit, (address, byte): Write) -> Unit {
    let at = address as usize;
    unit[4] &= 1;
    unit[5] &= 1;
    match at {
        0 | 1 => {
            unit[at] = byte;
            unit[2..4].fill(0);
        }
        2 | 3 => {
            unit[at] |= byte & unit[at - 2];
            let missing = [unit[0] & !unit[2], unit[1] & !unit[3]];
            if missing == [0, 0] && unit[..2] != [0, 0] {
                unit[2..4].fill(0);
                unit[4] = 1;
                let count = releases(&unit).wrapping_add(1);
                unit[6..].copy_from_slice(&count.to_le_bytes());
            }
        }
        4 => unit[4] &= !byte,
        _ => unit[5] = byte & 1,
    }
    unit
}

/// What a register reads.
pub fn read(unit: &Unit, address: u32) -> u8 {
    let byte = unit[address as usize];
    if address < 4 {
        byte
    } else {
        byte & 1
    }
}

/// Whether "bit 0 of status and of enable are both set".
pub fn is_up(unit: &Unit) -> bool {
    unit[4] & unit[5] & 1 == 1
}

/// The count of releases.
pub fn releases(unit: &Unit) -> u32 {
    u32::from_le_bytes([unit[6], unit[7], unit[8], unit[9]])
}

/// The number of complete gatherings in a history, by its writes alone: "a gathering begins after a member write or the
/// last complete one, and is complete when every member, of at least one, has been named in its arrived writes".
pub fn gatherings(history: &[Write]) -> usize {
    let mut complete = 0;
    let mut begin = 0;
    for end in 0..history.len() {
        if history[end].0 < 2 {
            begin = end + 1;
            continue;
        }
        let members: Vec<usize> = (0..WORKERS)
            .filter(|&v| is_member(&history[..end], v))
            .collect();
        let gathering = &history[begin..=end];
        let is_named = |&v: &usize| gathering.iter().any(|&write| names(write, 2, v));
        if !members.is_empty() && members.iter().all(is_named) {
            complete += 1;
            begin = end + 1;
        }
    }
    complete
}

/// Whether a write to worker v's byte of the set at this address has its bit.
fn names((address, byte): Write, set: usize, v: usize) -> bool {
    address as usize == set + v / 8 && byte >> (v % 8) & 1 == 1
}

/// Whether the last write to worker v's member byte has its bit.
fn is_member(history: &[Write], v: usize) -> bool {
    let mut writes = history.iter().rev();
    let last = writes.find(|&&(address, _)| address as usize == v / 8);
    last.is_some_and(|&write| names(write, 0, v))
}
