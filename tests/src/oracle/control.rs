//! The control number of a list of forces, document 02's request Q-13.

/// "the sum over freedoms, in original order, of (number + 1) × force, kept modulo 4,294,967,296, negative forces
/// counted as their remainder": in 64 bits that wrap, of which the low 32 are kept.
pub fn number(forces: impl IntoIterator<Item = i64>) -> u32 {
    let mut sum: i64 = 0;
    for (weight, force) in (1_i64..).zip(forces) {
        sum = sum.wrapping_add(force.wrapping_mul(weight));
    }
    sum as u32
}
