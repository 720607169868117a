//! Cases of number lists, read from their text and written.

use super::{room_about, with_stray, Seen};
use crate::both;
use crate::guarded::Twin;
use crate::oracle::numbers;
use crate::oracle::prng::Prng;

/// A number: of any size, near a limit or a power of ten, or a small one.
pub fn random_number(rng: &mut Prng) -> i64 {
    match rng.below(6) {
        0 => rng.bits() as i64,
        1 => rng.bits() as i64 >> rng.below(64),
        2 => rng.one_of(&[i64::MIN, i64::MIN + 1, i64::MAX, i64::MAX - 1]),
        3 => (10_i64.pow(rng.below(19) as u32) - rng.between(0, 1)) * rng.one_of(&[1, -1]),
        _ => rng.between(-1_000_000, 1_000_000),
    }
}

/// A list of numbers, now and then a long one.
pub fn random_numbers(rng: &mut Prng) -> Vec<i64> {
    let length = match rng.below(100) {
        0 => rng.below(3_000),
        _ => rng.below(24),
    };
    (0..length).map(|_| random_number(rng)).collect()
}

/// Lines that are none, or whose number passes 64 bits.
const WRONG: &[&[u8]] = &[
    b"\n",
    b"-\n",
    b"-0\n",
    b"00\n",
    b"07\n",
    b"-07\n",
    b"+1\n",
    b" 1\n",
    b"1 \n",
    b"1\r\n",
    b"--1\n",
    b"1-\n",
    b"1.0\n",
    b"0x1\n",
    b"\0\n",
    b"1\0\n",
    b"\xff\n",
    b"\xd9\xa1\n",
    b"1\n\n",
    b"1/\n",
    b"1:\n",
    b"9223372036854775808\n",
    b"-9223372036854775809\n",
    b"10000000000000000000\n",
    b"18446744073709551616\n",
    b"18446744073709551615\n",
    b"-18446744073709551616\n",
    b"99999999999999999999999999999999999999\n",
    b"99999999999999999999 \n",
    b"099999999999999999999\n",
    b"9223372036854775808",
    b"340282366920938463463374607431768211457\n",
];

/// A text, most often of a list, and damaged every other time.
pub fn random_text(rng: &mut Prng) -> Vec<u8> {
    let mut text = numbers::write(random_numbers(rng));
    match rng.below(6) {
        0 => {
            let ends: Vec<usize> = (0..=text.len())
                .filter(|&at| at == 0 || text[at - 1] == b'\n')
                .collect();
            let at = rng.one_of(&ends);
            text.splice(at..at, rng.one_of(WRONG).iter().copied());
        }
        1 if !text.is_empty() => {
            let at = rng.below(text.len());
            text[at] = rng.one_of(b"0123456789-\n\n \r+x\0");
        }
        2 if !text.is_empty() => text.truncate(rng.below(text.len())),
        _ => {}
    }
    text
}

/// Reads a text into a list that is now and then too short.
pub fn read(rng: &mut Prng, seen: &mut Seen) {
    let text = random_text(rng);
    let lines = text.iter().filter(|&&byte| byte == b'\n').count();
    let mut list = Twin::blank(room_about(rng, lines, 8));
    seen.note(both::numbers_read(&Twin::new(text), &mut list));
}

/// Writes a list into a text that is now and then too short; stray bytes may follow the list. What is written is read.
pub fn write(rng: &mut Prng, seen: &mut Seen) {
    let numbers = random_numbers(rng);
    let needed = numbers::write(numbers.iter().copied()).len();
    let mut text = Twin::blank(room_about(rng, needed, 1));
    let word = both::numbers_write(&with_stray(rng, &numbers, i64::to_le_bytes), &mut text);
    seen.note(word);
    if word == needed as u64 {
        let mut list = Twin::blank(8 * numbers.len());
        let written = Twin::new(text.ours()[..needed].to_vec());
        assert_eq!(
            both::numbers_read(&written, &mut list),
            numbers.len() as u64
        );
        assert!(list
            .ours()
            .chunks(8)
            .eq(numbers.iter().map(|number| number.to_le_bytes())));
    }
}
