//! `mzk_numbers_read` and `mzk_numbers_write` beside the other implementation.

use mazhoketh_tests::guarded::Twin;
use mazhoketh_tests::lists::bytes;
use mazhoketh_tests::{both, cases};

/// A word: a refusal's number and place, or a count with number 0.
fn word(number: u64, place: u64) -> u64 {
    number << 32 | place
}

/// Reads a text into a list with room for so many numbers: the word, and the list.
fn read(text: &[u8], room: usize) -> (u64, Vec<u8>) {
    let mut list = Twin::blank(8 * room);
    let word = both::numbers_read(&Twin::new(text.to_vec()), &mut list);
    (word, list.ours().to_vec())
}

#[test]
fn random_texts() {
    let seen = cases::each(301, 0..100_000, cases::numbers::read);
    seen.require([0, 2, 4, 9], 1_000);
}

#[test]
fn random_lists() {
    let seen = cases::each(302, 0..60_000, cases::numbers::write);
    seen.require([0, 9], 1_000);
}

/// Every text of up to five of these bytes.
#[test]
fn short_texts() {
    const BYTES: &[u8] = b"-019\n /:";
    let texts = BYTES.len().pow(5) as u64;
    cases::numbered(303, 0..texts, |number, _, _| {
        for length in 0..=5 {
            let text: Vec<u8> = (0..length)
                .map(|at| BYTES[number as usize / BYTES.len().pow(at) % BYTES.len()])
                .collect();
            read(&text, 5);
        }
    });
}

#[test]
fn by_hand() {
    for (text, expected) in [
        (&b""[..], word(0, 0)),
        (b"0\n", word(0, 1)),
        (b"-1\n1\n", word(0, 2)),
        (b"9223372036854775807\n-9223372036854775808\n", word(0, 2)),
        (b"9223372036854775808\n", word(4, 1)),
        (b"-9223372036854775809\n", word(4, 1)),
        (b"1\n100000000000000000000\n", word(4, 2)),
        (b"-0\n", word(2, 1)),
        (b"00\n", word(2, 1)),
        (b"1\n01\n", word(2, 2)),
        (b"1", word(2, 1)),
        (b"1\n2", word(2, 2)),
        (b"\n", word(2, 1)),
        (b"1\n\n", word(2, 2)),
        (b"9223372036854775808\nx\n", word(4, 1)),
        (b"x\n9223372036854775808\n", word(2, 1)),
        (b"9223372036854775808 \n", word(2, 1)),
        (b"9223372036854775808", word(2, 1)),
        (b"1\n2\n3\n4\n", word(9, 4)),
        (b"1\n2\n3\nx\n", word(2, 4)),
    ] {
        assert_eq!(read(text, 3).0, expected, "{:?}", str::from_utf8(text));
    }
}

/// A list and its text, both ways, with the room needed and with less.
#[test]
fn both_ways() {
    let numbers = [0, -1, 10, i64::MIN, i64::MAX, -999_999, 1_000_000];
    let text = b"0\n-1\n10\n-9223372036854775808\n9223372036854775807\n-999999\n1000000\n";
    let list = bytes(&numbers, i64::to_le_bytes);
    assert_eq!(read(text, 7), (word(0, 7), list.clone()));
    assert_eq!(read(text, 6), (word(9, 7), vec![0xcc; 48]));
    for (room, expected) in [
        (text.len() + 3, word(0, text.len() as u64)),
        (text.len() - 1, word(9, text.len() as u64)),
        (0, word(9, text.len() as u64)),
    ] {
        let mut written = Twin::blank(room);
        let told = both::numbers_write(&Twin::new(list.clone()), &mut written);
        assert_eq!(told, expected);
        let whole = if told >> 32 == 0 { text.len() } else { 0 };
        assert_eq!(written.ours()[..whole], text[..whole]);
        assert!(written.ours()[whole..].iter().all(|&byte| byte == 0xcc));
    }
}

/// A trailing part of a list is no number, and is not written.
#[test]
fn every_length() {
    let list = bytes(&[7_i64, -3], i64::to_le_bytes);
    for length in 0..=16 {
        let mut text = Twin::blank(8);
        let told = both::numbers_write(&Twin::new(list[..length].to_vec()), &mut text);
        assert_eq!(told, [0, 2, 5][length / 8]);
        let mut numbers = Twin::blank(length);
        let told = both::numbers_read(&Twin::new(b"7\n-3\n".to_vec()), &mut numbers);
        assert_eq!(told, if length < 16 { word(9, 2) } else { word(0, 2) });
    }
}

/// More lines than a matrix has rows, and than 16 bits count.
#[test]
fn long_list() {
    let numbers: Vec<i64> = (0..70_000).map(|row| row * row * row - 77 * row).collect();
    let list = Twin::new(bytes(&numbers, i64::to_le_bytes));
    let mut text = Twin::blank(21 * numbers.len());
    let size = both::numbers_write(&list, &mut text) as usize;
    let (told, back) = read(&text.ours()[..size], numbers.len());
    assert_eq!(told, 70_000);
    assert!(back == list.ours());
}
