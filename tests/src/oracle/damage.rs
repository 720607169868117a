//! Texts of every legal look, and damage to texts, rows, plans and plan files.

use super::matrix::{Entry, Matrix};
use super::prng::Prng;
use super::text::LINE_1;
use super::FIELDS;

/// Numbers at the borders of what lists of 32 bits may hold.
const ODD_NUMBERS: [u32; 10] = [0, 1, 2, 15, 16, 4_095, 4_096, 4_097, 0x8000_0000, u32::MAX];

/// Fields and lines that texts are damaged with.
const ODD_FIELDS: [&str; 18] = [
    "0",
    "00",
    "01",
    "-0",
    "-1",
    "--1",
    "+1",
    "4096",
    "4097",
    "32768",
    "32769",
    "1000000000",
    "1000000001",
    "-1000000001",
    "4294967297",
    "9999999999",
    "-9999999999",
    "10000000000",
];

/// What may be appended to a text, all of it too much.
const APPENDED: [&str; 6] = ["\n", " ", "%\n", "1 1 1\n", "1 1 1", "2 1 0\n\n"];

/// A legal text of a matrix: entries in any order, spaces and `%` lines as may be.
pub fn random_text(rng: &mut Prng, matrix: &Matrix) -> Vec<u8> {
    let mut out = LINE_1.to_vec();
    while rng.chance(30) {
        out.push(b'%');
        let remark = rng.below(6);
        out.extend((0..remark).map(|_| rng.one_of(b"% 1-x\xff\x00\r\t")));
        out.push(b'\n');
    }
    let mut entries = matrix.entries();
    if rng.chance(60) {
        rng.shuffle(&mut entries);
    }
    let wide = rng.chance(30);
    let n = i64::from(matrix.n);
    random_line(rng, &mut out, wide, [n, n, entries.len() as i64]);
    for Entry { row, column, value } in entries {
        let numbers = [i64::from(row) + 1, i64::from(column) + 1, i64::from(value)];
        random_line(rng, &mut out, wide, numbers);
    }
    out
}

/// Appends a line of three numbers, with more than one space between them if `wide`.
fn random_line(rng: &mut Prng, out: &mut Vec<u8>, wide: bool, numbers: [i64; 3]) {
    for (k, number) in numbers.into_iter().enumerate() {
        let spaces = match k {
            0 => 0,
            _ if wide => 1 + rng.below(3),
            _ => 1,
        };
        out.extend(std::iter::repeat_n(b' ', spaces));
        out.extend(number.to_string().bytes());
    }
    out.push(b'\n');
}

/// Damages a text once: a byte, a field, or whole lines.
pub fn damage_text(rng: &mut Prng, text: &mut Vec<u8>) {
    if text.is_empty() || rng.chance(40) {
        return damage_byte(rng, text);
    }
    let mut lines: Vec<Vec<u8>> = text
        .split_inclusive(|&byte| byte == b'\n')
        .map(<[u8]>::to_vec)
        .collect();
    let first = usize::from(lines.len() > 1 && rng.chance(95));
    let line = first + rng.below(lines.len() - first);
    let other = first + rng.below(lines.len() - first);
    match rng.below(8) {
        0 => lines.insert(line, lines[other].clone()),
        1 => drop(lines.remove(line)),
        2 => lines.swap(line, other),
        3 => lines[line] = lines[other].clone(),
        4 => lines.push(rng.one_of(&APPENDED).as_bytes().to_vec()),
        _ => damage_field(rng, &mut lines[line]),
    }
    *text = lines.concat();
}

/// Changes, puts in or takes out one byte, or cuts the text; often enough in line 1.
fn damage_byte(rng: &mut Prng, text: &mut Vec<u8>) {
    let line_1 = text.len().min(LINE_1.len());
    let at = if rng.chance(20) {
        rng.below(line_1 + 1)
    } else {
        line_1 + rng.below(text.len() - line_1 + 1)
    };
    let byte = rng.one_of(b"0123456789 \n-+%\r\t.\x00\xff");
    match rng.below(5) {
        0 => text.truncate(at),
        1 if at < text.len() => drop(text.remove(at)),
        2 if at < text.len() => text[at] = byte,
        _ => text.insert(at, byte),
    }
}

/// Puts an odd number in place of a field of a line.
fn damage_field(rng: &mut Prng, line: &mut Vec<u8>) {
    let whole = line.ends_with(b"\n");
    let body = &line[..line.len() - usize::from(whole)];
    let mut fields: Vec<Vec<u8>> = body
        .split(|&byte| byte == b' ')
        .map(<[u8]>::to_vec)
        .collect();
    let field = rng.below(fields.len());
    let small = 1 + rng.below(6);
    fields[field] = match rng.below(3) {
        0 => small.to_string().into_bytes(),
        _ => rng.one_of(&ODD_FIELDS).as_bytes().to_vec(),
    };
    *line = fields.join(&b' ');
    if whole {
        line.push(b'\n');
    }
}

/// Changes one number of a list: to its neighbour, to another of the list, or to an odd one.
fn damage_number(rng: &mut Prng, list: &mut [u32]) {
    if list.is_empty() {
        return;
    }
    let at = rng.below(list.len());
    list[at] = match rng.below(5) {
        0 => list[at].wrapping_add(1),
        1 => list[at].wrapping_sub(1),
        2 | 3 => list[rng.below(list.len())],
        _ => rng.one_of(&ODD_NUMBERS),
    };
}

/// Damages the lists of a matrix once; some damage does no harm.
pub fn damage_matrix(rng: &mut Prng, matrix: &mut Matrix) {
    match rng.below(9) {
        0 => matrix.n = rng.one_of(&ODD_NUMBERS),
        1 => matrix.n = matrix.n.wrapping_add(rng.below(3) as u32).wrapping_sub(1),
        2 => damage_number(rng, &mut matrix.starts),
        3 | 4 => damage_number(rng, &mut matrix.columns),
        5 if !matrix.values.is_empty() => {
            let at = rng.below(matrix.values.len());
            let odd = [0, 1, 1_000_000_001, -1_000_000_001, i32::MIN, i32::MAX];
            matrix.values[at] = rng.one_of(&odd);
        }
        6 => damage_length(rng, &mut matrix.starts),
        7 => damage_length(rng, &mut matrix.columns),
        _ => damage_length(rng, &mut matrix.values),
    }
}

/// Shortens a list by one, or lengthens it.
fn damage_length<T: Default>(rng: &mut Prng, list: &mut Vec<T>) {
    if rng.chance(60) {
        list.pop();
    } else {
        list.push(T::default());
    }
}

/// Damages the lists of a plan once; some damage does no harm.
pub fn damage_plan(
    rng: &mut Prng,
    order: &mut Vec<u32>,
    groups: &mut Vec<u32>,
    group_count: &mut u32,
) {
    match rng.below(13) {
        0 => damage_number(rng, order),
        1 => damage_length(rng, order),
        2 => damage_length(rng, groups),
        3 => {
            *group_count = group_count
                .wrapping_add(rng.below(3) as u32)
                .wrapping_sub(1)
        }
        4 => *group_count = rng.one_of(&[0, 1, 481, 482, 512, 513, u32::MAX]),
        5 => swap_places(rng, order),
        6 => swap_records(rng, groups),
        7 | 8 => shift_border(rng, groups),
        9 => shift_depth(rng, groups),
        _ => damage_number(rng, groups),
    }
}

/// Swaps two numbers of a list.
fn swap_places(rng: &mut Prng, list: &mut [u32]) {
    if !list.is_empty() {
        let (one, two) = (rng.below(list.len()), rng.below(list.len()));
        list.swap(one, two);
    }
}

/// Swaps two records, or gives one record another's fields.
fn swap_records(rng: &mut Prng, groups: &mut [u32]) {
    let records = groups.as_chunks_mut::<FIELDS>().0;
    if records.is_empty() {
        return;
    }
    let (one, two) = (rng.below(records.len()), rng.below(records.len()));
    if rng.chance(50) {
        records.swap(one, two);
    } else {
        records[one] = records[two];
    }
}

/// Makes a record's depth, and perhaps those of all after it, greater or less by 1.
fn shift_depth(rng: &mut Prng, groups: &mut [u32]) {
    let records = groups.as_chunks_mut::<FIELDS>().0;
    if records.is_empty() {
        return;
    }
    let first = rng.below(records.len());
    let ends = [first + 1, records.len()];
    let shift = rng.one_of(&[1, u32::MAX]);
    for record in &mut records[first..rng.one_of(&ends)] {
        record[6] = record[6].wrapping_add(shift);
    }
}

/// Shifts a plan position where records meet, in all of them, so that stretches still tile.
fn shift_border(rng: &mut Prng, groups: &mut [u32]) {
    let records = groups.as_chunks_mut::<FIELDS>().0;
    if records.is_empty() {
        return;
    }
    let border = records[rng.below(records.len())][0];
    let shift = 1 + rng.below(3) as u32;
    for record in records {
        let end = record[0].wrapping_add(record[1]);
        let start = record[0];
        let moved = |place: u32| {
            if place == border && place > 0 {
                place.wrapping_add(shift)
            } else {
                place
            }
        };
        record[0] = moved(start);
        record[1] = moved(end).wrapping_sub(moved(start));
    }
}

/// Damages a plan file once, most often in its table; some damage does no harm.
pub fn damage_file(rng: &mut Prng, file: &mut Vec<u8>) {
    let at = rng.below(file.len() + 1);
    match rng.below(8) {
        0 => file.truncate(at),
        1 => drop(file.splice(at..at, [0; 4])),
        2 => file.extend([0; 4]),
        3 if at < file.len() => drop(file.remove(at)),
        4 if at < file.len() => file[at] = rng.one_of(&[0, 1, 2, 3, 0xff]),
        _ => {
            let table = file.len().min(28);
            damage_word(rng, &mut file[..table]);
        }
    }
}

/// Damages a prepared list once, often in its head; some damage does no harm.
pub fn damage_prepared(rng: &mut Prng, list: &mut Vec<u8>) {
    let at = rng.below(list.len() + 1);
    let head = list.len().min(144);
    match rng.below(10) {
        0 => list.truncate(at),
        1 => drop(list.pop()),
        2 if at < list.len() => list[at] = rng.one_of(&[0, 1, 2, 3, 0xff]),
        3..6 => damage_word(rng, &mut list[..head]),
        _ => damage_word(rng, &mut list[head..]),
    }
}

/// Changes a number among bytes: by what a plan file's length may differ, or to an odd one.
fn damage_word(rng: &mut Prng, bytes: &mut [u8]) {
    let words = bytes.as_chunks_mut::<4>().0;
    if words.is_empty() {
        return;
    }
    let at = rng.below(words.len());
    let number = u32::from_le_bytes(words[at]);
    let by = rng.one_of(&[1, 2, 4, 4 * FIELDS as u32, 1 << 16]);
    let number = match rng.below(3) {
        0 => number.wrapping_add(by),
        1 => number.wrapping_sub(by),
        _ => rng.one_of(&ODD_NUMBERS),
    };
    words[at] = number.to_le_bytes();
}
