//! Lists of whole numbers as text, one number a line.

use std::io::Write;

use super::Refusal;

/// Whether some bytes are decimal digits, one at least, with no needless zero before them.
fn are_digits(bytes: &[u8]) -> bool {
    match bytes {
        [] | [b'0', _, ..] => false,
        _ => bytes.iter().all(u8::is_ascii_digit),
    }
}

/// The number of a line without its line feed; 2 if it breaks the form, 4 if it passes 64 bits.
fn number_of(line: &[u8]) -> Result<i64, u32> {
    let digits = line.strip_prefix(b"-").unwrap_or(line);
    if !are_digits(digits) || line == b"-0" {
        return Err(2);
    }
    let spelled = str::from_utf8(line).expect("digits are ASCII");
    spelled.parse().map_err(|_| 4)
}

/// The numbers of a text, or the refusal of its first line that is wrong.
pub fn read(text: &[u8]) -> Result<Vec<i64>, Refusal> {
    let lines = text.split_inclusive(|&byte| byte == b'\n');
    let mut numbers = Vec::with_capacity(text.len() / 2);
    for line in lines {
        let number = line.strip_suffix(b"\n").ok_or(2).and_then(number_of);
        let place = numbers.len() + 1;
        numbers.push(number.map_err(|number| Refusal::at(number, place))?);
    }
    Ok(numbers)
}

/// The text of numbers.
pub fn write(numbers: impl IntoIterator<Item = i64>) -> Vec<u8> {
    let mut text = Vec::new();
    for number in numbers {
        writeln!(text, "{number}").expect("a list in memory grows");
    }
    text
}
