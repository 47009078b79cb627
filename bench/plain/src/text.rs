//! Lines and numbers, in and out.

/// The lines of a deck or a script with their numbers from 1. A line ends at LF or at the end of input; one CR right
/// before that is dropped.
pub fn lines(bytes: &[u8]) -> impl Iterator<Item = (u32, &[u8])> {
    (1..).zip(bytes.split_inclusive(|&byte| byte == b'\n').map(|line| {
        let line = line.strip_suffix(b"\n").unwrap_or(line);
        line.strip_suffix(b"\r").unwrap_or(line)
    }))
}

/// How many lines there are; an empty rest after the last LF is none.
pub fn count_lines(bytes: &[u8]) -> u32 {
    bytes.split_inclusive(|&byte| byte == b'\n').count() as u32
}

/// A line of a deck or script without its trailing spaces, or the kind of its fault: 1 a byte outside 32 to 126,
/// 2 more than 80 bytes.
pub fn plain(line: &[u8]) -> Result<&[u8], u32> {
    if !line.iter().all(|byte| (32..=126).contains(byte)) {
        return Err(1);
    }
    if line.len() > 80 {
        return Err(2);
    }
    let end = line.iter().rposition(|&byte| byte != b' ').map_or(0, |last| last + 1);
    Ok(&line[..end])
}

/// A number in decimal digits without a leading zero, at most `most`.
pub fn number(word: &[u8], most: u64) -> Option<u64> {
    if word.is_empty() || (word.len() > 1 && word[0] == b'0') {
        return None;
    }
    let value = word.iter().try_fold(0u64, |value, &byte| {
        let digit = byte.wrapping_sub(b'0');
        if digit > 9 {
            return None;
        }
        value.checked_mul(10)?.checked_add(u64::from(digit))
    })?;
    (value <= most).then_some(value)
}

/// The words of a line, parted by one or more spaces.
pub fn words(line: &[u8]) -> impl Iterator<Item = &[u8]> {
    line.split(|&byte| byte == b' ').filter(|word| !word.is_empty())
}

const PAIRS: &[u8; 200] = b"00010203040506070809101112131415161718192021222324252627282930313233343536373839\
4041424344454647484950515253545556575859606162636465666768697071727374757677787980818283848586878889\
90919293949596979899";

fn push_pair(out: &mut Vec<u8>, number: u64) {
    let at = 2 * number as usize;
    out.extend_from_slice(&PAIRS[at..at + 2]);
}

/// Appends a number in decimal.
pub fn push_number(out: &mut Vec<u8>, number: u64) {
    match number {
        0..10 => out.push(b'0' + number as u8),
        10..100 => push_pair(out, number),
        100..10_000 => {
            push_number(out, number / 100);
            push_pair(out, number % 100);
        }
        _ => {
            push_number(out, number / 10_000);
            push_pair(out, number / 100 % 100);
            push_pair(out, number % 100);
        }
    }
}

/// Appends a space and a number.
pub fn push_field(out: &mut Vec<u8>, number: impl Into<u64>) {
    out.push(b' ');
    push_number(out, number.into());
}
