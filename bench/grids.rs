//! Grids in stock Rust, for the yardsticks: read, printed and put. Little is checked.

use std::fs;
use std::process::exit;

#[derive(Clone, Copy, PartialEq)]
pub enum Cell {
    Mv,
    Val(i64),
}

pub const MOST: i64 = 9_000_000_000_000_000_000;

/// A grid: its columns and rows, the lines of its head as they are spelled, and its cells row by row.
pub struct Grid {
    pub cols: usize,
    pub rows: usize,
    pub head: [Vec<u8>; 3],
    pub cells: Vec<Cell>,
}

pub fn refuse(what: &str) -> ! {
    eprintln!("{what}");
    exit(1)
}

#[inline]
fn is_blank(byte: &u8) -> bool {
    matches!(byte, b' ' | b'\t' | b'\r' | b'\n')
}

/// The tokens of a text: longest runs without blanks.
struct Tokens<'a> {
    text: &'a [u8],
}

impl<'a> Tokens<'a> {
    fn next(&mut self) -> Option<&'a [u8]> {
        let begin = self.text.iter().position(|byte| !is_blank(byte))?;
        let rest = &self.text[begin..];
        let end = rest.iter().position(is_blank).unwrap_or(rest.len());
        self.text = &rest[end..];
        Some(&rest[..end])
    }
}

/// The millionths of the decimal at the front of a text, the nearest ones, ties away from zero, and its length. In one
/// pass: digits, those behind the point, at the seventh a digit that rounds, and the blank behind it.
#[inline]
pub fn front_millionths(text: &[u8]) -> Option<(i64, usize)> {
    const TENS: [i64; 7] = [1_000_000, 100_000, 10_000, 1_000, 100, 10, 1];
    let negative = text.first() == Some(&b'-');
    let begin = negative as usize;
    let mut at = begin;
    let mut value: i64 = 0;
    while at < text.len() && text[at].is_ascii_digit() {
        value = value * 10 + (text[at] - b'0') as i64;
        at += 1;
        if at > begin + 13 {
            return None;
        }
    }
    let mut digits = at - begin;
    let mut places = 0;
    let mut rounds = 0;
    if at < text.len() && text[at] == b'.' {
        at += 1;
        let front = at;
        while at < text.len() && text[at].is_ascii_digit() {
            if at < front + 6 {
                value = value * 10 + (text[at] - b'0') as i64;
                places += 1;
            } else if at == front + 6 {
                rounds = (text[at] >= b'5') as i64;
            }
            at += 1;
        }
        digits += at - front;
    }
    if digits == 0 || !(at == text.len() || is_blank(&text[at])) {
        return None;
    }
    let value = value.checked_mul(TENS[places])? + rounds;
    (value <= MOST).then_some((if negative { -value } else { value }, at))
}

/// The millionths of a decimal with an exponent: its digits, with the point moved.
fn with_exponent(token: &[u8]) -> Option<i64> {
    let negative = token.first() == Some(&b'-');
    let unsigned = token.strip_prefix(b"-").unwrap_or(token);
    let power = unsigned.iter().position(|byte| matches!(byte, b'e' | b'E'))?;
    let exponent: i64 = std::str::from_utf8(&unsigned[power + 1..]).ok()?.parse().ok()?;
    let front = &unsigned[..power];
    let point = front.iter().position(|byte| *byte == b'.').unwrap_or(front.len());
    let mut value: i64 = 0;
    let mut place = point as i64 + exponent;
    let mut rounds = false;
    for digit in front.iter().filter(|byte| **byte != b'.').map(|byte| byte.wrapping_sub(b'0')) {
        if digit > 9 {
            return None;
        }
        if place > -6 {
            value = value.checked_mul(10)?.checked_add(digit as i64)?;
        } else if place == -6 {
            rounds = digit >= 5;
        }
        place -= 1;
    }
    for _ in 0..(place + 6).max(0) {
        value = value.checked_mul(10)?;
    }
    value += rounds as i64;
    (value <= MOST).then_some(if negative { -value } else { value })
}

pub fn read(name: &str) -> Grid {
    let Ok(text) = fs::read(name) else { refuse(name) };
    let mut tokens = Tokens { text: &text };
    let mut grid = Grid { cols: 0, rows: 0, head: [const { Vec::new() }; 3], cells: Vec::new() };
    let mut missing: &[u8] = b"-9999";
    let number = |token: &[u8]| std::str::from_utf8(token).ok().and_then(|text| text.parse().ok()).unwrap_or(0);
    for _ in 0..6 {
        let (Some(key), Some(value)) = (tokens.next(), tokens.next()) else { refuse(name) };
        match key {
            b"ncols" => grid.cols = number(value),
            b"nrows" => grid.rows = number(value),
            b"xllcorner" => grid.head[0] = value.to_vec(),
            b"yllcorner" => grid.head[1] = value.to_vec(),
            b"cellsize" => grid.head[2] = value.to_vec(),
            _ => missing = value,
        }
    }
    let count = grid.cols * grid.rows;
    grid.cells.reserve_exact(count);
    let given = front_millionths(missing).map(|front| front.0);
    loop {
        while let Some((b' ' | b'\n' | b'\r' | b'\t', rest)) = tokens.text.split_first() {
            tokens.text = rest;
        }
        if tokens.text.is_empty() {
            break;
        }
        let cell = if let Some((value, len)) = front_millionths(tokens.text) {
            tokens.text = &tokens.text[len..];
            if Some(value) == given { Cell::Mv } else { Cell::Val(value) }
        } else {
            let Some(value) = tokens.next().and_then(with_exponent) else { refuse(name) };
            Cell::Val(value)
        };
        grid.cells.push(cell);
    }
    if grid.cells.len() != count {
        refuse(name);
    }
    grid
}

/// The digits of the numbers below 100, two for each.
const PAIRS: [u8; 200] = {
    let mut pairs = [0; 200];
    let mut at = 0;
    while at < 100 {
        pairs[2 * at] = b'0' + (at / 10) as u8;
        pairs[2 * at + 1] = b'0' + (at % 10) as u8;
        at += 1;
    }
    pairs
};

/// Writes the digits of a number so that they end before a place of the room, and gives where they begin.
fn digits_before(mut number: u64, room: &mut [u8; 32], mut at: usize) -> usize {
    while number >= 100 {
        let pair = 2 * (number % 100) as usize;
        number /= 100;
        at -= 2;
        room[at..at + 2].copy_from_slice(&PAIRS[pair..pair + 2]);
    }
    if number >= 10 {
        let pair = 2 * number as usize;
        at -= 2;
        room[at..at + 2].copy_from_slice(&PAIRS[pair..pair + 2]);
    } else {
        at -= 1;
        room[at] = b'0' + number as u8;
    }
    at
}

pub fn print(cell: Cell, out: &mut Vec<u8>) {
    let Cell::Val(value) = cell else {
        out.extend_from_slice(b"1e31");
        return;
    };
    let size = value.unsigned_abs();
    let (whole, fraction) = (size / 1_000_000, size % 1_000_000);
    let mut room = [b'0'; 32];
    // the fraction stands at the end of the room, and the whole part before it
    let mut at = digits_before(whole, &mut room, 25);
    if value < 0 {
        at -= 1;
        room[at] = b'-';
    }
    let mut end = 25;
    if fraction != 0 {
        room[25] = b'.';
        for (place, pair) in [fraction / 10_000, fraction / 100 % 100, fraction % 100].into_iter().enumerate() {
            let pair = 2 * pair as usize;
            room[26 + 2 * place..28 + 2 * place].copy_from_slice(&PAIRS[pair..pair + 2]);
        }
        end = 32;
        while room[end - 1] == b'0' {
            end -= 1;
        }
    }
    out.extend_from_slice(&room[at..end]);
}

/// Puts a map with the size and the head of a grid.
pub fn put(name: &str, grid: &Grid, cells: &[Cell]) {
    let mut out = Vec::with_capacity(128 + 22 * cells.len());
    let [x, y, size] = &grid.head;
    for (key, value) in [
        (&b"ncols"[..], grid.cols.to_string().as_bytes()),
        (b"nrows", grid.rows.to_string().as_bytes()),
        (b"xllcorner", x),
        (b"yllcorner", y),
        (b"cellsize", size),
        (b"NODATA_value", b"1e31"),
    ] {
        out.extend_from_slice(key);
        out.push(b' ');
        out.extend_from_slice(value);
        out.push(b'\n');
    }
    for row in cells.chunks(grid.cols) {
        for (place, cell) in row.iter().enumerate() {
            print(*cell, &mut out);
            out.push(if place + 1 == grid.cols { b'\n' } else { b' ' });
        }
    }
    if fs::write(name, &out).is_err() {
        refuse(name);
    }
}
