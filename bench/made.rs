//! The files of a made model in stock Rust, as a yardstick of `make NUMBER`: the same five files, in the folder where it runs.
//! Cells are made first, as 16-byte cells, and then printed, each grid as one text.

use std::fs;

/// A cell, as the program has it: a value, or none.
#[derive(Clone, Copy)]
enum Cell {
    #[allow(dead_code)]
    Mv,
    Val(i64),
}

const SIDE: usize = 512;
const HEAD: &str = "ncols 512\nnrows 512\nxllcorner 0\nyllcorner 0\ncellsize 1\nNODATA_value 1e31\n";
const SCRIPT: &str = "binding\nLdd = made_ldd.asc : ldd;\nZone = made_zone.asc : nominal;\nSoil = made_soil.asc;\n\
    Rain = made_rain.tss;\nQ = q;\nT = made_q.tss;\nareamap Ldd;\ntimer 1 4 1;\ninitial\nStore = 0;\ndynamic\n\
    Wet = timeinputscalar(Rain, Zone) + windowaverage(Soil, 3);\nStore = Store + accuthresholdstate(Ldd, Wet, Soil);\n\
    report Q = accuthresholdflux(Ldd, Wet, Soil);\nreport Mean = areaaverage(Wet, Zone);\nreport T = timeoutput(Zone, Q);\n";

/// The draws that follow on a number: the upper half of each state.
struct Draws(u64);

impl Draws {
    fn draw(&mut self) -> u32 {
        self.0 = self.0.wrapping_mul(6_364_136_223_846_793_005).wrapping_add(1_442_695_040_888_963_407);
        (self.0 >> 32) as u32
    }
}

/// A direction that is drawn, or a pit where it leads out of the map.
fn drain(row: usize, col: usize, drawn: u32) -> i64 {
    let (last_row, last_col) = (row + 1 == SIDE, col + 1 == SIDE);
    match drawn % 4 {
        0 if !last_row && col > 0 => 1,
        1 if !last_row => 2,
        2 if !last_row && !last_col => 3,
        3 if !last_col => 6,
        _ => 5,
    }
}

/// Prints hundredths.
fn print_hundredths(n: i64, out: &mut Vec<u8>) {
    out.extend_from_slice(itoa(n / 100, &mut [0; 20]));
    match n % 100 {
        0 => {}
        n if n % 10 == 0 => out.extend_from_slice(&[b'.', b'0' + (n / 10) as u8]),
        n => out.extend_from_slice(&[b'.', b'0' + (n / 10) as u8, b'0' + (n % 10) as u8]),
    }
}

/// The digits of a number.
fn itoa(mut n: i64, digits: &mut [u8; 20]) -> &[u8] {
    let mut at = digits.len();
    loop {
        at -= 1;
        digits[at] = b'0' + (n % 10) as u8;
        n /= 10;
        if n == 0 {
            return &digits[at..];
        }
    }
}

/// The text of a grid.
fn text(cells: &[Cell], print: impl Fn(i64, &mut Vec<u8>)) -> Vec<u8> {
    let mut out = Vec::with_capacity(HEAD.len() + cells.len() * 5);
    out.extend_from_slice(HEAD.as_bytes());
    for row in cells.chunks_exact(SIDE) {
        for (col, cell) in row.iter().enumerate() {
            if col > 0 {
                out.push(b' ');
            }
            if let Cell::Val(value) = cell {
                print(*value, &mut out);
            }
        }
        out.push(b'\n');
    }
    out
}

fn main() {
    let mut draws = Draws(std::env::args().nth(1).and_then(|word| word.parse::<u32>().ok()).unwrap_or(7) as u64);
    let mut drains = Vec::with_capacity(SIDE * SIDE);
    let mut zones = Vec::with_capacity(SIDE * SIDE);
    let mut soils = Vec::with_capacity(SIDE * SIDE);
    for row in 0..SIDE {
        for col in 0..SIDE {
            let drawn = draws.draw();
            drains.push(Cell::Val(drain(row, col, drawn)));
            zones.push(Cell::Val(1 + 2 * (row >= SIDE / 2) as i64 + (col >= SIDE / 2) as i64));
            soils.push(Cell::Val((drawn / 4 % 1000) as i64));
        }
    }
    let whole = |n: i64, out: &mut Vec<u8>| out.extend_from_slice(itoa(n, &mut [0; 20]));
    let mut rain = String::from("timeseries scalar\n5\ntimestep\n1\n2\n3\n4\n");
    for step in 1..=4 {
        rain.push_str(&step.to_string());
        for _ in 0..4 {
            rain.push_str(&format!(" {}", draws.draw() % 10));
        }
        rain.push('\n');
    }
    let files = [
        ("made.mod", SCRIPT.as_bytes().to_vec()),
        ("made_ldd.asc", text(&drains, whole)),
        ("made_zone.asc", text(&zones, whole)),
        ("made_soil.asc", text(&soils, print_hundredths)),
        ("made_rain.tss", rain.into_bytes()),
    ];
    for (name, bytes) in files {
        fs::write(name, bytes).expect(name);
    }
}
