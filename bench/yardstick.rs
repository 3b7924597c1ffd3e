//! The work of the sum of two maps in stock Rust, as a yardstick: it reads the grids `a.asc` and `b.asc` of the current
//! folder, adds them cell by cell and writes `C`. It takes what the grids of `scripts/bench` hold and checks little:
//! what is to be compared is the time of reading, adding and printing the same 16-byte cells.

mod grids;

use grids::{Cell, MOST, put, read, refuse};

fn add(a: Cell, b: Cell) -> Cell {
    match (a, b) {
        (Cell::Val(a), Cell::Val(b)) => match a.checked_add(b) {
            Some(sum) if (-MOST..=MOST).contains(&sum) => Cell::Val(sum),
            _ => refuse("overflow"),
        },
        _ => Cell::Mv,
    }
}

fn main() {
    let a = read("a.asc");
    let b = read("b.asc");
    if (a.rows, a.cols) != (b.rows, b.cols) {
        refuse("size");
    }
    let sums: Vec<Cell> = a.cells.iter().zip(&b.cells).map(|(a, b)| add(*a, *b)).collect();
    put("C", &a, &sums);
    println!("done files=1 steps=0");
}
