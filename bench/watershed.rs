//! The work of the made watershed in stock Rust, as a yardstick: rain by zones over four steps, soils smoothed by windows, what
//! a threshold keeps and what flows on along drain directions, means by zones, and a time series. Each operation is one loop
//! over whole maps of the same 16-byte cells, in the order of the script; little is checked. Where cells drain to is found once.
//! On standard error it says how long each part took.

mod grids;

use grids::{Cell, MOST, front_millionths, print, put, read, refuse};
use std::fs;
use std::time::{Duration, Instant};

const PIT: u32 = u32::MAX;

/// The numbers of a cell in kinds without a fraction: grids are read as millionths.
fn whole(cell: Cell) -> Option<i64> {
    match cell {
        Cell::Val(value) => Some(value / 1_000_000),
        Cell::Mv => None,
    }
}

fn in_range(value: i128) -> Cell {
    if (-(MOST as i128)..=MOST as i128).contains(&value) {
        Cell::Val(value as i64)
    } else {
        refuse("overflow")
    }
}

/// Where each cell drains to, and how many cells drain into it.
struct Drains {
    next: Vec<u32>,
    feeders: Vec<u8>,
}

fn drains(cells: &[Cell], rows: usize, cols: usize) -> Drains {
    let mut next = vec![PIT; cells.len()];
    let mut feeders = vec![0u8; cells.len()];
    for place in 0..cells.len() {
        let Some(code) = whole(cells[place]) else { refuse("ldd") };
        if code == 5 {
            continue;
        }
        let (row, col) = ((place / cols) as i64, (place % cols) as i64);
        let (row, col) = (row + 1 - (code - 1) / 3, col + (code - 1) % 3 - 1);
        if row < 0 || col < 0 || row >= rows as i64 || col >= cols as i64 {
            refuse("unsound");
        }
        next[place] = (row as usize * cols + col as usize) as u32;
        feeders[next[place] as usize] += 1;
    }
    let drains = Drains { next, feeders };
    let mut found = 0;
    walk(&drains, |_| found += 1);
    if found != cells.len() {
        refuse("unsound");
    }
    drains
}

/// Goes down each chain as long as the last feeding cell is done, so that each cell comes behind all that drain into it.
fn walk(drains: &Drains, mut visit: impl FnMut(usize)) {
    const DONE: u8 = u8::MAX;
    let mut waits = drains.feeders.clone();
    for start in 0..waits.len() {
        let mut place = start;
        while waits[place] == 0 {
            waits[place] = DONE;
            visit(place);
            let down = drains.next[place];
            if down == PIT {
                break;
            }
            place = down as usize;
            waits[place] -= 1;
        }
    }
}

/// What flows on above a threshold, or what it keeps.
fn threshold(drains: &Drains, material: &[Cell], least: &[Cell], kept: bool) -> Vec<Cell> {
    let mut inflow: Vec<Option<i128>> = vec![Some(0); material.len()];
    let mut results = vec![Cell::Mv; material.len()];
    walk(drains, |place| {
        let (mut out, mut result) = (None, Cell::Mv);
        if let (Some(inflow), Cell::Val(own), Cell::Val(least)) = (inflow[place], material[place], least[place]) {
            let total = inflow + own as i128;
            let above = (total - least as i128).max(0);
            out = Some(above);
            result = in_range(if kept { total - above } else { above });
        }
        results[place] = result;
        let down = drains.next[place];
        if down != PIT {
            let down = &mut inflow[down as usize];
            *down = match (*down, out) {
                (Some(a), Some(b)) => Some(a + b),
                _ => None,
            };
        }
    });
    results
}

fn rounded(sum: i128, count: i128) -> i128 {
    let half = if sum < 0 { -(count / 2) } else { count / 2 };
    (sum + half) / count
}

/// The means of the cells round each place, three by three, without the missing ones: the sums of the columns, of which each window takes three.
fn window_means(cells: &[Cell], rows: usize, cols: usize) -> Vec<Cell> {
    let mut means = Vec::with_capacity(cells.len());
    let mut columns = vec![(0i128, 0i128); cols];
    for row in 0..rows {
        columns.fill((0, 0));
        for r in row.saturating_sub(1)..(row + 2).min(rows) {
            for (column, cell) in columns.iter_mut().zip(&cells[r * cols..(r + 1) * cols]) {
                if let Cell::Val(value) = cell {
                    column.0 += *value as i128;
                    column.1 += 1;
                }
            }
        }
        for col in 0..cols {
            let window = &columns[col.saturating_sub(1)..(col + 2).min(cols)];
            let (sum, count) = window.iter().fold((0, 0), |all, column| (all.0 + column.0, all.1 + column.1));
            means.push(if count == 0 { Cell::Mv } else { in_range(rounded(sum, count)) });
        }
    }
    means
}

/// The means of the cells of each zone. Zones lie close together, so their sums stand in an array by the zones' numbers.
fn zone_means(cells: &[Cell], zones: &[Cell]) -> Vec<Cell> {
    let zones: Vec<Option<i64>> = zones.iter().map(|zone| whole(*zone)).collect();
    let (least, most) = (zones.iter().flatten().min().copied().unwrap_or(0), zones.iter().flatten().max().copied().unwrap_or(0));
    if most - least > 1 << 20 {
        refuse("zones");
    }
    let mut sums = vec![(0i128, 0i128); (most - least + 1) as usize];
    for (cell, zone) in cells.iter().zip(&zones) {
        if let (Cell::Val(value), Some(zone)) = (cell, zone) {
            let sum = &mut sums[(zone - least) as usize];
            sum.0 += *value as i128;
            sum.1 += 1;
        }
    }
    let means: Vec<Cell> = sums.into_iter().map(|(sum, count)| if count == 0 { Cell::Mv } else { in_range(rounded(sum, count)) }).collect();
    zones.iter().map(|zone| zone.map_or(Cell::Mv, |zone| means[(zone - least) as usize])).collect()
}

fn added(a: &[Cell], b: &[Cell]) -> Vec<Cell> {
    a.iter()
        .zip(b)
        .map(|(a, b)| match (a, b) {
            (Cell::Val(a), Cell::Val(b)) => in_range(*a as i128 + *b as i128),
            _ => Cell::Mv,
        })
        .collect()
}

/// The values of each step of the series, by column.
fn series(name: &str) -> Vec<Vec<i64>> {
    let Ok(text) = fs::read_to_string(name) else { refuse(name) };
    let columns: usize = text.lines().nth(1).and_then(|line| line.parse().ok()).unwrap_or(0);
    let number = |token: &str| front_millionths(token.as_bytes()).map_or(0, |front| front.0);
    text.lines().skip(2 + columns).map(|line| line.split_whitespace().skip(1).map(number).collect()).collect()
}

/// The time that each part took.
struct Parts(Vec<(&'static str, Duration)>);

impl Parts {
    fn of<T>(&mut self, name: &'static str, work: impl FnOnce() -> T) -> T {
        let begin = Instant::now();
        let value = work();
        let took = begin.elapsed();
        match self.0.iter_mut().find(|part| part.0 == name) {
            Some(part) => part.1 += took,
            None => self.0.push((name, took)),
        }
        value
    }
}

fn main() {
    let mut parts = Parts(Vec::new());
    let ldd = parts.of("reading", || read("made_ldd.asc"));
    let zone = parts.of("reading", || read("made_zone.asc"));
    let soil = parts.of("reading", || read("made_soil.asc"));
    let rain = series("made_rain.tss");
    let (rows, cols) = (ldd.rows, ldd.cols);
    let drains = parts.of("drain directions", || drains(&ldd.cells, rows, cols));
    let mut store: Vec<Cell> = vec![Cell::Val(0); rows * cols];
    let mut firsts: Vec<(i64, usize)> = Vec::new();
    for (place, zone) in zone.cells.iter().enumerate() {
        if let Some(zone) = whole(*zone).filter(|zone| *zone > 0 && firsts.iter().all(|first| first.0 != *zone)) {
            firsts.push((zone, place));
        }
    }
    firsts.sort();
    let mut lines = format!("timeseries scalar\n{}\ntimestep\n", firsts.len() + 1).into_bytes();
    for (zone, _) in &firsts {
        lines.extend_from_slice(format!("{zone}\n").as_bytes());
    }
    for (step, row) in rain.iter().enumerate().map(|(at, row)| (at + 1, row)) {
        let fallen: Vec<Cell> = parts.of("cells", || {
            zone.cells.iter().map(|zone| whole(*zone).and_then(|id| row.get((id - 1) as usize)).map_or(Cell::Mv, |v| Cell::Val(*v))).collect()
        });
        let smooth = parts.of("windows", || window_means(&soil.cells, rows, cols));
        let wet = parts.of("cells", || added(&fallen, &smooth));
        drop((fallen, smooth));
        let kept = parts.of("transports", || threshold(&drains, &wet, &soil.cells, true));
        store = parts.of("cells", || added(&store, &kept));
        drop(kept);
        let q = parts.of("transports", || threshold(&drains, &wet, &soil.cells, false));
        let mean = parts.of("areas", || zone_means(&wet, &zone.cells));
        parts.of("writing", || put(&format!("q0000000.{step:03}"), &ldd, &q));
        parts.of("writing", || put(&format!("Mean0000.{step:03}"), &ldd, &mean));
        lines.extend_from_slice(step.to_string().as_bytes());
        for (_, place) in &firsts {
            lines.push(b' ');
            print(q[*place], &mut lines);
        }
        lines.push(b'\n');
    }
    if fs::write("made_q.tss", &lines).is_err() {
        refuse("made_q.tss");
    }
    println!("done files={} steps={}", 2 * rain.len() + 1, rain.len());
    for (name, took) in &parts.0 {
        eprintln!("{name} {:.4}", took.as_secs_f64());
    }
}
