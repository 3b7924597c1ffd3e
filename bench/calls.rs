//! The calls of `crates/timed_calls` in stock Rust: the same loops over the same 16-byte cells, the best of as many rounds.
//! It prints the lines that `timed_calls` prints for `cells`, `maps`, `tiles`, `table`, `turns`, `drains`, `windows`, `areas`, `sums` and `merges`.

use std::cmp::Reverse;
use std::collections::{BTreeMap, HashMap};
use std::env;
use std::hash::{BuildHasherDefault, Hasher};
use std::hint::black_box;
use std::sync::Mutex;
use std::time::Instant;

#[derive(Clone, Copy, PartialEq)]
enum Cell {
    Mv,
    Val(i64),
}
use Cell::*;

const MOST: i64 = 9_000_000_000_000_000_000;

/// So many cells of a row of drawn numbers, of which one in eleven is missing.
fn drawn(places: usize, step: u64, shift: u32) -> Vec<Cell> {
    let mut number = 12345u64;
    (0..places)
        .map(|_| {
            number = number.wrapping_mul(6364136223846793005).wrapping_add(step);
            if number % 11 == 3 {
                Mv
            } else {
                Val(((number >> shift) % 2_147_483_648) as i64)
            }
        })
        .collect()
}

fn in_range(v: i64) -> bool { -MOST <= v && v <= MOST }

#[inline(never)]
fn add(a: &[Cell], b: &[Cell]) -> (Vec<Cell>, Option<u32>) {
    let mut out = Vec::with_capacity(a.len());
    let mut over = None;
    for (i, (x, y)) in a.iter().zip(b).enumerate() {
        out.push(match (x, y) {
            (Val(x), Val(y)) => match x.checked_add(*y) {
                Some(v) if in_range(v) => Val(v),
                _ => { if over.is_none() { over = Some(i as u32) } Mv }
            },
            _ => Mv,
        });
    }
    (out, over)
}
#[inline(never)]
fn min(a: &[Cell], b: &[Cell]) -> (Vec<Cell>, Option<u32>) {
    let mut out = Vec::with_capacity(a.len());
    for (x, y) in a.iter().zip(b) {
        out.push(match (x, y) { (Val(x), Val(y)) => Val(*x.min(y)), _ => Mv });
    }
    (out, None)
}
#[inline(never)]
fn less(a: &[Cell], b: &[Cell]) -> (Vec<Cell>, Option<u32>) {
    let mut out = Vec::with_capacity(a.len());
    for (x, y) in a.iter().zip(b) {
        out.push(match (x, y) { (Val(x), Val(y)) => Val((x < y) as i64), _ => Mv });
    }
    (out, None)
}
#[inline(never)]
fn choice(c: &[Cell], a: &[Cell], b: &[Cell]) -> (Vec<Cell>, Option<u32>) {
    let mut out = Vec::with_capacity(a.len());
    for ((c, x), y) in c.iter().zip(a).zip(b) {
        out.push(match c { Val(1) => *x, Val(_) => *y, Mv => Mv });
    }
    (out, None)
}
#[inline(never)]
fn scalar(a: &[Cell]) -> (Vec<Cell>, Option<u32>) {
    let mut out = Vec::with_capacity(a.len());
    let mut over = None;
    for (i, x) in a.iter().enumerate() {
        out.push(match x {
            Val(x) => match x.checked_mul(1_000_000) {
                Some(v) if in_range(v) => Val(v),
                _ => { if over.is_none() { over = Some(i as u32) } Mv }
            },
            Mv => Mv,
        });
    }
    (out, over)
}

fn best_of(rounds: usize, mut round: impl FnMut() -> usize) -> (u128, usize) {
    let (mut best, mut sum) = (u128::MAX, 0usize);
    for _ in 0..rounds {
        let start = Instant::now();
        sum = sum.wrapping_add(round());
        best = best.min(start.elapsed().as_nanos());
    }
    (best, sum)
}

fn time_cells(places: usize, rounds: usize) {
    let a = drawn(places, 1442695040888963407, 33);
    let b = drawn(places, 987654321, 33);
    let truth = drawn(places, 1442695040888963407, 63);
    let say = |name: &str, (best, sum): (u128, usize)| println!("{name} {best} {sum}");
    say("add", best_of(rounds, || black_box(add(black_box(&a), black_box(&b))).0.len()));
    say("min", best_of(rounds, || black_box(min(black_box(&a), black_box(&b))).0.len()));
    say("less", best_of(rounds, || black_box(less(black_box(&a), black_box(&b))).0.len()));
    say("if", best_of(rounds, || black_box(choice(black_box(&truth), black_box(&a), black_box(&b))).0.len()));
    say("scalar", best_of(rounds, || black_box(scalar(black_box(&a))).0.len()));
}

const SIDE: usize = 2048;
const TILE: usize = 64;
const ACROSS: usize = SIDE / TILE;

fn cut(cells: &[Cell], top: usize, left: usize, rows: usize, cols: usize) -> Vec<Cell> {
    let mut got = Vec::with_capacity(rows * cols);
    for row in top..top + rows {
        got.extend_from_slice(&cells[row * SIDE + left..row * SIDE + left + cols]);
    }
    got
}

/// The cells of a tile grown by `k` on each side, from the tiles that have them.
fn gather(tiles: &[Vec<Cell>], tile: usize, k: usize) -> Vec<Cell> {
    let (tile_top, tile_left) = (tile / ACROSS * TILE, tile % ACROSS * TILE);
    let (top, left) = (tile_top.saturating_sub(k), tile_left.saturating_sub(k));
    let (rows, cols) = (SIDE.min(tile_top + TILE + k) - top, SIDE.min(tile_left + TILE + k) - left);
    let mut got = Vec::with_capacity(rows * cols);
    for row in top..top + rows {
        let (mut col, mut tile_col) = (left, left / TILE);
        while col < left + cols {
            let end = (left + cols).min((tile_col + 1) * TILE);
            let cells = &tiles[row / TILE * ACROSS + tile_col];
            let start = row % TILE * TILE;
            got.extend_from_slice(&cells[start + col - tile_col * TILE..start + end - tile_col * TILE]);
            (col, tile_col) = (end, tile_col + 1);
        }
    }
    got
}

fn time_tiles() {
    let cells = vec![Val(env::args().count() as i64); SIDE * SIDE];
    let mut into = vec![Val(7); SIDE * SIDE];
    let all = || (0..ACROSS * ACROSS).map(|t| cut(black_box(&cells), t / ACROSS * TILE, t % ACROSS * TILE, TILE, TILE)).collect::<Vec<_>>();
    let tiles = all();
    let (cutting, _) = best_of(20, || black_box(all()).len());
    let (near, _) = best_of(20, || (0..tiles.len()).map(|t| black_box(gather(&tiles, t, 1)).len()).sum());
    let (wide, _) = best_of(20, || (0..tiles.len()).map(|t| black_box(gather(&tiles, t, 15)).len()).sum());
    let (paste, _) = best_of(20, || {
        for (t, part) in tiles.iter().enumerate() {
            let (top, left) = (t / ACROSS * TILE, t % ACROSS * TILE);
            for row in 0..TILE {
                let at = (top + row) * SIDE + left;
                into[at..at + TILE].copy_from_slice(&part[row * TILE..(row + 1) * TILE]);
            }
        }
        black_box(&into).len()
    });
    println!("cut {cutting}\nnear {near}\nwide {wide}\npaste {paste}");
}

/// The first of ten ranges that has the key: a loop over the rows.
fn find(rows: &[(i64, i64, i64)], key: i64) -> Cell {
    rows.iter().find(|row| row.0 <= key && key <= row.1).map_or(Mv, |row| Val(row.2))
}

fn time_table() {
    let rows: Vec<(i64, i64, i64)> = (0..10)
        .map(|n| (n * 1_000_000, n * 1_000_000 + 999_999, if n == 9 { 5_000_000 } else { (n + 1) * 10_000_000 }))
        .collect();
    let mut key = 0i64;
    let (best, _) = best_of(20, || {
        for _ in 0..1_000_000 {
            key = match find(black_box(&rows), key) {
                Val(found) => found.wrapping_mul(7).wrapping_add(key) & 0x7f_ffff,
                Mv => 3_000_001,
            };
        }
        0
    });
    println!("find {best} {key}");
}

/// Turns that nobody contends for: the lock of a mutex, and a job that adds what the one before gave.
fn time_turns() {
    let tally = Mutex::new(0u64);
    let mut number = 1u64;
    let (best, _) = best_of(20, || {
        for n in 0..1_000_000u64 {
            let mut held = black_box(&tally).lock().unwrap();
            *held = held.wrapping_add(number ^ n);
            number = *held;
        }
        0
    });
    println!("turn {best} {number}");
}

const LAST: usize = SIDE - 1;
fn made_code(row: usize, col: usize, drawn: u64) -> Cell {
    Val(match drawn % 4 {
        0 if row < LAST && 0 < col => 1,
        1 if row < LAST => 2,
        2 if row < LAST && col < LAST => 3,
        3 if col < LAST => 6,
        _ => 5,
    })
}
fn spiral_code(row: usize, col: usize) -> Cell {
    let ring = row.min(col).min(LAST - row).min(LAST - col);
    let last = LAST - ring;
    Val(if row == ring && col < last { 6 } else if col == last && row < last { 2 } else if row == last && col > ring { 4 }
        else if row > ring + 1 { 8 } else if ring + 1 < SIDE / 2 { 6 } else { 5 })
}
fn drain_codes(made: bool) -> Vec<Cell> {
    let mut number = 7u64;
    (0..SIDE * SIDE).map(|p| {
        number = number.wrapping_mul(6364136223846793005).wrapping_add(1442695040888963407);
        if made { made_code(p / SIDE, p % SIDE, number >> 32) } else { spiral_code(p / SIDE, p % SIDE) }
    }).collect()
}
enum Next {
    Pit,
    Cell(usize),
    Outside,
    Missing,
}
fn next_cell(codes: &[Cell], p: usize) -> Next {
    match codes[p] {
        Mv => Next::Missing,
        Val(5) => Next::Pit,
        Val(k) => {
            let (r, c) = ((p / SIDE) as i64, (p % SIDE) as i64);
            let (r, c) = (r + 1 - (k - 1) / 3, c + (k - 1) % 3 - 1);
            if 0 <= r && r < SIDE as i64 && 0 <= c && c < SIDE as i64 { Next::Cell(r as usize * SIDE + c as usize) } else { Next::Outside }
        }
    }
}
// a queue from the cells without tributaries: counts of feeding cells, and passing on
#[inline(never)]
fn check(codes: &[Cell]) -> bool {
    let n = codes.len();
    let mut count = vec![0u8; n];
    let mut cells = 0usize;
    for p in 0..n { match next_cell(codes, p) { Next::Cell(d) => { if let Mv = codes[d] { return false; } count[d] += 1; cells += 1 } Next::Pit => cells += 1, Next::Outside => return false, Next::Missing => {} } }
    let mut queue: Vec<u32> = (0..n as u32).filter(|p| count[*p as usize] == 0 && codes[*p as usize] != Mv).collect();
    let mut at = 0;
    while at < queue.len() {
        if let Next::Cell(d) = next_cell(codes, queue[at] as usize) { count[d] -= 1; if count[d] == 0 { queue.push(d as u32) } }
        at += 1;
    }
    queue.len() == cells
}
/// Where the cell drains to, by its code alone: of a map that is sound.
fn down(code: Cell, p: usize) -> Option<usize> {
    match code {
        Mv | Val(5) => None,
        Val(k) => Some(p + SIDE * (3 - (k as usize - 1) / 3) + (k as usize - 1) % 3 - 2 * SIDE - 1),
    }
}
// down each chain as long as the last feeding cell is done: no order is stored, and what came is carried along
#[inline(never)]
fn accuflux(codes: &[Cell], a: i64) -> (Vec<Cell>, Option<u32>) {
    const DONE: u8 = 255;
    let n = codes.len();
    let mut count = vec![0u8; n];
    for (p, code) in codes.iter().enumerate() {
        if let Some(d) = down(*code, p) { count[d] += 1 }
    }
    let mut sums = vec![0i128; n];
    let mut out = vec![Mv; n];
    let mut over: Option<u32> = None;
    for start in 0..n {
        if count[start] != 0 || codes[start] == Mv { continue }
        let (mut p, mut came) = (start, 0i128);
        loop {
            count[p] = DONE;
            let total = came + a as i128;
            out[p] = if -(MOST as i128) <= total && total <= MOST as i128 { Val(total as i64) } else { over = Some(over.map_or(p as u32, |o| o.min(p as u32))); Mv };
            let Some(d) = down(codes[p], p) else { break };
            came = sums[d] + total;
            if count[d] > 1 { count[d] -= 1; sums[d] = came; break }
            p = d;
        }
    }
    (out, over)
}
fn time_drains() {
    for (name, made) in [("made", true), ("spiral", false)] {
        let (mut checked, mut flowed, mut sum) = (u128::MAX, u128::MAX, 0i64);
        for _ in 0..5 {
            let codes = drain_codes(made);
            let start = Instant::now();
            assert!(black_box(check(&codes)));
            checked = checked.min(start.elapsed().as_nanos());
            let start = Instant::now();
            let (out, _) = accuflux(&codes, 1);
            sum = out.iter().fold(0i64, |t, x| if let Val(v) = x { t.wrapping_add(*v) } else { t });
            flowed = flowed.min(start.elapsed().as_nanos());
        }
        println!("{name}_check {checked} {sum}");
        println!("{name}_accuflux {flowed} {sum}");
    }
}

type Windows = (Vec<Cell>, Option<u32>);
/// The cells that numbers make, and the first place out of range.
struct Made { cells: Vec<Cell>, over: Option<u32> }
impl Made {
    fn new(len: usize) -> Made { Made { cells: Vec::with_capacity(len), over: None } }
    fn push(&mut self, number: Option<i128>) {
        let cell = match number {
            None => Mv,
            Some(v) if -(MOST as i128) <= v && v <= MOST as i128 => Val(v as i64),
            Some(_) => { if self.over.is_none() { self.over = Some(self.cells.len() as u32) } Mv }
        };
        self.cells.push(cell);
    }
    fn end(self) -> Windows { (self.cells, self.over) }
}
fn sum_and_count(made: &mut (i128, u32), v: i64) { made.0 += v as i128; made.1 += 1; }

/// What is made of the sum and the number of the values in each window: the sums of the columns run down the rows, and that of the window along them.
fn window_sums(a: &[Cell], k: usize, end: impl Fn(i128, u32) -> i128) -> Windows {
    let mut made = Made::new(a.len());
    let mut columns = vec![(0i128, 0u32); SIDE];
    let row_of = |row: usize| &a[row * SIDE..(row + 1) * SIDE];
    let take = |columns: &mut [(i128, u32)], row: usize| {
        for (column, cell) in columns.iter_mut().zip(row_of(row)) { if let Val(v) = cell { sum_and_count(column, *v) } }
    };
    for row in 0..k.min(SIDE) { take(&mut columns, row) }
    for row in 0..SIDE {
        if row + k < SIDE { take(&mut columns, row + k) }
        if row > k {
            for (column, cell) in columns.iter_mut().zip(row_of(row - k - 1)) { if let Val(v) = cell { column.0 -= *v as i128; column.1 -= 1 } }
        }
        let (mut sum, mut count) = (0i128, 0u32);
        for column in &columns[..k.min(SIDE)] { sum += column.0; count += column.1 }
        for col in 0..SIDE {
            if col + k < SIDE { sum += columns[col + k].0; count += columns[col + k].1 }
            if col > k { sum -= columns[col - k - 1].0; count -= columns[col - k - 1].1 }
            made.push((count > 0).then(|| end(sum, count)));
        }
    }
    made.end()
}
#[inline(never)]
fn window_total(a: &[Cell], k: usize) -> Windows { window_sums(a, k, |sum, _| sum) }
#[inline(never)]
fn window_average(a: &[Cell], k: usize) -> Windows {
    window_sums(a, k, |sum, count| {
        let size = ((sum.unsigned_abs() + count as u128 / 2) / count as u128) as i128;
        if sum < 0 { -size } else { size }
    })
}

/// The least of each line of lines and the `k` on both sides, in place, by the least from the front and from the back of blocks of a window's length.
fn slide_least(lines: &mut Vec<Vec<i64>>, k: usize) {
    let (count, width) = (lines.len(), 2 * k + 1);
    let least = |a: &[i64], b: &[i64]| a.iter().zip(b).map(|(x, y)| *x.min(y)).collect::<Vec<i64>>();
    let mut front: Vec<Vec<i64>> = Vec::with_capacity(count);
    for (at, line) in lines.iter().enumerate() {
        let next = if at % width == 0 { line.clone() } else { least(&front[at - 1], line) };
        front.push(next);
    }
    let mut back = std::mem::take(lines);
    for at in (0..count - 1).rev() { if (at + 1) % width != 0 { back[at] = least(&back[at], &back[at + 1]) } }
    *lines = (0..count).map(|at| {
        let (from, to) = (at.saturating_sub(k), (at + k).min(count - 1));
        if from / width != to / width { least(&back[from], &front[to]) } else if from % width == 0 { front[to].clone() } else { back[from].clone() }
    }).collect();
}
/// The least of each number and the `k` on both sides.
fn slide_row(row: &mut [i64], k: usize, front: &mut Vec<i64>, back: &mut Vec<i64>) {
    let (count, width) = (row.len(), 2 * k + 1);
    front.clear();
    back.clear();
    back.extend_from_slice(row);
    for at in 0..count { front.push(if at % width == 0 { row[at] } else { row[at].min(front[at - 1]) }) }
    for at in (0..count - 1).rev() { if (at + 1) % width != 0 { back[at] = back[at].min(back[at + 1]) } }
    for at in 0..count {
        let (from, to) = (at.saturating_sub(k), (at + k).min(count - 1));
        row[at] = if from / width != to / width { back[from].min(front[to]) } else if from % width == 0 { front[to] } else { back[from] };
    }
}
#[inline(never)]
fn window_minimum(a: &[Cell], k: usize) -> Windows {
    let number = |cell: &Cell| if let Val(v) = cell { *v } else { i64::MAX };
    let mut lines: Vec<Vec<i64>> = a.chunks(SIDE).map(|row| row.iter().map(number).collect()).collect();
    slide_least(&mut lines, k);
    let mut made = Made::new(a.len());
    let (mut front, mut back) = (Vec::new(), Vec::new());
    for mut line in lines {
        slide_row(&mut line, k, &mut front, &mut back);
        for v in line { made.push((v != i64::MAX).then_some(v as i128)) }
    }
    made.end()
}

/// A hash of one multiplication.
#[derive(Default)]
struct Fast(u64);
impl Hasher for Fast {
    fn finish(&self) -> u64 { self.0 }
    fn write(&mut self, bytes: &[u8]) { for byte in bytes { self.write_u64(*byte as u64) } }
    fn write_u64(&mut self, n: u64) { self.0 = (self.0 ^ n).wrapping_mul(0x9e37_79b9_7f4a_7c15).rotate_left(26) }
    fn write_i64(&mut self, n: i64) { self.write_u64(n as u64) }
}
type Counts = HashMap<i64, u32, BuildHasherDefault<Fast>>;
/// What is made of how often each value stands in a window: counts that slide along a row, a column in and another one out.
fn window_counts(a: &[Cell], k: usize, end: impl Fn(&Counts) -> Option<i128>) -> Windows {
    let mut made = Made::new(a.len());
    let mut counts = Counts::default();
    for row in 0..SIDE {
        counts.clear();
        let rows = row.saturating_sub(k)..SIDE.min(row + k + 1);
        let take = |counts: &mut Counts, col: usize| {
            for r in rows.clone() { if let Val(v) = a[r * SIDE + col] { *counts.entry(v).or_insert(0) += 1 } }
        };
        let leave = |counts: &mut Counts, col: usize| {
            for r in rows.clone() {
                if let Val(v) = a[r * SIDE + col] {
                    let count = counts.get_mut(&v).unwrap();
                    *count -= 1;
                    if *count == 0 { counts.remove(&v); }
                }
            }
        };
        for col in 0..k.min(SIDE) { take(&mut counts, col) }
        for col in 0..SIDE {
            if col + k < SIDE { take(&mut counts, col + k) }
            if col > k { leave(&mut counts, col - k - 1) }
            made.push(end(&counts));
        }
    }
    made.end()
}
#[inline(never)]
fn window_diversity(a: &[Cell], k: usize) -> Windows {
    window_counts(a, k, |counts| (!counts.is_empty()).then(|| counts.len() as i128 * 1_000_000))
}
#[inline(never)]
fn window_majority(a: &[Cell], k: usize) -> Windows {
    window_counts(a, k, |counts| counts.iter().max_by_key(|(v, n)| (**n, Reverse(**v))).map(|(v, _)| *v as i128))
}
fn time_windows() {
    let cells = drawn(SIDE * SIDE, 1442695040888963407, 33);
    let classes = drawn(SIDE * SIDE, 1442695040888963407, 60);
    let say = |name: &str, rounds: usize, op: fn(&[Cell], usize) -> Windows, k: usize, a: &[Cell]| {
        let (best, sum) = best_of(rounds, || black_box(op(black_box(a), k)).0.len());
        println!("{name} {best} {sum}");
    };
    say("total_near", 5, window_total, 1, &cells);
    say("total_wide", 5, window_total, 15, &cells);
    say("average_near", 5, window_average, 1, &cells);
    say("average_wide", 5, window_average, 15, &cells);
    say("minimum_near", 5, window_minimum, 1, &cells);
    say("minimum_wide", 5, window_minimum, 15, &cells);
    say("diversity_near", 2, window_diversity, 1, &classes);
    say("diversity_wide", 1, window_diversity, 15, &classes);
    say("majority_near", 2, window_majority, 1, &classes);
    say("majority_wide", 1, window_majority, 15, &classes);
}

/// The average of each class of a map, at each of its cells, and then a pass that spreads. What is kept of classes that lie close together
/// stands in an array by their numbers, of others in an ordered map.
#[inline(never)]
fn area_average(a: &[Cell], classes: &[Cell]) -> (Vec<Cell>, Option<u32>) {
    const SPAN: i64 = 1 << 16;
    let numbers = || classes.iter().filter_map(|class| if let Val(class) = class { Some(*class) } else { None });
    let (least, most) = (numbers().min().unwrap_or(0), numbers().max().unwrap_or(0));
    let average = |(total, count): (i128, u32)| (count > 0).then(|| {
        let size = ((total.unsigned_abs() + count as u128 / 2) / count as u128) as i128;
        if total < 0 { -size } else { size }
    });
    let pairs = a.iter().zip(classes);
    if most.checked_sub(least).is_some_and(|span| span < SPAN) {
        let mut sums = vec![(0i128, 0u32); (most - least + 1) as usize];
        for pair in pairs {
            if let (Val(v), Val(class)) = pair { sum_and_count(&mut sums[(class - least) as usize], *v) }
        }
        let averages: Vec<Option<i128>> = sums.into_iter().map(average).collect();
        return spread(classes, |class| averages[(class - least) as usize]);
    }
    let mut sums: BTreeMap<i64, (i128, u32)> = BTreeMap::new();
    for pair in pairs {
        if let (Val(v), Val(class)) = pair { sum_and_count(sums.entry(*class).or_insert((0, 0)), *v) }
    }
    let averages: BTreeMap<i64, Option<i128>> = sums.into_iter().map(|(class, sum)| (class, average(sum))).collect();
    spread(classes, |class| averages.get(&class).copied().flatten())
}
/// What is known of each class, at each place.
fn spread(classes: &[Cell], found: impl Fn(i64) -> Option<i128>) -> (Vec<Cell>, Option<u32>) {
    let mut over = None;
    let mut cells = Vec::with_capacity(classes.len());
    for (i, class) in classes.iter().enumerate() {
        cells.push(match class {
            Mv => Mv,
            Val(class) => match found(*class) {
                None => Mv,
                Some(v) if -(MOST as i128) <= v && v <= MOST as i128 => Val(v as i64),
                Some(_) => { if over.is_none() { over = Some(i as u32) } Mv }
            },
        });
    }
    (cells, over)
}
fn time_areas() {
    let cells = drawn(SIDE * SIDE, 1442695040888963407, 33);
    for (name, shift) in [("average_few", 60), ("average_many", 54)] {
        let classes = drawn(SIDE * SIDE, 987654321, shift);
        let (best, sum) = best_of(5, || black_box(area_average(black_box(&cells), black_box(&classes))).0.len());
        println!("{name} {best} {sum}");
    }
}

/// The sums and counts of the classes of some cells.
fn share(a: &[Cell], classes: &[Cell]) -> BTreeMap<i64, (i128, u32)> {
    let mut sums = BTreeMap::new();
    for pair in a.iter().zip(classes) {
        if let (Val(v), Val(class)) = pair { sum_and_count(sums.entry(*class).or_insert((0, 0)), *v) }
    }
    sums
}
fn merge(total: &mut BTreeMap<i64, (i128, u32)>, share: &BTreeMap<i64, (i128, u32)>) {
    for (class, (sum, count)) in share {
        let of = total.entry(*class).or_insert((0, 0));
        of.0 += sum;
        of.1 += count;
    }
}
fn time_sums() {
    let a = drawn(4096, 1442695040888963407, 33);
    let b = drawn(4096, 987654321, 33);
    let (best, sum) = best_of(200, || {
        let mut sum = add(black_box(&a), black_box(&b)).0;
        for _ in 0..99 { sum = add(&sum, black_box(&b)).0 }
        sum.len()
    });
    println!("sums {best} {sum}");
}
fn time_merges() {
    let cells = drawn(SIDE * SIDE, 1442695040888963407, 33);
    let apart: Vec<Cell> = (0..SIDE * SIDE).map(|place| Val(place as i64 / 64)).collect();
    let mixed = drawn(SIDE * SIDE, 987654321, 48);
    for (name, classes) in [("merge_apart", apart), ("merge_drawn", mixed)] {
        let mut best = u128::MAX;
        let mut gave = 0;
        for _ in 0..3 {
            let mut took = 0;
            let mut total = BTreeMap::new();
            for tile in 0..1024 {
                let part = tile * 4096..tile * 4096 + 4096;
                let share = share(&cells[part.clone()], &classes[part]);
                let start = Instant::now();
                merge(black_box(&mut total), black_box(&share));
                took += start.elapsed().as_nanos();
            }
            best = best.min(took);
            gave += spread(&classes[..4096], |class| total.get(&class).map(|of| of.0)).0.len();
        }
        println!("{name} {best} {gave}");
    }
}

fn main() {
    match env::args().nth(1).as_deref() {
        Some("cells") => time_cells(100_000, 200),
        Some("maps") => time_cells(2048 * 2048, 5),
        Some("tiles") => time_tiles(),
        Some("table") => time_table(),
        Some("turns") => time_turns(),
        Some("drains") => time_drains(),
        Some("windows") => time_windows(),
        Some("areas") => time_areas(),
        Some("sums") => time_sums(),
        Some("merges") => time_merges(),
        _ => println!("tiles | cells | maps | table | turns | drains | windows | areas | sums | merges"),
    }
}
