//! The same walk as `tile_walk` in plain Rust, and the same segments as `crates/bench_walk`: it takes
//! its words, and with the word `quotients` more a form that divides once for each column.

use std::env;

#[derive(Clone, Copy)]
struct TileId {
    i: i32,
    j: i32,
}

#[derive(Clone, Copy)]
struct Point {
    x: i64,
    y: i64,
}

/// A named segment of 48 bytes, its lesser end first.
#[derive(Clone, Copy)]
struct Ur {
    _name: (u8, u16),
    p: Point,
    q: Point,
}

fn tile_of(side: i64, at: Point) -> TileId {
    TileId { i: at.x.div_euclid(side) as i32, j: at.y.div_euclid(side) as i32 }
}

fn push_column(out: &mut Vec<TileId>, falls: bool, i: i32, from: i32, to: i32) {
    if falls {
        for j in (to..=from).rev() { out.push(TileId { i, j }) }
    } else {
        for j in from..=to { out.push(TileId { i, j }) }
    }
}

fn height(s: &Ur, side: i64, column: i64) -> i64 {
    (s.q.y - s.p.y) * (2 * (side * column - s.p.x) - 1) + (s.q.x - s.p.x) * (2 * s.p.y + 1)
}

/// The row and the height above it are carried from border to border.
fn push_tiles(out: &mut Vec<TileId>, s: &Ur, side: i64) {
    let (first, last) = (tile_of(side, s.p), tile_of(side, s.q));
    let falls = s.q.y < s.p.y;
    out.reserve((last.i - first.i) as usize + first.j.abs_diff(last.j) as usize + 1);
    if first.i == last.i {
        return push_column(out, falls, last.i, first.j, last.j);
    }
    let (dx, dy) = (s.q.x - s.p.x, s.q.y - s.p.y);
    let tile = 2 * side * dx;
    let start = height(s, side, i64::from(first.i) + 1);
    let (mut row, mut above) = (start.div_euclid(tile), start.rem_euclid(tile));
    let (rows, rest) = ((2 * side * dy).div_euclid(tile), (2 * side * dy).rem_euclid(tile));
    let mut entry = first.j;
    for i in first.i..last.i {
        let through_corner = above == 0 && !falls;
        push_column(out, falls, i, entry, (row - i64::from(through_corner)) as i32);
        entry = row as i32;
        row += rows;
        above += rest;
        if above >= tile {
            row += 1;
            above -= tile;
        }
    }
    push_column(out, falls, last.i, entry, last.j);
}

/// The row at each border is a quotient of its own.
fn push_tiles_by_quotients(out: &mut Vec<TileId>, s: &Ur, side: i64) {
    let (first, last) = (tile_of(side, s.p), tile_of(side, s.q));
    let falls = s.q.y < s.p.y;
    out.reserve((last.i - first.i) as usize + first.j.abs_diff(last.j) as usize + 1);
    if first.i == last.i {
        return push_column(out, falls, last.i, first.j, last.j);
    }
    let tile = 2 * side * (s.q.x - s.p.x);
    let mut at = height(s, side, i64::from(first.i) + 1);
    let mut entry = first.j;
    for i in first.i..last.i {
        let row = at.div_euclid(tile);
        let through_corner = row * tile == at && !falls;
        push_column(out, falls, i, entry, (row - i64::from(through_corner)) as i32);
        entry = row as i32;
        at += 2 * side * (s.q.y - s.p.y);
    }
    push_column(out, falls, last.i, entry, last.j);
}

struct Draws {
    last: u32,
}

impl Draws {
    fn next(&mut self) -> i64 {
        self.last = (u64::from(self.last) * 48_271 % 2_147_483_647) as u32;
        i64::from(self.last)
    }

    fn segment(&mut self, long: bool) -> Option<Ur> {
        let (a, b, c, d) = (self.next(), self.next(), self.next(), self.next());
        let (p, q) = if long {
            let anywhere = |x, y| Point { x: x % 2_097_153 - 1_048_576, y: y % 2_097_153 - 1_048_576 };
            (anywhere(a, b), anywhere(c, d))
        } else {
            let p = Point { x: a % 4096, y: b % 4096 };
            (p, Point { x: p.x + c % 401 - 200, y: p.y + d % 401 - 200 })
        };
        match (p.x, p.y).cmp(&(q.x, q.y)) {
            std::cmp::Ordering::Less => Some(Ur { _name: (1, 1), p, q }),
            std::cmp::Ordering::Equal => None,
            std::cmp::Ordering::Greater => Some(Ur { _name: (1, 1), p: q, q: p }),
        }
    }
}

fn main() {
    let words: Vec<String> = env::args().collect();
    let count: u32 = words[1].parse().unwrap();
    let (long, reused) = (words[2] == "long", words[3] == "reused");
    let walk = if words.len() > 4 { push_tiles_by_quotients } else { push_tiles };
    let side = std::hint::black_box(256);
    let mut draws = Draws { last: 1 };
    let (mut met, mut upper_right) = (0, 0);
    let mut list: Vec<TileId> = Vec::new();
    for _ in 0..count {
        let Some(s) = draws.segment(long) else { continue };
        if reused {
            list.clear();
        } else {
            list = Vec::new();
        }
        walk(&mut list, &s, side);
        met += list.len();
        let middle = list[list.len() / 2];
        upper_right += usize::from(middle.i > 0 && middle.j > 0);
    }
    println!("{met} tiles, {upper_right} middle ones to the right of and above (0, 0)");
}
