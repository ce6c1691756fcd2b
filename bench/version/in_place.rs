//! The same drawings as `crates/bench_version` makes, in plain Rust that changes everything in place and
//! keeps no version: tiles in a hash map, each with its segments, the passes of each in order, and its
//! hot pixels with counts. It takes the words of `bench_version` and prints the same counts.

use std::collections::HashMap;
use std::hash::{BuildHasherDefault, Hasher};

#[derive(Default)]
struct Mix(u64);

impl Hasher for Mix {
    fn finish(&self) -> u64 {
        self.0
    }

    fn write(&mut self, _bytes: &[u8]) {
        unreachable!()
    }

    fn write_u64(&mut self, key: u64) {
        let mixed = key.wrapping_mul(0x9e37_79b9_7f4a_7c15);
        self.0 = mixed ^ mixed >> 29;
    }
}

const SIDE: i64 = 256;

#[derive(Clone, Copy)]
struct Point {
    x: i64,
    y: i64,
}

/// A segment, its lesser end first.
#[derive(Clone, Copy)]
struct Segment {
    p: Point,
    q: Point,
}

impl Segment {
    fn between(a: Point, b: Point) -> Segment {
        if (a.x, a.y) < (b.x, b.y) { Segment { p: a, q: b } } else { Segment { p: b, q: a } }
    }

    fn falls(&self) -> bool {
        self.q.y < self.p.y
    }

    fn rows(&self) -> (i64, i64) {
        if self.falls() { (self.q.y, self.p.y) } else { (self.p.y, self.q.y) }
    }

    fn is_beside(&self, t: &Segment) -> bool {
        let ((low, high), (t_low, t_high)) = (self.rows(), t.rows());
        self.q.x < t.p.x || t.q.x < self.p.x || high < t_low || t_high < low
    }

    /// Twice the side of a corner, given by twice its coordinates.
    fn side(&self, x: i64, y: i64) -> i64 {
        (self.q.x - self.p.x) * (y - 2 * self.p.y) - (self.q.y - self.p.y) * (x - 2 * self.p.x)
    }

    fn meets(&self, h: Point) -> bool {
        let (low, high) = self.rows();
        if h.x < self.p.x || h.x > self.q.x || h.y < low || h.y > high {
            return false;
        }
        let (left, right, below, above) = (2 * h.x - 1, 2 * h.x + 1, 2 * h.y - 1, 2 * h.y + 1);
        if self.falls() {
            self.side(right, above) > 0 && self.side(left, below) <= 0
        } else if self.p.x < self.q.x && self.p.y < self.q.y {
            self.side(left, above) > 0 && self.side(right, below) < 0
        } else {
            true
        }
    }

    fn height(&self, column: i64) -> i64 {
        (self.q.y - self.p.y) * (2 * (SIDE * column - self.p.x) - 1) + (self.q.x - self.p.x) * (2 * self.p.y + 1)
    }

    /// Columns and rows of the tiles that the segment meets, each column from its first row to its last.
    fn tiles(&self, out: &mut Vec<(i32, i32)>) {
        out.clear();
        let tile = |c: i64| c.div_euclid(SIDE);
        let (first, last) = (tile(self.p.x), tile(self.q.x));
        let width = 2 * SIDE * (self.q.x - self.p.x);
        let mut entry = tile(self.p.y);
        for i in first..=last {
            let (exit, next) = if i == last {
                (tile(self.q.y), 0)
            } else {
                let height = self.height(i + 1);
                let row = height.div_euclid(width);
                (row - i64::from(row * width == height && !self.falls()), row)
            };
            let (low, high) = if entry <= exit { (entry, exit) } else { (exit, entry) };
            for j in low..=high {
                out.push((i as i32, j as i32));
            }
            entry = next;
        }
    }
}

/// The pixel of the crossing of two segments. Products of two coordinates stay below 2^45.
fn crossing(s: &Segment, t: &Segment) -> Option<Point> {
    let (dx, dy) = (s.q.x - s.p.x, s.q.y - s.p.y);
    let (ex, ey) = (t.q.x - t.p.x, t.q.y - t.p.y);
    let den = dx * ey - dy * ex;
    if den == 0 {
        return None;
    }
    let sign = den.signum();
    let (wx, wy) = (sign * (t.p.x - s.p.x), sign * (t.p.y - s.p.y));
    let den = den.abs();
    let (u, v) = (wx * ey - wy * ex, wx * dy - wy * dx);
    if u < 0 || u > den || v < 0 || v > den {
        return None;
    }
    let along = |d: i64| {
        if den < 1 << 39 {
            (2 * u * d + den).div_euclid(2 * den)
        } else {
            (2 * u as i128 * d as i128 + den as i128).div_euclid(2 * den as i128) as i64
        }
    };
    Some(Point { x: s.p.x + along(dx), y: s.p.y + along(dy) })
}

/// A hot pixel, its key 256 times its column in the tile and its row.
#[derive(Clone, Copy)]
struct Pixel {
    key: u16,
    ends: u32,
    crossings: u32,
}

/// A segment in a tile, with its passes in its own order: the row is turned over where it falls.
struct Passing {
    name: u16,
    s: Segment,
    passes: Vec<u16>,
}

struct Tile {
    lo: Point,
    segments: Vec<Passing>,
    pixels: Vec<Pixel>,
}

#[derive(Default)]
struct Scratch {
    own: Vec<Pixel>,
    changed: Vec<u16>,
    met: Vec<u16>,
}

impl Passing {
    fn pass(&self, key: u16) -> u16 {
        if self.s.falls() { key ^ 255 } else { key }
    }
}

impl Tile {
    fn key(&self, h: Point) -> Option<u16> {
        let (x, y) = (h.x - self.lo.x, h.y - self.lo.y);
        ((0..SIDE).contains(&x) && (0..SIDE).contains(&y)).then_some((x << 8 | y) as u16)
    }

    fn tally_own(&self, s: &Segment, own: &mut Vec<Pixel>) {
        own.clear();
        let mut tally = |key: u16, ends: u32, crossings: u32| {
            let at = own.partition_point(|o| o.key < key);
            match own.get_mut(at) {
                Some(o) if o.key == key => {
                    o.ends += ends;
                    o.crossings += crossings;
                }
                _ => own.insert(at, Pixel { key, ends, crossings }),
            }
        };
        for end in [s.p, s.q] {
            if let Some(key) = self.key(end) {
                tally(key, 1, 0);
            }
        }
        for t in &self.segments {
            if !s.is_beside(&t.s)
                && let Some(h) = crossing(s, &t.s)
                && let Some(key) = self.key(h)
            {
                tally(key, 0, 1);
            }
        }
    }

    /// The passes of a segment among some pixels, which are by rising key.
    fn meet(lo: Point, t: &Passing, keys: impl Iterator<Item = u16>, met: &mut Vec<u16>) {
        met.clear();
        for key in keys {
            if t.s.meets(Point { x: lo.x + (key >> 8) as i64, y: lo.y + (key & 255) as i64 }) {
                met.push(t.pass(key));
            }
        }
        if t.s.falls() {
            met.sort_unstable();
        }
    }

    /// Puts the segment in and answers how many passes are gained.
    fn put(&mut self, name: u16, s: Segment, scratch: &mut Scratch) -> i64 {
        let Scratch { own, changed, met } = scratch;
        self.tally_own(&s, own);
        changed.clear();
        for o in own.iter() {
            let at = self.pixels.partition_point(|h| h.key < o.key);
            match self.pixels.get_mut(at) {
                Some(h) if h.key == o.key => {
                    h.ends += o.ends;
                    h.crossings += o.crossings;
                }
                _ => {
                    self.pixels.insert(at, *o);
                    changed.push(o.key);
                }
            }
        }
        let mut gain = 0;
        if !changed.is_empty() {
            for t in &mut self.segments {
                if s.is_beside(&t.s) {
                    continue;
                }
                Tile::meet(self.lo, t, changed.iter().copied(), met);
                for &pass in met.iter() {
                    let at = t.passes.partition_point(|&other| other < pass);
                    t.passes.insert(at, pass);
                }
                gain += met.len() as i64;
            }
        }
        let mut more = Passing { name, s, passes: Vec::new() };
        let from = self.pixels.partition_point(|h| self.lo.x + ((h.key >> 8) as i64) < s.p.x);
        let near = self.pixels[from..].iter().take_while(|h| self.lo.x + (h.key >> 8) as i64 <= s.q.x);
        Tile::meet(self.lo, &more, near.map(|h| h.key), met);
        more.passes.extend_from_slice(met);
        self.segments.push(more);
        gain + met.len() as i64
    }

    /// Takes the segment out and answers how many passes are lost.
    fn take(&mut self, name: u16, scratch: &mut Scratch) -> i64 {
        let at = self.segments.iter().position(|t| t.name == name).unwrap();
        let gone = self.segments.swap_remove(at);
        let Scratch { own, changed, met } = scratch;
        self.tally_own(&gone.s, own);
        changed.clear();
        for o in own.iter() {
            let at = self.pixels.partition_point(|h| h.key < o.key);
            let h = &mut self.pixels[at];
            h.ends -= o.ends;
            h.crossings -= o.crossings;
            if h.ends + h.crossings == 0 {
                self.pixels.remove(at);
                changed.push(o.key);
            }
        }
        let mut lost = gone.passes.len() as i64;
        if !changed.is_empty() {
            for t in &mut self.segments {
                if gone.s.is_beside(&t.s) {
                    continue;
                }
                Tile::meet(self.lo, t, changed.iter().copied(), met);
                for &pass in met.iter() {
                    let at = t.passes.partition_point(|&other| other < pass);
                    t.passes.remove(at);
                }
                lost += met.len() as i64;
            }
        }
        lost
    }
}

#[derive(Default)]
struct Drawing {
    changes: u32,
    live: HashMap<u64, Segment, BuildHasherDefault<Mix>>,
    places: HashMap<u64, u32, BuildHasherDefault<Mix>>,
    tiles: Vec<Tile>,
    spans: u64,
    passes: i64,
    walked: Vec<(i32, i32)>,
    scratch: Scratch,
}

fn tile_key(id: (i32, i32)) -> u64 {
    (id.0 as u32 as u64) << 32 | id.1 as u32 as u64
}

impl Drawing {
    fn insert(&mut self, name: u16, ends: (Point, Point)) {
        let s = Segment::between(ends.0, ends.1);
        assert!(self.live.insert(name as u64, s).is_none());
        s.tiles(&mut self.walked);
        for &id in &self.walked {
            let place = *self.places.entry(tile_key(id)).or_insert_with(|| {
                let lo = Point { x: SIDE * id.0 as i64, y: SIDE * id.1 as i64 };
                self.tiles.push(Tile { lo, segments: Vec::with_capacity(1), pixels: Vec::new() });
                self.tiles.len() as u32 - 1
            });
            self.passes += self.tiles[place as usize].put(name, s, &mut self.scratch);
        }
        self.spans += self.walked.len() as u64;
        self.changes += 1;
    }

    fn delete(&mut self, name: u16) {
        let s = self.live.remove(&(name as u64)).unwrap();
        s.tiles(&mut self.walked);
        for &id in &self.walked {
            let place = self.places[&tile_key(id)];
            self.passes -= self.tiles[place as usize].take(name, &mut self.scratch);
        }
        self.spans -= self.walked.len() as u64;
        self.changes += 1;
    }
}

struct Draws(u64);

impl Draws {
    fn below(&mut self, count: u64) -> i64 {
        self.0 = self.0 * 48271 % 2147483647;
        (self.0 % count) as i64
    }

    fn near(&mut self) -> (Point, Point) {
        let a = Point { x: self.below(4096), y: self.below(4096) };
        let (right, up) = (self.below(401) - 200, self.below(401) - 200);
        (a, Point { x: a.x + right, y: a.y + up })
    }

    fn anywhere(&mut self) -> Point {
        Point { x: self.below(2_097_153) - 1_048_576, y: self.below(2_097_153) - 1_048_576 }
    }

    fn far(&mut self) -> (Point, Point) {
        (self.anywhere(), self.anywhere())
    }
}

fn built(draws: &mut Draws) -> Drawing {
    let mut drawing = Drawing::default();
    for serial in 1..=4000 {
        drawing.insert(serial, draws.near());
    }
    drawing
}

fn edited(rounds: u16) -> Drawing {
    let mut draws = Draws(11);
    let mut drawing = built(&mut draws);
    let mut live: Vec<u16> = (1..=4000).collect();
    for round in 0..rounds {
        for n in 0..1000 {
            let gone = live.swap_remove(draws.below(live.len() as u64) as usize);
            drawing.delete(gone);
            let serial = 4000 + 1000 * round + n + 1;
            live.push(serial);
            drawing.insert(serial, draws.near());
        }
    }
    drawing
}

fn main() {
    let words: Vec<String> = std::env::args().collect();
    let rounds: u16 = words[1].parse().unwrap();
    let mut drawing = Drawing::default();
    match words[2].as_str() {
        "edit" | "edit_held" => drawing = edited(rounds),
        "build" | "build_held" => {
            for _ in 0..rounds {
                drawing = built(&mut Draws(11));
            }
        }
        _ => {
            for _ in 0..rounds {
                drawing = Drawing::default();
                let mut draws = Draws(11);
                for serial in 1..=250 {
                    drawing.insert(serial, draws.far());
                }
            }
        }
    }
    let Drawing { changes, spans, passes, live, .. } = drawing;
    println!("rounds {rounds} changes {changes} live {} spans {spans} passes {passes}", live.len());
}
