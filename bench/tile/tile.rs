//! A tile in plain Rust, with the flat layout of `hot_tile`. It takes the words of `bench_tile` and
//! prints the same counts. Both look, before a segment comes, whether its name is new and whether it
//! meets the tile, and before it goes, whether it is there.

#[derive(Clone, Copy, PartialEq, Eq)]
struct Point {
    x: i64,
    y: i64,
}

#[derive(Clone, Copy)]
struct Segment {
    name: u32,
    p: Point,
    q: Point,
}

impl Segment {
    fn between(name: u32, a: Point, b: Point) -> Segment {
        if (a.x, a.y) < (b.x, b.y) { Segment { name, p: a, q: b } } else { Segment { name, p: b, q: a } }
    }

    fn falls(&self) -> bool {
        self.q.y < self.p.y
    }

    fn rows(&self) -> (i64, i64) {
        if self.falls() { (self.q.y, self.p.y) } else { (self.p.y, self.q.y) }
    }

    /// Twice the side of a corner, given by twice its coordinates.
    fn side(&self, x: i64, y: i64) -> i128 {
        let dx = (self.q.x - self.p.x) as i128;
        let dy = (self.q.y - self.p.y) as i128;
        dx * (y - 2 * self.p.y) as i128 - dy * (x - 2 * self.p.x) as i128
    }

    fn meets(&self, lo: Point, hi: Point) -> bool {
        let (low, high) = self.rows();
        if self.p.x > hi.x || self.q.x < lo.x || low > hi.y || high < lo.y {
            return false;
        }
        let (left, right, below, above) = (2 * lo.x - 1, 2 * hi.x + 1, 2 * lo.y - 1, 2 * hi.y + 1);
        if self.falls() {
            self.side(right, above) > 0 && self.side(left, below) <= 0
        } else if self.p.x < self.q.x && self.p.y < self.q.y {
            self.side(left, above) > 0 && self.side(right, below) < 0
        } else {
            true
        }
    }
}

fn cross(d: Point, e: Point) -> i128 {
    d.x as i128 * e.y as i128 - d.y as i128 * e.x as i128
}

fn minus(a: Point, b: Point) -> Point {
    Point { x: a.x - b.x, y: a.y - b.y }
}

fn rounded(n: i128, d: i128) -> i64 {
    (2 * n + d).div_euclid(2 * d) as i64
}

fn crossing_pixel(s: &Segment, t: &Segment) -> Option<Point> {
    let ((a, b), (c, d)) = (s.rows(), t.rows());
    if s.q.x < t.p.x || t.q.x < s.p.x || b < c || d < a {
        return None;
    }
    let (d, e) = (minus(s.q, s.p), minus(t.q, t.p));
    let mut w = minus(t.p, s.p);
    let mut den = cross(d, e);
    if den == 0 {
        return None;
    }
    if den < 0 {
        den = -den;
        w = minus(s.p, t.p);
    }
    let (u, v) = (cross(w, e), cross(w, d));
    if u < 0 || u > den || v < 0 || v > den {
        return None;
    }
    let x = s.p.x as i128 * den + u * d.x as i128;
    let y = s.p.y as i128 * den + u * d.y as i128;
    Some(Point { x: rounded(x, den), y: rounded(y, den) })
}

#[derive(Clone, Copy)]
struct Spot {
    key: u32,
    ends: u32,
    crossings: u32,
}

#[derive(Default)]
struct Rows {
    ends: Vec<usize>,
    steps: Vec<u32>,
}

impl Rows {
    fn with_capacity(rows: usize, steps: usize) -> Rows {
        Rows { ends: Vec::with_capacity(rows), steps: Vec::with_capacity(steps) }
    }

    fn clear(&mut self) {
        self.ends.clear();
        self.steps.clear();
    }

    fn start(&self, i: usize) -> usize {
        if i == 0 { 0 } else { self.ends[i - 1] }
    }

    fn row(&self, i: usize) -> &[u32] {
        &self.steps[self.start(i)..self.ends[i]]
    }

    fn end_row(&mut self) {
        self.ends.push(self.steps.len());
    }

    /// Puts a step in its place into the row that isn't ended.
    fn put(&mut self, step: u32) {
        let start = self.start(self.ends.len());
        let mut at = self.steps.len();
        while at > start && self.steps[at - 1] > step {
            at -= 1;
        }
        self.steps.insert(at, step);
    }
}

enum Listed {
    One(Segment),
    Many(Vec<Segment>),
}

impl Listed {
    fn all(&self) -> &[Segment] {
        match self {
            Listed::One(s) => std::slice::from_ref(s),
            Listed::Many(all) => all,
        }
    }
}

struct Hot {
    spots: Vec<Spot>,
    rows: Rows,
}

struct Tile {
    lo: Point,
    side: u32,
    segments: Listed,
    hot: Option<Box<Hot>>,
}

#[derive(Default)]
struct Scratch {
    own: Vec<Spot>,
    changed: Vec<u32>,
    met: Rows,
    route: Rows,
}

fn step(s: &Segment, key: u32) -> u32 {
    if s.falls() { key ^ 0xffff } else { key }
}

/// Those of the spots, in order of key, that stand before the key.
fn run_before(spots: &[Spot], key: u32) -> &[Spot] {
    &spots[..spots.partition_point(|v| v.key < key)]
}

fn tally(own: &mut Vec<Spot>, key: u32, ends: u32, crossings: u32) {
    let at = own.partition_point(|o| o.key < key);
    match own.get_mut(at) {
        Some(o) if o.key == key => {
            o.ends += ends;
            o.crossings += crossings;
        }
        _ => own.insert(at, Spot { key, ends, crossings }),
    }
}

impl Tile {
    fn empty(lo: Point, side: u32) -> Tile {
        Tile { lo, side, segments: Listed::Many(Vec::new()), hot: None }
    }

    fn key(&self, h: Point) -> Option<u32> {
        let (x, y) = (h.x - self.lo.x, h.y - self.lo.y);
        let side = self.side as i64;
        if x < 0 || x >= side || y < 0 || y >= side {
            return None;
        }
        Some((x as u32) << 16 | y as u32)
    }

    fn pixel(&self, key: u32) -> Point {
        Point { x: self.lo.x + (key >> 16) as i64, y: self.lo.y + (key & 0xffff) as i64 }
    }

    /// Whether the tile has the segment of this name.
    fn has(&self, name: u32) -> bool {
        let all = self.segments.all();
        all.get(all.partition_point(|t| t.name < name)).is_some_and(|t| t.name == name)
    }

    /// Whether the segment is new and meets the tile.
    fn takes(&self, s: &Segment) -> bool {
        let last = self.side as i64 - 1;
        !self.has(s.name) && s.meets(self.lo, Point { x: self.lo.x + last, y: self.lo.y + last })
    }

    fn spots(&self) -> &[Spot] {
        match &self.hot {
            Some(hot) => &hot.spots,
            None => &[],
        }
    }

    fn passes(&self) -> u64 {
        match &self.hot {
            Some(hot) => hot.rows.steps.len() as u64,
            None => 0,
        }
    }

    fn tally_own(&self, s: &Segment, own: &mut Vec<Spot>) {
        own.clear();
        for end in [s.p, s.q] {
            if let Some(key) = self.key(end) {
                tally(own, key, 1, 0);
            }
        }
        for t in self.segments.all() {
            if t.name != s.name
                && let Some(h) = crossing_pixel(s, t)
                && let Some(key) = self.key(h)
            {
                tally(own, key, 0, 1);
            }
        }
    }

    fn meet_changed(&self, skip: u32, changed: &[u32], met: &mut Rows) {
        met.clear();
        for t in self.segments.all() {
            if t.name != skip {
                for &key in changed {
                    let h = self.pixel(key);
                    if t.meets(h, h) {
                        met.put(step(t, key));
                    }
                }
            }
            met.end_row();
        }
    }

    fn with_segment(&self, s: &Segment, scratch: &mut Scratch) -> Tile {
        let old = self.segments.all();
        let at = old.partition_point(|t| t.name < s.name);
        let segments = if old.is_empty() {
            Listed::One(*s)
        } else {
            let mut all = Vec::with_capacity(old.len() + 1);
            all.extend_from_slice(&old[..at]);
            all.push(*s);
            all.extend_from_slice(&old[at..]);
            Listed::Many(all)
        };
        self.tally_own(s, &mut scratch.own);
        let spots = self.spots();
        let own = &scratch.own;
        if spots.is_empty() && own.is_empty() {
            return Tile { lo: self.lo, side: self.side, segments, hot: None };
        }
        let fresh = &mut scratch.changed;
        fresh.clear();
        let mut i = 0;
        for o in own {
            i += run_before(&spots[i..], o.key).len();
            if i == spots.len() || spots[i].key != o.key {
                fresh.push(o.key);
            }
        }
        let mut merged = Vec::with_capacity(spots.len() + fresh.len());
        let mut i = 0;
        for o in own {
            let run = run_before(&spots[i..], o.key);
            merged.extend_from_slice(run);
            i += run.len();
            if i < spots.len() && spots[i].key == o.key {
                merged.push(Spot { key: o.key, ends: spots[i].ends + o.ends, crossings: spots[i].crossings + o.crossings });
                i += 1;
            } else {
                merged.push(*o);
            }
        }
        merged.extend_from_slice(&spots[i..]);
        // the routes
        self.meet_changed(s.name, fresh, &mut scratch.met);
        let route = &mut scratch.route;
        route.clear();
        let left = merged.partition_point(|v| self.lo.x + ((v.key >> 16) as i64) < s.p.x);
        for v in &merged[left..] {
            let h = self.pixel(v.key);
            if h.x > s.q.x {
                break;
            }
            if s.meets(h, h) {
                route.put(step(s, v.key));
            }
        }
        let had = match &self.hot {
            Some(hot) => hot.rows.steps.len(),
            None => 0,
        };
        let mut rows = Rows::with_capacity(old.len() + 1, had + scratch.met.steps.len() + route.steps.len());
        for i in 0..=old.len() {
            if i == at {
                rows.steps.extend_from_slice(&route.steps);
                rows.end_row();
            }
            if i < old.len() {
                if let Some(hot) = &self.hot {
                    rows.steps.extend_from_slice(hot.rows.row(i));
                }
                for &step in scratch.met.row(i) {
                    rows.put(step);
                }
                rows.end_row();
            }
        }
        Tile { lo: self.lo, side: self.side, segments, hot: Some(Box::new(Hot { spots: merged, rows })) }
    }

    fn without(&self, name: u32, scratch: &mut Scratch) -> Tile {
        let old = self.segments.all();
        let at = old.partition_point(|t| t.name < name);
        let s = old[at];
        let segments = if old.len() == 2 {
            Listed::One(old[1 - at])
        } else {
            let mut all = Vec::with_capacity(old.len() - 1);
            all.extend_from_slice(&old[..at]);
            all.extend_from_slice(&old[at + 1..]);
            Listed::Many(all)
        };
        let Some(hot) = &self.hot else {
            return Tile { lo: self.lo, side: self.side, segments, hot: None };
        };
        self.tally_own(&s, &mut scratch.own);
        let own = &scratch.own;
        let spots = &hot.spots;
        let cold = &mut scratch.changed;
        cold.clear();
        let mut i = 0;
        for o in own {
            i += run_before(&spots[i..], o.key).len();
            if spots[i].ends == o.ends && spots[i].crossings == o.crossings {
                cold.push(o.key);
            }
        }
        if cold.len() == spots.len() {
            return Tile { lo: self.lo, side: self.side, segments, hot: None };
        }
        let mut left = Vec::with_capacity(spots.len() - cold.len());
        let mut i = 0;
        for o in own {
            let run = run_before(&spots[i..], o.key);
            left.extend_from_slice(run);
            i += run.len();
            if spots[i].ends != o.ends || spots[i].crossings != o.crossings {
                left.push(Spot { key: o.key, ends: spots[i].ends - o.ends, crossings: spots[i].crossings - o.crossings });
            }
            i += 1;
        }
        left.extend_from_slice(&spots[i..]);
        self.meet_changed(s.name, cold, &mut scratch.met);
        let gone = hot.rows.row(at).len() + scratch.met.steps.len();
        let mut rows = Rows::with_capacity(old.len() - 1, hot.rows.steps.len() - gone);
        for i in 0..old.len() {
            if i != at {
                let mut met = scratch.met.row(i);
                if met.is_empty() {
                    rows.steps.extend_from_slice(hot.rows.row(i));
                } else {
                    for &step in hot.rows.row(i) {
                        if met.first() == Some(&step) {
                            met = &met[1..];
                        } else {
                            rows.steps.push(step);
                        }
                    }
                }
                rows.end_row();
            }
        }
        Tile { lo: self.lo, side: self.side, segments, hot: Some(Box::new(Hot { spots: left, rows })) }
    }
}

struct Draws(u64);

impl Draws {
    fn next(&mut self) -> i64 {
        self.0 = self.0 * 48271 % 2147483647;
        self.0 as i64
    }
}

/// The point so far along the segment's way, which is level or upright, and so far across it.
fn at(upright: bool, along: i64, across: i64) -> Point {
    if upright { Point { x: across, y: along } } else { Point { x: along, y: across } }
}

fn segment(work: &str, draws: &mut Draws, number: u32) -> Segment {
    let upright = number / 2 % 2 == 1;
    let (a, b) = (draws.next() % 256, draws.next() % 256);
    match work {
        "few" => {
            let (c, d) = (draws.next() % 256, draws.next() % 256);
            Segment::between(number, at(upright, a / 4, b), at(upright, 255 - c / 4, d))
        }
        "chords" => Segment::between(number, at(upright, -20, a), at(upright, 300, b)),
        _ => Segment::between(number, Point { x: -1000, y: a }, Point { x: 1000, y: b }),
    }
}

fn main() {
    let words: Vec<String> = std::env::args().collect();
    let rounds: u32 = words[1].parse().unwrap();
    let work = words[2].as_str();
    let count = match work {
        "few" => 16,
        "chords" => 200,
        _ => 0,
    };
    let mut draws = Draws(1);
    let mut scratch = Scratch::default();
    let mut tile = Tile::empty(Point { x: 0, y: 0 }, 256);
    for number in 0..count {
        let s = segment(work, &mut draws, 2 * number + 2);
        assert!(tile.takes(&s));
        tile = tile.with_segment(&s, &mut scratch);
    }
    let mut sum = 0u64;
    for round in 0..rounds {
        let number = 2 * (round % (count + 1)) + 1;
        let s = segment(work, &mut draws, number);
        assert!(tile.takes(&s));
        let more = tile.with_segment(&s, &mut scratch);
        sum = sum.wrapping_add(more.passes());
        assert!(more.has(number));
        tile = more.without(number, &mut scratch);
        sum = sum.wrapping_add(tile.passes());
    }
    println!("rounds {rounds} segments {} passes {} sum {sum}", tile.segments.all().len(), tile.passes());
}
