//! The half-edges of `face_trace` in plain Rust, numbered by a hash map from pairs of points, with the same
//! sort and the same walks: it takes the words of `bench_faces`, and prints the same counts. The map hashes as
//! std does; with the word `quick` more, by one multiplication a coordinate.

use std::cmp::Ordering;
use std::collections::HashMap;
use std::hash::{BuildHasher, BuildHasherDefault, Hasher, RandomState};

#[derive(Default)]
struct Quick {
    state: u64,
}

impl Hasher for Quick {
    fn write(&mut self, bytes: &[u8]) {
        for byte in bytes {
            self.write_u64(u64::from(*byte));
        }
    }

    fn write_u64(&mut self, word: u64) {
        let product = u128::from(self.state ^ word) * 0x9e37_79b9_7f4a_7c15;
        self.state = product as u64 ^ (product >> 64) as u64;
    }

    fn write_i64(&mut self, word: i64) {
        self.write_u64(word as u64);
    }

    fn finish(&self) -> u64 {
        self.state
    }
}

#[derive(Clone, Copy, PartialEq, Eq, PartialOrd, Ord, Hash)]
struct Point {
    x: i64,
    y: i64,
}

#[derive(Clone, Copy, PartialEq, Eq, PartialOrd, Ord, Hash)]
struct HalfEdge {
    origin: Point,
    target: Point,
}

struct Spoke {
    half: HalfEdge,
    number: usize,
}

fn vector(from: Point, to: Point) -> Point {
    Point { x: to.x - from.x, y: to.y - from.y }
}

fn cross(d: Point, e: Point) -> i128 {
    i128::from(d.x) * i128::from(e.y) - i128::from(d.y) * i128::from(e.x)
}

fn half(d: Point) -> u8 {
    if d.x > 0 || d.x == 0 && d.y > 0 { 0 } else { 1 }
}

fn around(g: &HalfEdge, h: &HalfEdge) -> Ordering {
    g.origin.cmp(&h.origin).then_with(|| {
        let (d, e) = (vector(g.origin, g.target), vector(h.origin, h.target));
        half(d).cmp(&half(e)).then_with(|| cross(d, e).cmp(&0)).then_with(|| g.target.cmp(&h.target))
    })
}

struct HalfEdges<S> {
    numbers: HashMap<HalfEdge, usize, S>,
    halves: Vec<HalfEdge>,
    nexts: Vec<usize>,
}

struct Contour {
    points: Vec<Point>,
    area2: i128,
}

impl<S: BuildHasher + Default> HalfEdges<S> {
    fn build(edges: &[(Point, Point)]) -> HalfEdges<S> {
        let mut numbers = HashMap::with_capacity_and_hasher(2 * edges.len(), S::default());
        let mut halves = Vec::with_capacity(2 * edges.len());
        for &(a, b) in edges {
            for half in [HalfEdge { origin: a, target: b }, HalfEdge { origin: b, target: a }] {
                numbers.insert(half, halves.len());
                halves.push(half);
            }
        }
        let mut spokes: Vec<Spoke> = halves.iter().enumerate().map(|(number, &half)| Spoke { half, number }).collect();
        spokes.sort_unstable_by(|s, t| around(&s.half, &t.half));
        let mut nexts = vec![0; spokes.len()];
        let mut first = 0;
        for (i, spoke) in spokes.iter().enumerate() {
            if spokes[first].half.origin != spoke.half.origin {
                first = i;
            }
            let follower = match spokes.get(i + 1) {
                Some(next) if next.half.origin == spoke.half.origin => next,
                _ => &spokes[first],
            };
            nexts[spoke.number ^ 1] = follower.number;
        }
        HalfEdges { numbers, halves, nexts }
    }

    fn contour(&self, origin: Point, target: Point) -> Option<Contour> {
        let start = *self.numbers.get(&HalfEdge { origin, target })?;
        let mut least = start;
        let mut at = self.nexts[start];
        while at != start {
            if self.halves[at] < self.halves[least] {
                least = at;
            }
            at = self.nexts[at];
        }
        let mut points = Vec::new();
        let mut area2 = 0;
        let mut at = least;
        loop {
            let half = self.halves[at];
            points.push(half.origin);
            area2 += cross(half.origin, half.target);
            at = self.nexts[at];
            if at == least {
                return Some(Contour { points, area2 });
            }
        }
    }
}

fn streets() -> Vec<(Point, Point)> {
    let corner = |i: i64, j: i64| Point { x: i * 64, y: j * 64 };
    let mut edges = Vec::new();
    for i in 0..205 {
        for j in 0..245 {
            if j + 1 < 245 {
                edges.push((corner(i, j), corner(i, j + 1)));
            }
            if i + 1 < 205 {
                edges.push((corner(i, j), corner(i + 1, j)));
            }
        }
    }
    edges
}

#[derive(Default)]
struct Counts {
    contours: u64,
    points: u64,
    areas: u64,
}

fn count<S: BuildHasher + Default>(half_edges: &HalfEdges<S>, u: Point, v: Point, counts: &mut Counts) {
    if let Some(contour) = half_edges.contour(u, v) {
        counts.contours += u64::from(contour.points[0] == u && contour.points[1] == v);
        counts.areas += u64::from(contour.area2 > 0);
        counts.points += contour.points.len() as u64;
    }
}

fn run<S: BuildHasher + Default>(rounds: u32, work: &str) -> Counts {
    let edges = streets();
    let mut counts = Counts::default();
    if work == "build" {
        for _ in 0..rounds {
            let half_edges = HalfEdges::<S>::build(&edges);
            count(&half_edges, edges[0].0, edges[0].1, &mut counts);
        }
    } else {
        let half_edges = HalfEdges::<S>::build(&edges);
        for _ in 0..rounds {
            for &(a, b) in &edges {
                count(&half_edges, a, b, &mut counts);
                count(&half_edges, b, a, &mut counts);
            }
        }
    }
    counts
}

fn main() {
    let words: Vec<String> = std::env::args().collect();
    let rounds: u32 = words[1].parse().unwrap();
    let counts = if words.get(3).is_some_and(|form| form == "quick") {
        run::<BuildHasherDefault<Quick>>(rounds, &words[2])
    } else {
        run::<RandomState>(rounds, &words[2])
    };
    println!("contours {} points {} areas {}", counts.contours, counts.points, counts.areas);
}
