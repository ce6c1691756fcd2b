//! The same strips, the same searches and the same drawing as `crates/bench_places`, in plain Rust; it takes
//! its words. The rounding is made plainly: it isn't what is timed.

use std::cmp::Ordering;
use std::collections::{BTreeMap, BTreeSet};
use std::env;

#[derive(Clone, Copy, PartialEq, Eq, PartialOrd, Ord)]
struct Point {
    x: i64,
    y: i64,
}

/// A segment or an edge, its lesser end first.
#[derive(Clone, Copy, PartialEq, Eq, PartialOrd, Ord)]
struct Edge {
    a: Point,
    b: Point,
}

fn cross(d: Point, e: Point) -> i128 {
    d.x as i128 * e.y as i128 - d.y as i128 * e.x as i128
}

fn vector(from: Point, to: Point) -> Point {
    Point { x: to.x - from.x, y: to.y - from.y }
}

fn query_point(h: Point) -> Point {
    Point { x: 256 * h.x, y: 256 * h.y }
}

// The rounding.

fn meets_pixel(s: &Edge, at: Point) -> bool {
    let (p, q) = (s.a, s.b);
    if !(p.x <= at.x && at.x <= q.x && p.y.min(q.y) <= at.y && at.y <= p.y.max(q.y)) {
        return false;
    }
    let side = |x: i64, y: i64| {
        let twice_p = Point { x: 2 * p.x, y: 2 * p.y };
        cross(vector(p, q), vector(twice_p, Point { x, y }))
    };
    let (left, right) = (2 * at.x - 1, 2 * at.x + 1);
    let (lower, upper) = (2 * at.y - 1, 2 * at.y + 1);
    if q.y < p.y {
        side(right, upper) > 0 && side(left, lower) <= 0
    } else if p.x < q.x && p.y < q.y {
        side(left, upper) > 0 && side(right, lower) < 0
    } else {
        true
    }
}

fn crossing_pixel(s: &Edge, t: &Edge) -> Option<Point> {
    if s.b.x < t.a.x || t.b.x < s.a.x || s.a.y.max(s.b.y) < t.a.y.min(t.b.y) || t.a.y.max(t.b.y) < s.a.y.min(s.b.y) {
        return None;
    }
    let (d, e) = (vector(s.a, s.b), vector(t.a, t.b));
    let mut den = cross(d, e);
    let (mut m, mut n) = (cross(vector(s.a, t.a), e), cross(vector(s.a, t.a), d));
    if den < 0 {
        (den, m, n) = (-den, -m, -n);
    }
    if den == 0 || m < 0 || m > den || n < 0 || n > den {
        return None;
    }
    let rounded = |p: i64, d: i64| (2 * (p as i128 * den + m * d as i128) + den).div_euclid(2 * den) as i64;
    Some(Point { x: rounded(s.a.x, d.x), y: rounded(s.a.y, d.y) })
}

/// The vertices and edges of the rounding, both in order.
fn round(segments: &[Edge]) -> (Vec<Point>, Vec<Edge>) {
    let mut hot: BTreeSet<Point> = segments.iter().flat_map(|s| [s.a, s.b]).collect();
    for (i, s) in segments.iter().enumerate() {
        hot.extend(segments[i + 1..].iter().filter_map(|t| crossing_pixel(s, t)));
    }
    let vertices: Vec<Point> = hot.into_iter().collect();
    let mut edges = BTreeSet::new();
    for s in segments {
        let from = vertices.partition_point(|h| h.x < s.a.x);
        let to = vertices.partition_point(|h| h.x <= s.b.x);
        let mut route: Vec<Point> = vertices[from..to].iter().copied().filter(|h| meets_pixel(s, *h)).collect();
        let d = vector(s.a, s.b);
        route.sort_by_key(|h| d.x as i128 * h.x as i128 + d.y as i128 * h.y as i128);
        for pair in route.windows(2) {
            edges.insert(Edge { a: pair[0].min(pair[1]), b: pair[0].max(pair[1]) });
        }
    }
    (vertices, edges.into_iter().collect())
}

// What lies nearest to a query point.

fn side(e: &Edge, q: Point) -> i128 {
    cross(vector(e.a, e.b), vector(query_point(e.a), q))
}

fn spans(q: Point, e: &Edge) -> bool {
    256 * e.a.x <= q.x && q.x < 256 * e.b.x
}

fn lies_on(q: Point, e: &Edge) -> bool {
    let (a, b) = (query_point(e.a), query_point(e.b));
    a.x <= q.x && q.x <= b.x && a.y.min(b.y) <= q.y && q.y <= a.y.max(b.y) && side(e, q) == 0
}

/// How high the edge is at the point's column, times its width.
fn height(q: Point, e: &Edge) -> i128 {
    let (a, d) = (query_point(e.a), vector(e.a, e.b));
    a.y as i128 * d.x as i128 + d.y as i128 * (q.x - a.x) as i128
}

fn upwards(q: Point, e: &Edge, f: &Edge) -> Ordering {
    let (d, c) = (vector(e.a, e.b), vector(f.a, f.b));
    (height(q, e) * c.x as i128)
        .cmp(&(height(q, f) * d.x as i128))
        .then_with(|| (d.y as i128 * c.x as i128).cmp(&(c.y as i128 * d.x as i128)))
}

#[derive(Clone, Copy, Default)]
struct Nearest {
    vertex: Option<Point>,
    on: Option<Edge>,
    above: Option<Edge>,
    below: Option<Edge>,
}

impl Nearest {
    fn among(vertices: &[Point], edges: &[Edge], q: Point) -> Nearest {
        let mut near = Nearest::default();
        for h in vertices {
            if near.vertex.is_none() && query_point(*h) == q {
                near.vertex = Some(*h);
            }
        }
        for e in edges {
            near.take(q, e);
        }
        near
    }

    #[inline(always)]
    fn take(&mut self, q: Point, e: &Edge) {
        if q.x < 256 * e.a.x || 256 * e.b.x < q.x {
            return;
        }
        if lies_on(q, e) && self.on.is_none_or(|f| *e < f) {
            self.on = Some(*e);
        }
        if !spans(q, e) {
            return;
        }
        match side(e, q).cmp(&0) {
            Ordering::Less => {
                if self.above.is_none_or(|f| upwards(q, e, &f).then(e.cmp(&f)).is_lt()) {
                    self.above = Some(*e);
                }
            }
            Ordering::Greater => {
                if self.below.is_none_or(|f| upwards(q, &f, e).then(e.cmp(&f)).is_lt()) {
                    self.below = Some(*e);
                }
            }
            Ordering::Equal => {}
        }
    }

    fn is_between(&self) -> bool {
        self.vertex.is_none() && self.on.is_none()
    }
}

// The strips.

/// An edge over one node of the tree over its strip's columns.
#[derive(Clone, Copy)]
struct Piece {
    node: u16,
    edge: Edge,
}

#[derive(Default)]
struct Strip {
    edges: Vec<Edge>,
    vertices: Vec<Point>,
    /// In order of lower end.
    verticals: Vec<Edge>,
    /// By node, and those of one node upwards.
    pieces: Vec<Piece>,
}

impl Strip {
    /// Makes what places are searched in, once all edges that meet strip `number` are there, in order.
    fn arrange(&mut self, number: i64) {
        let mut ranked = Vec::new();
        for e in &self.edges {
            if e.a.x == e.b.x {
                self.verticals.push(*e);
            } else {
                let first = (e.a.x - 256 * number).max(0) as u16;
                let end = (e.b.x - 256 * number).min(256) as u16;
                for node in nodes(first, end) {
                    ranked.push((Piece { node, edge: *e }, rank(256 * number + left(node), e)));
                }
            }
        }
        ranked.sort_unstable_by_key(|(piece, rank)| (piece.node, *rank));
        self.pieces = ranked.iter().map(|(piece, _)| *piece).collect();
    }
}

/// The nodes that together have the columns from `first` up to, and without, `end`. Node 1 has all 256, node n those of nodes
/// 2 n and 2 n + 1, and node 256 + c column c alone.
fn nodes(first: u16, end: u16) -> impl Iterator<Item = u16> {
    let (mut first, mut end) = (first + 256, end + 256);
    let mut nodes = [0; 16];
    let mut count = 0;
    while first < end {
        if first % 2 == 1 {
            nodes[count] = first;
            count += 1;
            first += 1;
        }
        if end % 2 == 1 {
            end -= 1;
            nodes[count] = end;
            count += 1;
        }
        first /= 2;
        end /= 2;
    }
    nodes.into_iter().take(count)
}

/// The first column of a node.
fn left(node: u16) -> i64 {
    let level = node.ilog2();
    i64::from(node - (1 << level)) * (256 >> level)
}

/// The height of the edge 1/256 right of a column, times 2^62 and rounded down: edges of one node are apart there by more.
fn rank(column: i64, e: &Edge) -> i128 {
    let d = vector(e.a, e.b);
    let width = d.x as i128;
    let height = height(Point { x: 256 * column + 1, y: 0 }, e);
    (height.div_euclid(width) << 62) + (height.rem_euclid(width) << 62) / width
}

fn build(vertices: &[Point], edges: &[Edge]) -> BTreeMap<i64, Strip> {
    let mut strips: BTreeMap<i64, Strip> = BTreeMap::new();
    for e in edges {
        for k in e.a.x.div_euclid(256)..=e.b.x.div_euclid(256) {
            strips.entry(k).or_default().edges.push(*e);
        }
    }
    for h in vertices {
        strips.entry(h.x.div_euclid(256)).or_default().vertices.push(*h);
    }
    for (number, strip) in &mut strips {
        strip.arrange(*number);
    }
    strips
}

// A search by halves in a strip.

impl Strip {
    fn nearest(&self, number: i64, q: Point) -> Nearest {
        let mut near = Nearest { vertex: self.vertex_at(q), ..Nearest::default() };
        if near.vertex.is_some() {
            return near;
        }
        let lower = self.verticals.partition_point(|e| query_point(e.a) <= q);
        if let Some(e) = lower.checked_sub(1).and_then(|i| self.verticals.get(i)) {
            near.take(q, e);
        }
        let mut node = (256 + q.x.div_euclid(256) - 256 * number) as u16;
        while node > 0 {
            let above = self.pieces.partition_point(|p| p.node < node || p.node == node && side(&p.edge, q) > 0);
            for piece in &self.pieces[above.saturating_sub(1)..(above + 1).min(self.pieces.len())] {
                near.take(q, &piece.edge);
            }
            node /= 2;
        }
        near
    }

    fn vertex_at(&self, q: Point) -> Option<Point> {
        let first = self.vertices.partition_point(|h| query_point(*h) < q);
        self.vertices.get(first).copied().filter(|h| query_point(*h) == q)
    }

    /// The two ends of the cell between the nearest edges.
    fn ends(&self, number: i64, q: Point, near: &Nearest) -> (i64, i64) {
        let (before, behind) = self.vertices.split_at(self.vertices.partition_point(|h| 256 * h.x <= q.x));
        (last_bound(before, near, 256 * number), first_bound(behind, near, 256 * (number + 1)))
    }
}

fn reaches(e: &Edge, h: Point) -> bool {
    e.a.x <= h.x && h.x <= e.b.x
}

fn is_at_most(above: Option<Edge>, h: Point) -> bool {
    above.is_none_or(|e| !reaches(&e, h) || side(&e, query_point(h)) <= 0)
}

fn is_at_least(below: Option<Edge>, h: Point) -> bool {
    below.is_none_or(|e| !reaches(&e, h) || side(&e, query_point(h)) >= 0)
}

#[derive(Clone, Copy)]
enum Side {
    Below,
    Above,
}

/// On which side of the cell a vertex lies, or `None` if it bounds the cell.
fn side_of_cell(h: Point, near: &Nearest) -> Option<Side> {
    if !is_at_least(near.below, h) {
        Some(Side::Below)
    } else if !is_at_most(near.above, h) {
        Some(Side::Above)
    } else {
        None
    }
}

fn lies(h: Point, side: Side, near: &Nearest) -> bool {
    match side {
        Side::Below => !is_at_least(near.below, h),
        Side::Above => !is_at_most(near.above, h),
    }
}

/// The first column that has a vertex on or between the nearest edges. Of those of one column that lie on one side of the
/// cell many are passed over at a time: the first and the last of them tell.
fn first_bound(vertices: &[Point], near: &Nearest, wall: i64) -> i64 {
    let mut rest = vertices;
    while let Some(first) = rest.first() {
        let Some(side) = side_of_cell(*first, near) else {
            return first.x;
        };
        let mut count = 1;
        while count <= rest.len() / 2 && rest[2 * count - 1].x == first.x && lies(rest[2 * count - 1], side, near) {
            count *= 2;
        }
        rest = &rest[count..];
    }
    wall
}

fn last_bound(vertices: &[Point], near: &Nearest, wall: i64) -> i64 {
    let mut rest = vertices;
    while let Some(last) = rest.last() {
        let Some(side) = side_of_cell(*last, near) else {
            return last.x;
        };
        let mut count = 1;
        while count <= rest.len() / 2
            && rest[rest.len() - 2 * count].x == last.x
            && lies(rest[rest.len() - 2 * count], side, near)
        {
            count *= 2;
        }
        rest = &rest[..rest.len() - count];
    }
    wall
}

/// What is nearest, and how wide the cell is where the point lies between edges.
fn find(strips: &BTreeMap<i64, Strip>, q: Point) -> (Nearest, i64) {
    let number = q.x.div_euclid(65536);
    let Some(strip) = strips.get(&number) else {
        return (Nearest::default(), 256);
    };
    let near = strip.nearest(number, q);
    if near.is_between() {
        let (left, right) = strip.ends(number, q, &near);
        (near, right - left)
    } else {
        (near, 0)
    }
}

// The works.

struct Draws {
    last: u64,
}

impl Draws {
    fn next(&mut self) -> i64 {
        self.last = self.last * 48_271 % 2_147_483_647;
        self.last as i64
    }

    fn segment(&mut self) -> Option<Edge> {
        let (x, y) = (self.next() % 4096, self.next() % 4096);
        let (across, up) = (self.next() % 401, self.next() % 401);
        let (p, q) = (Point { x, y }, Point { x: x + across - 200, y: y + up - 200 });
        (p != q).then(|| Edge { a: p.min(q), b: p.max(q) })
    }

    fn query_point(&mut self) -> Point {
        Point { x: self.next() % 1_048_576, y: self.next() % 1_048_576 }
    }
}

#[derive(Default)]
struct Counts {
    between: u64,
    sum: i64,
}

impl Counts {
    fn count(&mut self, near: &Nearest, width: i64) {
        if near.is_between() {
            self.between += 1;
            self.sum += near.above.map_or(0, |e| e.a.x) + near.below.map_or(0, |e| e.a.x) + width;
        }
    }
}

fn main() {
    let words: Vec<String> = env::args().collect();
    let rounds: u32 = words[1].parse().unwrap();
    let segments: u16 = words[3].parse().unwrap();
    let mut draws = Draws { last: 11 };
    let drawn: Vec<Edge> = (0..segments).filter_map(|_| draws.segment()).collect();
    let (vertices, edges) = round(&drawn);
    let mut counts = Counts::default();
    match words[2].as_str() {
        "build" => {
            for _ in 0..rounds {
                let strips = build(&vertices, &edges);
                let (near, width) = find(&strips, draws.query_point());
                counts.count(&near, width);
            }
        }
        "find" => {
            let strips = build(&vertices, &edges);
            for _ in 0..u64::from(rounds) * 10_000 {
                let (near, width) = find(&strips, draws.query_point());
                counts.count(&near, width);
            }
        }
        _ => {
            for _ in 0..u64::from(rounds) * 100 {
                counts.count(&Nearest::among(&vertices, &edges, draws.query_point()), 0);
            }
        }
    }
    println!("edges {} vertices {} between {} sum {}", edges.len(), vertices.len(), counts.between, counts.sum);
}
