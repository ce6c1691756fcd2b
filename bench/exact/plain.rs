//! The same tests and the same drawn segments as `crates/bench_exact`, in plain Rust.
use std::cmp::Ordering;
use std::env;

#[derive(Clone, Copy)]
struct Point {
    x: i64,
    y: i64,
}

/// A named segment of 48 bytes, its lesser end first.
#[derive(Clone, Copy)]
struct Ur {
    _name: (u8, u16),
    p: Point,
    q: Point,
}

struct Case {
    segment: Ur,
    x: i16,
    y: i16,
}

struct Cross {
    num_x: i128,
    num_y: i128,
    den: i128,
}

fn cross(d: Point, e: Point) -> i128 {
    d.x as i128 * e.y as i128 - d.y as i128 * e.x as i128
}

fn vector(from: Point, to: Point) -> Point {
    Point { x: to.x - from.x, y: to.y - from.y }
}

fn meets_pixel(s: &Ur, at: Point) -> bool {
    let (p, q) = (s.p, s.q);
    if !(p.x <= at.x && at.x <= q.x) {
        return false;
    }
    let (low, high) = if q.y < p.y { (q.y, p.y) } else { (p.y, q.y) };
    if !(low <= at.y && at.y <= high) {
        return false;
    }
    let side = |x: i64, y: i64| {
        let twice_p = Point { x: 2 * p.x, y: 2 * p.y };
        cross(vector(p, q), vector(twice_p, Point { x, y }))
    };
    let (left, right) = (2 * at.x - 1, 2 * at.x + 1);
    let (lower, upper) = (2 * at.y - 1, 2 * at.y + 1);
    if q.y < p.y {
        side(right, upper) > 0 && side(left, lower) <= 0
    } else if p.x < q.x && p.y < q.y {
        side(left, upper) > 0 && side(right, lower) < 0
    } else {
        true
    }
}

fn crossing(s: &Ur, t: &Ur) -> Option<Cross> {
    if s.q.x < t.p.x || t.q.x < s.p.x {
        return None;
    }
    let (s_low, s_high) = (s.p.y.min(s.q.y), s.p.y.max(s.q.y));
    let (t_low, t_high) = (t.p.y.min(t.q.y), t.p.y.max(t.q.y));
    if s_high < t_low || t_high < s_low {
        return None;
    }
    let (d, e) = (vector(s.p, s.q), vector(t.p, t.q));
    let (left, right) = (d.x * e.y, d.y * e.x);
    let w = match left.cmp(&right) {
        Ordering::Greater => vector(s.p, t.p),
        Ordering::Less => vector(t.p, s.p),
        Ordering::Equal => return None,
    };
    let den = left.abs_diff(right);
    let u = part(w, e, den)?;
    part(w, d, den)?;
    let along = |p: i64, d: i64| i128::from(p) * i128::from(den) + i128::from(u) * i128::from(d);
    Some(Cross { num_x: along(s.p.x, d.x), num_y: along(s.p.y, d.y), den: i128::from(den) })
}

/// The cross product of two directions, if it is from 0 to `den`.
fn part(w: Point, e: Point, den: u64) -> Option<u64> {
    let (plus, minus) = (w.x * e.y, w.y * e.x);
    (minus <= plus && plus.abs_diff(minus) <= den).then(|| plus.abs_diff(minus))
}

fn pixel(c: &Cross) -> Point {
    let narrow = |n: i128| (-(1i128 << 61)..=1 << 61).contains(&n);
    if narrow(c.num_x) && narrow(c.num_y) && narrow(c.den) {
        let den = c.den as i64;
        let rounded = |n: i128| (2 * n as i64 + den).div_euclid(2 * den);
        Point { x: rounded(c.num_x), y: rounded(c.num_y) }
    } else {
        let rounded = |n: i128| (2 * n + c.den).div_euclid(2 * c.den) as i64;
        Point { x: rounded(c.num_x), y: rounded(c.num_y) }
    }
}

fn draw(state: &mut u32) -> u32 {
    *state = (u64::from(*state) * 48271 % 2_147_483_647) as u32;
    *state
}

fn lattice(state: &mut u32) -> i16 {
    (draw(state) % 32) as i16 - 16
}

fn draw_case(state: &mut u32) -> Option<Case> {
    let (ax, ay) = (lattice(state), lattice(state));
    let (bx, by) = (lattice(state), lattice(state));
    let (x, y) = match draw(state) % 3 {
        0 => (3 * ax + bx, 3 * ay + by),
        1 => (2 * ax + 2 * bx, 2 * ay + 2 * by),
        _ => (ax + 3 * bx, ay + 3 * by),
    };
    let a = Point { x: i64::from(4 * ax), y: i64::from(4 * ay) };
    let b = Point {
        x: i64::from(4 * bx) + i64::from(draw(state) % 4),
        y: i64::from(4 * by) + i64::from(draw(state) % 4),
    };
    let (p, q) = if (a.x, a.y) < (b.x, b.y) { (a, b) } else { (b, a) };
    if (p.x, p.y) == (q.x, q.y) {
        return None;
    }
    Some(Case { segment: Ur { _name: (1, 1), p, q }, x, y })
}

fn main() {
    let mut state = 1;
    let cases: Vec<Case> = (0..1024).filter_map(|_| draw_case(&mut state)).collect();
    let words: Vec<String> = env::args().skip(1).collect();
    let rounds: u32 = words.first().and_then(|w| w.parse().ok()).unwrap_or(0);
    if words.get(1).is_some_and(|w| w == "crossings") {
        let (mut crossed, mut in_quadrant) = (0u64, 0u64);
        for round in 0..rounds {
            let step = (round % 8 + 1) as usize;
            for (case, other) in cases.iter().zip(cases.iter().skip(step)) {
                if let Some(c) = crossing(&case.segment, &other.segment) {
                    crossed += 1;
                    if c.num_x > 0 && c.num_y > 0 {
                        in_quadrant += 1;
                    }
                }
            }
        }
        println!("{crossed} crossings, {in_quadrant} to the right of and above (0, 0)");
    } else if words.get(1).is_some_and(|w| w == "pixels") {
        let mut crosses = Vec::new();
        for step in 1..9 {
            for (case, other) in cases.iter().zip(cases.iter().skip(step)) {
                crosses.extend(crossing(&case.segment, &other.segment));
            }
        }
        let mut in_quadrant = 0u64;
        for _ in 0..rounds {
            for c in &crosses {
                let at = pixel(c);
                if at.x > 0 && at.y > 0 {
                    in_quadrant += 1;
                }
            }
        }
        println!("{} crossings, {in_quadrant} pixels to the right of and above (0, 0)", crosses.len());
    } else {
        let mut met = 0u64;
        for round in 0..rounds {
            let (dx, dy) = (i64::from(round % 3) - 1, i64::from(round / 3 % 3) - 1);
            for case in &cases {
                let at = Point { x: i64::from(case.x) + dx, y: i64::from(case.y) + dy };
                if meets_pixel(&case.segment, at) {
                    met += 1;
                }
            }
        }
        println!("{met} pixels met");
    }
}
