//! The same script and the same replies as `crates/bench_script`, in plain Rust.
//!
//! The first word is the number of rounds. The second is `std` (fields by `split`, numbers by `parse`, replies by
//! `write!`) or `digits` (fields and numbers byte by byte, replies by a table of two digits at a time).
use std::env;
use std::io::Write;

const LINES: u32 = 10_000;

#[derive(Clone, Copy, PartialEq, Eq, PartialOrd, Ord)]
struct Point {
    x: i64,
    y: i64,
}

#[derive(Clone, Copy)]
struct Name {
    editor: u8,
    serial: u16,
}

enum Act {
    Take,
    Insert { a: Point, b: Point },
    Delete { name: Name },
    Reads,
    Commit,
    Drop,
    Show,
}

enum Line {
    Quiet,
    Order { editor: u8, act: Act },
    Bad,
}

#[derive(Default)]
struct Counts {
    quiet: u64,
    bad: u64,
    orders: u64,
    bytes: u64,
}

fn draw(state: &mut u32) -> u32 {
    *state = (*state as u64 * 48_271 % 2_147_483_647) as u32;
    *state
}

fn draw_script() -> Vec<u8> {
    let mut out = Vec::new();
    let mut state = 1;
    for _ in 0..LINES {
        push_line(&mut out, &mut state);
    }
    out
}

fn push_line(out: &mut Vec<u8>, state: &mut u32) {
    match draw(state) % 16 {
        0 => out.extend_from_slice(b"# what follows is drawn"),
        1 => out.extend_from_slice(b"\r"),
        2 => push_command(out, state, " take"),
        3 => push_command(out, state, " commit"),
        4 => push_command(out, state, " reads"),
        5 => push_command(out, state, " drop"),
        6 => push_command(out, state, " erase 1.1"),
        7 => {
            out.extend_from_slice(b"  ");
            push_command(out, state, "\tinsert  7 0 7\t7 \r");
        }
        8 | 9 => {
            push_command(out, state, " delete ");
            let editor = draw(state) % 64 + 1;
            let serial = draw(state) % 65_535 + 1;
            write!(out, "{editor}.{serial}").unwrap();
        }
        _ => {
            push_command(out, state, " insert");
            for _ in 0..4 {
                let size = (draw(state) % 1_048_577) as i64 - 500_000;
                write!(out, " {size}").unwrap();
            }
        }
    }
    out.push(b'\n');
}

fn push_command(out: &mut Vec<u8>, state: &mut u32, words: &str) {
    let editor = draw(state) % 64 + 1;
    write!(out, "{editor}{words}").unwrap();
}

fn is_blank(byte: u8) -> bool {
    byte == b' ' || byte == b'\t'
}

/// How fields are found, numbers read and numbers written.
trait Way {
    fn fields<'a>(line: &'a [u8]) -> impl Iterator<Item = &'a [u8]>;
    fn digits(field: &[u8]) -> Option<u64>;
    fn whole(field: &[u8]) -> Option<i64>;
    fn reply(out: &mut Vec<u8>, editor: u8, act: &Act, number: u32);
    fn bad(out: &mut Vec<u8>, number: u32);
}

fn editor<W: Way>(field: &[u8]) -> Option<u8> {
    W::digits(field).filter(|n| (1..=64).contains(n)).map(|n| n as u8)
}

fn name<W: Way>(field: &[u8]) -> Option<Name> {
    let stop = field.iter().position(|b| *b == b'.')?;
    let editor = editor::<W>(&field[..stop])?;
    let serial = W::digits(&field[stop + 1..]).filter(|n| (1..=65_535).contains(n))? as u16;
    Some(Name { editor, serial })
}

fn read_line<W: Way>(line: &[u8]) -> Line {
    if line.len() > 4096 {
        return Line::Bad;
    }
    let line = line.strip_suffix(b"\r").unwrap_or(line);
    let mut fields = W::fields(line);
    let Some(first) = fields.next() else {
        return Line::Quiet;
    };
    if first[0] == b'#' {
        return Line::Quiet;
    }
    match read_command::<W>(first, &mut fields) {
        Some((editor, act)) => Line::Order { editor, act },
        None => Line::Bad,
    }
}

fn read_command<'a, W: Way>(first: &[u8], fields: &mut impl Iterator<Item = &'a [u8]>) -> Option<(u8, Act)> {
    let verb = fields.next()?;
    let editor = editor::<W>(first)?;
    let act = match verb {
        b"take" => Act::Take,
        b"insert" => {
            let a = point::<W>(fields)?;
            let b = point::<W>(fields)?;
            Act::Insert { a, b }
        }
        b"delete" => Act::Delete { name: name::<W>(fields.next()?)? },
        b"reads" => Act::Reads,
        b"commit" => Act::Commit,
        b"drop" => Act::Drop,
        b"show" => Act::Show,
        _ => return None,
    };
    match fields.next() {
        Some(_) => None,
        None => Some((editor, act)),
    }
}

fn point<'a, W: Way>(fields: &mut impl Iterator<Item = &'a [u8]>) -> Option<Point> {
    let x = W::whole(fields.next()?)?;
    let y = W::whole(fields.next()?)?;
    Some(Point { x, y })
}

struct Std;

impl Way for Std {
    fn fields<'a>(line: &'a [u8]) -> impl Iterator<Item = &'a [u8]> {
        line.split(|b| is_blank(*b)).filter(|field| !field.is_empty())
    }

    fn digits(field: &[u8]) -> Option<u64> {
        if field.len() > 10 || field.first() == Some(&b'+') {
            return None;
        }
        std::str::from_utf8(field).ok()?.parse().ok()
    }

    fn whole(field: &[u8]) -> Option<i64> {
        let digits = field.strip_prefix(b"-").unwrap_or(field);
        if digits.len() > 10 || matches!(digits.first(), Some(b'+' | b'-')) {
            return None;
        }
        std::str::from_utf8(field).ok()?.parse().ok()
    }

    fn reply(out: &mut Vec<u8>, editor: u8, act: &Act, number: u32) {
        match act {
            Act::Take => writeln!(out, "{editor} at {number}"),
            Act::Insert { a, b } if a == b => writeln!(out, "{editor} no edge"),
            Act::Insert { a, b } => {
                let (a, b) = (a.min(b), a.max(b));
                writeln!(out, "{editor} edge {} {} {} {}", a.x, a.y, b.x, b.y)
            }
            Act::Delete { name } => writeln!(out, "{editor} ready {}.{}", name.editor, name.serial),
            Act::Reads => writeln!(out, "{editor} stale by {number} tile {} {}", -7, 12),
            Act::Commit => writeln!(out, "{editor} commit {number}"),
            Act::Drop => writeln!(out, "{editor} dropped"),
            Act::Show => writeln!(out, "{editor} none"),
        }
        .unwrap();
    }

    fn bad(out: &mut Vec<u8>, number: u32) {
        writeln!(out, "bad {number}").unwrap();
    }
}

struct Digits;

const PAIRS: &[u8; 200] = b"00010203040506070809101112131415161718192021222324252627282930313233343536373839404142434445464748495051525354555657585960616263646566676869707172737475767778798081828384858687888990919293949596979899";

fn push_digits(out: &mut Vec<u8>, mut n: u64) {
    let mut buffer = [0u8; 20];
    let mut at = 20;
    while n >= 100 {
        let pair = (n % 100) as usize * 2;
        n /= 100;
        at -= 2;
        buffer[at..at + 2].copy_from_slice(&PAIRS[pair..pair + 2]);
    }
    if n >= 10 {
        let pair = n as usize * 2;
        at -= 2;
        buffer[at..at + 2].copy_from_slice(&PAIRS[pair..pair + 2]);
    } else {
        at -= 1;
        buffer[at] = b'0' + n as u8;
    }
    out.extend_from_slice(&buffer[at..]);
}

fn push_whole(out: &mut Vec<u8>, n: i64) {
    if n < 0 {
        out.push(b'-');
    }
    push_digits(out, n.unsigned_abs());
}

struct Fields<'a> {
    line: &'a [u8],
    at: usize,
}

impl<'a> Iterator for Fields<'a> {
    type Item = &'a [u8];

    fn next(&mut self) -> Option<&'a [u8]> {
        let mut start = self.at;
        while start < self.line.len() && is_blank(self.line[start]) {
            start += 1;
        }
        if start == self.line.len() {
            return None;
        }
        let mut end = start;
        while end < self.line.len() && !is_blank(self.line[end]) {
            end += 1;
        }
        self.at = end;
        Some(&self.line[start..end])
    }
}

impl Way for Digits {
    fn fields<'a>(line: &'a [u8]) -> impl Iterator<Item = &'a [u8]> {
        Fields { line, at: 0 }
    }

    fn digits(field: &[u8]) -> Option<u64> {
        if field.is_empty() || field.len() > 10 {
            return None;
        }
        let mut value = 0;
        for byte in field {
            if !byte.is_ascii_digit() {
                return None;
            }
            value = value * 10 + (byte - b'0') as u64;
        }
        Some(value)
    }

    fn whole(field: &[u8]) -> Option<i64> {
        match field.split_first() {
            Some((b'-', digits)) => Some(-(Self::digits(digits)? as i64)),
            _ => Some(Self::digits(field)? as i64),
        }
    }

    fn reply(out: &mut Vec<u8>, editor: u8, act: &Act, number: u32) {
        push_digits(out, editor as u64);
        match act {
            Act::Take => {
                out.extend_from_slice(b" at ");
                push_digits(out, number as u64);
            }
            Act::Insert { a, b } if a == b => out.extend_from_slice(b" no edge"),
            Act::Insert { a, b } => {
                let (a, b) = (a.min(b), a.max(b));
                out.extend_from_slice(b" edge");
                for n in [a.x, a.y, b.x, b.y] {
                    out.push(b' ');
                    push_whole(out, n);
                }
            }
            Act::Delete { name } => {
                out.extend_from_slice(b" ready ");
                push_digits(out, name.editor as u64);
                out.push(b'.');
                push_digits(out, name.serial as u64);
            }
            Act::Reads => {
                out.extend_from_slice(b" stale by ");
                push_digits(out, number as u64);
                out.extend_from_slice(b" tile ");
                push_whole(out, -7);
                out.push(b' ');
                push_whole(out, 12);
            }
            Act::Commit => {
                out.extend_from_slice(b" commit ");
                push_digits(out, number as u64);
            }
            Act::Drop => out.extend_from_slice(b" dropped"),
            Act::Show => out.extend_from_slice(b" none"),
        }
        out.push(b'\n');
    }

    fn bad(out: &mut Vec<u8>, number: u32) {
        out.extend_from_slice(b"bad ");
        push_digits(out, number as u64);
        out.push(b'\n');
    }
}

fn answer_all<W: Way>(script: &[u8], rounds: u32) -> Counts {
    let mut counts = Counts::default();
    let mut out = Vec::new();
    for _ in 0..rounds {
        let mut number = 0;
        let mut rest = script;
        while !rest.is_empty() {
            let end = rest.iter().position(|b| *b == b'\n').unwrap_or(rest.len());
            let line = &rest[..end];
            rest = &rest[(end + 1).min(rest.len())..];
            number += 1;
            out.clear();
            match read_line::<W>(line) {
                Line::Quiet => counts.quiet += 1,
                Line::Bad => {
                    counts.bad += 1;
                    W::bad(&mut out, number);
                }
                Line::Order { editor, act } => {
                    counts.orders += 1;
                    W::reply(&mut out, editor, &act, number);
                }
            }
            counts.bytes += out.len() as u64;
        }
    }
    counts
}

fn main() {
    let words: Vec<String> = env::args().collect();
    let rounds = words[1].parse().unwrap();
    let script = draw_script();
    let counts = match words.get(2).map(String::as_str) {
        Some("digits") => answer_all::<Digits>(&script, rounds),
        _ => answer_all::<Std>(&script, rounds),
    };
    let Counts { quiet, bad, orders, bytes } = counts;
    println!("{quiet} quiet, {bad} bad, {orders} orders, {bytes} bytes");
}
