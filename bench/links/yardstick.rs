//! The yardsticks of `bench_links`: the same work in Rust on four structures. `same` is the proved
//! one's own: nodes in two lists at once, linked both ways, in a slab, and their pixels beside. `small` has nodes of
//! four 32-bit indices, which name the places of the heads, in a plain vector. `flat` has the passes in two vectors in order, by
//! segment and by pixel. `plain` has a vector of pixels for each segment, in a map. `keys` has one vector of 32-bit keys, each a
//! segment's place among the names and a pixel of the tile.
use std::collections::BTreeMap;
use std::env;
use std::hint::black_box;

#[derive(Clone, Copy, PartialEq, Eq, PartialOrd, Ord)]
struct Name {
    editor: u8,
    serial: u16,
}

#[derive(Clone, Copy, PartialEq, Eq, PartialOrd, Ord)]
struct Point {
    x: i64,
    y: i64,
}

trait Lists: Clone {
    fn open() -> Self;
    fn reserve(&mut self, more: usize);

    fn copy_with_room(&self, more: usize) -> Self {
        let mut copy = self.clone();
        copy.reserve(more);
        copy
    }

    fn has(&self, name: Name, pixel: Point) -> bool;
    fn link_between(&mut self, name: Name, pixel: Point, after: Option<Point>);

    fn link_run(&mut self, name: Name, after: Option<Point>, run: &[Point]) {
        let mut after = after;
        for pixel in run {
            self.link_between(name, *pixel, after);
            after = Some(*pixel);
        }
    }

    fn unlink_pixel(&mut self, pixel: Point);
    fn unlink_segment(&mut self, name: Name);
    fn along(&self, name: Name, visit: impl FnMut(Point));
    fn across(&self, pixel: Point, visit: impl FnMut(Name));
}

// ---- nodes in two lists by key, in a slab, and their pixels beside

const NONE: u32 = u32::MAX;

#[derive(Clone, Copy)]
struct Links {
    name: Name,
    next_of_segment: u32,
    previous_of_segment: u32,
    next_of_pixel: u32,
    previous_of_pixel: u32,
}

#[derive(Clone)]
enum Entry<T> {
    Vacant(usize),
    Occupied(T),
}

/// As the crate `slab` has it.
#[derive(Clone)]
struct Slab<T> {
    entries: Vec<Entry<T>>,
    len: usize,
    next: usize,
}

impl<T> Slab<T> {
    fn get(&self, key: u32) -> Option<&T> {
        match self.entries.get(key as usize) {
            Some(Entry::Occupied(value)) => Some(value),
            _ => None,
        }
    }

    fn get_mut(&mut self, key: u32) -> Option<&mut T> {
        match self.entries.get_mut(key as usize) {
            Some(Entry::Occupied(value)) => Some(value),
            _ => None,
        }
    }

    fn insert(&mut self, value: T) -> u32 {
        let key = self.next;
        self.len += 1;
        if key == self.entries.len() {
            self.entries.push(Entry::Occupied(value));
            self.next = key + 1;
        } else if let Entry::Vacant(next) = std::mem::replace(&mut self.entries[key], Entry::Occupied(value)) {
            self.next = next;
        }
        key as u32
    }

    fn remove(&mut self, key: u32) -> Option<T> {
        let entry = self.entries.get_mut(key as usize)?;
        match std::mem::replace(entry, Entry::Vacant(self.next)) {
            Entry::Occupied(value) => {
                self.len -= 1;
                self.next = key as usize;
                Some(value)
            }
            vacant => {
                *entry = vacant;
                None
            }
        }
    }
}

trait Owner: Copy + PartialEq {
    fn is_before(&self, other: &Self) -> bool;
}

impl Owner for Name {
    fn is_before(&self, other: &Name) -> bool {
        (self.editor < other.editor) | ((self.editor == other.editor) & (self.serial < other.serial))
    }
}

impl Owner for Point {
    fn is_before(&self, other: &Point) -> bool {
        (self.x < other.x) | ((self.x == other.x) & (self.y < other.y))
    }
}

#[derive(Clone, Copy)]
struct Head<K> {
    of: K,
    first: u32,
}

/// Where a head stands or would stand, and the first key of its list.
fn find<K: Owner>(heads: &[Head<K>], of: K) -> (Result<usize, usize>, u32) {
    let at = heads.partition_point(|head| head.of.is_before(&of));
    match heads.get(at) {
        Some(head) if head.of == of => (Ok(at), head.first),
        _ => (Err(at), NONE),
    }
}

/// Sets where a list begins. The head of a list that has become empty goes.
fn set_first<K>(heads: &mut Vec<Head<K>>, of: K, place: Result<usize, usize>, first: u32) {
    match place {
        Ok(at) if first == NONE => {
            heads.remove(at);
        }
        Ok(at) => heads[at].first = first,
        Err(at) => heads.insert(at, Head { of, first }),
    }
}

/// A copy of the heads with room for more.
fn with_room<K: Copy>(heads: &[Head<K>], more: usize) -> Vec<Head<K>> {
    let mut copy = Vec::with_capacity(heads.len() + more);
    copy.extend_from_slice(heads);
    copy
}

/// What comes before a place in a list: its head, with the head's place, or a node.
#[derive(Clone, Copy)]
enum Before {
    Head(Result<usize, usize>),
    Node(u32),
}

impl Before {
    fn link(self) -> u32 {
        match self {
            Before::Head(_) => NONE,
            Before::Node(key) => key,
        }
    }

    fn by_link<K: Owner>(heads: &[Head<K>], of: K, previous: u32) -> Before {
        if previous == NONE { Before::Head(find(heads, of).0) } else { Before::Node(previous) }
    }
}

#[derive(Clone)]
struct Same {
    nodes: Slab<Links>,
    points: Vec<Point>,
    segments: Vec<Head<Name>>,
    pixels: Vec<Head<Point>>,
}

impl Same {
    /// The first node of a pixel's list whose name isn't less, and what comes before it.
    fn seek_across(&self, pixel: Point, name: Name) -> (Before, u32) {
        let (place, first) = find(&self.pixels, pixel);
        let (mut before, mut at) = (Before::Head(place), first);
        while let Some(pass) = self.nodes.get(at).filter(|pass| pass.name < name) {
            (before, at) = (Before::Node(at), pass.next_of_pixel);
        }
        (before, at)
    }

    fn point_along(&mut self, name: Name, before: Before, next: u32) {
        match before {
            Before::Head(place) => set_first(&mut self.segments, name, place, next),
            Before::Node(key) => self.nodes.get_mut(key).unwrap().next_of_segment = next,
        }
    }

    fn point_across(&mut self, pixel: Point, before: Before, next: u32) {
        match before {
            Before::Head(place) => set_first(&mut self.pixels, pixel, place, next),
            Before::Node(key) => self.nodes.get_mut(key).unwrap().next_of_pixel = next,
        }
    }

    fn set_back_along(&mut self, key: u32, previous: u32) {
        if let Some(pass) = self.nodes.get_mut(key) {
            pass.previous_of_segment = previous;
        }
    }

    fn set_back_across(&mut self, key: u32, previous: u32) {
        if let Some(pass) = self.nodes.get_mut(key) {
            pass.previous_of_pixel = previous;
        }
    }
}

impl Lists for Same {
    fn open() -> Same {
        let nodes = Slab { entries: Vec::new(), len: 0, next: 0 };
        Same { nodes, points: Vec::new(), segments: Vec::new(), pixels: Vec::new() }
    }

    /// Where nodes are stored already the proved one grows a copy here; in Rust they grow where they are.
    fn reserve(&mut self, more: usize) {
        self.nodes.entries.reserve(more.saturating_sub(self.nodes.entries.len() - self.nodes.len));
        self.points.resize(self.nodes.entries.capacity(), Point { x: 0, y: 0 });
        self.segments.reserve(more);
        self.pixels.reserve(more);
    }

    fn copy_with_room(&self, more: usize) -> Same {
        let mut nodes = self.nodes.clone();
        nodes.entries.reserve_exact(more.saturating_sub(nodes.entries.len() - nodes.len));
        let keys = nodes.entries.capacity();
        let mut points = Vec::with_capacity(keys);
        points.extend_from_slice(&self.points[..keys.min(self.points.len())]);
        points.resize(keys, Point { x: 0, y: 0 });
        Same { nodes, points, segments: with_room(&self.segments, more), pixels: with_room(&self.pixels, more) }
    }

    fn has(&self, name: Name, pixel: Point) -> bool {
        let at = self.seek_across(pixel, name).1;
        self.nodes.get(at).is_some_and(|pass| pass.name == name)
    }

    fn link_between(&mut self, name: Name, pixel: Point, after: Option<Point>) {
        let (behind, along) = match after {
            None => {
                let (place, first) = find(&self.segments, name);
                (Before::Head(place), first)
            }
            Some(after) => {
                let at = self.seek_across(after, name).1;
                (Before::Node(at), self.nodes.get(at).unwrap().next_of_segment)
            }
        };
        let (before, across) = self.seek_across(pixel, name);
        let new = self.nodes.insert(Links {
            name,
            next_of_segment: along,
            previous_of_segment: behind.link(),
            next_of_pixel: across,
            previous_of_pixel: before.link(),
        });
        self.points[new as usize] = pixel;
        self.point_along(name, behind, new);
        self.set_back_along(along, new);
        self.point_across(pixel, before, new);
        self.set_back_across(across, new);
    }

    fn unlink_pixel(&mut self, pixel: Point) {
        let (Ok(head), mut at) = find(&self.pixels, pixel) else { return };
        while let Some(pass) = self.nodes.remove(at) {
            let before = Before::by_link(&self.segments, pass.name, pass.previous_of_segment);
            self.point_along(pass.name, before, pass.next_of_segment);
            self.set_back_along(pass.next_of_segment, pass.previous_of_segment);
            at = pass.next_of_pixel;
        }
        self.pixels.remove(head);
    }

    fn unlink_segment(&mut self, name: Name) {
        let (Ok(head), mut at) = find(&self.segments, name) else { return };
        while let Some(pass) = self.nodes.remove(at) {
            let pixel = self.points[at as usize];
            let before = Before::by_link(&self.pixels, pixel, pass.previous_of_pixel);
            self.point_across(pixel, before, pass.next_of_pixel);
            self.set_back_across(pass.next_of_pixel, pass.previous_of_pixel);
            at = pass.next_of_segment;
        }
        self.segments.remove(head);
    }

    fn along(&self, name: Name, mut visit: impl FnMut(Point)) {
        let mut at = find(&self.segments, name).1;
        while let Some(pass) = self.nodes.get(at) {
            visit(self.points[at as usize]);
            at = pass.next_of_segment;
        }
    }

    fn across(&self, pixel: Point, mut visit: impl FnMut(Name)) {
        let mut at = find(&self.pixels, pixel).1;
        while let Some(pass) = self.nodes.get(at) {
            visit(pass.name);
            at = pass.next_of_pixel;
        }
    }
}

// ---- two vectors in order

#[derive(Clone)]
struct Flat {
    by_segment: Vec<(Name, Point)>,
    by_pixel: Vec<(Name, Point)>,
}

impl Flat {
    fn segment(&self, name: Name) -> (usize, &[(Name, Point)]) {
        let start = self.by_segment.partition_point(|pass| pass.0 < name);
        let rest = &self.by_segment[start..];
        (start, &rest[..rest.partition_point(|pass| pass.0 <= name)])
    }

    fn pixel(&self, pixel: Point) -> (usize, &[(Name, Point)]) {
        let start = self.by_pixel.partition_point(|pass| pass.1 < pixel);
        let rest = &self.by_pixel[start..];
        (start, &rest[..rest.partition_point(|pass| pass.1 <= pixel)])
    }
}

impl Lists for Flat {
    fn open() -> Flat {
        Flat { by_segment: Vec::new(), by_pixel: Vec::new() }
    }

    fn reserve(&mut self, more: usize) {
        self.by_segment.reserve(more);
        self.by_pixel.reserve(more);
    }

    fn has(&self, name: Name, pixel: Point) -> bool {
        self.segment(name).1.iter().any(|pass| pass.1 == pixel)
    }

    fn link_between(&mut self, name: Name, pixel: Point, after: Option<Point>) {
        let (start, run) = self.segment(name);
        let offset = match after {
            None => 0,
            Some(after) => run.iter().position(|pass| pass.1 == after).map_or(run.len(), |i| i + 1),
        };
        self.by_segment.insert(start + offset, (name, pixel));
        let (start, run) = self.pixel(pixel);
        let place = start + run.partition_point(|pass| pass.0 < name);
        self.by_pixel.insert(place, (name, pixel));
    }

    fn unlink_pixel(&mut self, pixel: Point) {
        self.by_segment.retain(|pass| pass.1 != pixel);
        self.by_pixel.retain(|pass| pass.1 != pixel);
    }

    fn unlink_segment(&mut self, name: Name) {
        self.by_segment.retain(|pass| pass.0 != name);
        self.by_pixel.retain(|pass| pass.0 != name);
    }

    fn along(&self, name: Name, mut visit: impl FnMut(Point)) {
        self.segment(name).1.iter().for_each(|pass| visit(pass.1));
    }

    fn across(&self, pixel: Point, mut visit: impl FnMut(Name)) {
        self.pixel(pixel).1.iter().for_each(|pass| visit(pass.0));
    }
}

// ---- small nodes in two lists by index

#[derive(Clone, Copy)]
struct Node {
    segment: u32,
    pixel: u32,
    next_of_segment: u32,
    next_of_pixel: u32,
}

#[derive(Clone)]
struct Small {
    nodes: Vec<Node>,
    free: u32,
    segments: Vec<(Name, u32)>,
    pixels: Vec<(Point, u32)>,
}

impl Small {
    fn node_at(&self, segment: u32, pixel: u32) -> Option<u32> {
        let mut at = self.pixels[pixel as usize].1;
        while at != NONE {
            if self.nodes[at as usize].segment == segment {
                return Some(at);
            }
            at = self.nodes[at as usize].next_of_pixel;
        }
        None
    }

    fn unlink_of_segment(&mut self, segment: u32, node: u32) {
        let next = self.nodes[node as usize].next_of_segment;
        let mut at = self.segments[segment as usize].1;
        if at == node {
            self.segments[segment as usize].1 = next;
            return;
        }
        while self.nodes[at as usize].next_of_segment != node {
            at = self.nodes[at as usize].next_of_segment;
        }
        self.nodes[at as usize].next_of_segment = next;
    }

    fn unlink_of_pixel(&mut self, pixel: u32, node: u32) {
        let next = self.nodes[node as usize].next_of_pixel;
        let mut at = self.pixels[pixel as usize].1;
        if at == node {
            self.pixels[pixel as usize].1 = next;
            return;
        }
        while self.nodes[at as usize].next_of_pixel != node {
            at = self.nodes[at as usize].next_of_pixel;
        }
        self.nodes[at as usize].next_of_pixel = next;
    }

    fn give_back(&mut self, node: u32) {
        self.nodes[node as usize] = Node { segment: NONE, pixel: NONE, next_of_segment: self.free, next_of_pixel: NONE };
        self.free = node;
    }
}

impl Lists for Small {
    fn open() -> Small {
        Small { nodes: Vec::new(), free: NONE, segments: Vec::new(), pixels: Vec::new() }
    }

    fn reserve(&mut self, more: usize) {
        self.nodes.reserve(more);
        self.segments.reserve(more);
        self.pixels.reserve(more);
    }

    fn has(&self, name: Name, pixel: Point) -> bool {
        let Ok(segment) = self.segments.binary_search_by_key(&name, |head| head.0) else { return false };
        let Ok(pixel) = self.pixels.binary_search_by_key(&pixel, |head| head.0) else { return false };
        self.node_at(segment as u32, pixel as u32).is_some()
    }

    fn link_between(&mut self, name: Name, pixel: Point, after: Option<Point>) {
        let segment = match self.segments.binary_search_by_key(&name, |head| head.0) {
            Ok(i) => i as u32,
            Err(i) => {
                self.segments.insert(i, (name, NONE));
                for node in &mut self.nodes {
                    if node.segment != NONE && node.segment >= i as u32 {
                        node.segment += 1;
                    }
                }
                i as u32
            }
        };
        let at = match self.pixels.binary_search_by_key(&pixel, |head| head.0) {
            Ok(i) => i as u32,
            Err(i) => {
                self.pixels.insert(i, (pixel, NONE));
                for node in &mut self.nodes {
                    if node.pixel != NONE && node.pixel >= i as u32 {
                        node.pixel += 1;
                    }
                }
                i as u32
            }
        };
        let before = after.and_then(|after| {
            let i = self.pixels.binary_search_by_key(&after, |head| head.0).unwrap();
            self.node_at(segment, i as u32)
        });
        let new = if self.free == NONE { self.nodes.len() as u32 } else { self.free };
        let next_of_segment = match before {
            None => std::mem::replace(&mut self.segments[segment as usize].1, new),
            Some(before) => std::mem::replace(&mut self.nodes[before as usize].next_of_segment, new),
        };
        let mut previous = NONE;
        let mut next_of_pixel = self.pixels[at as usize].1;
        while next_of_pixel != NONE && self.nodes[next_of_pixel as usize].segment < segment {
            previous = next_of_pixel;
            next_of_pixel = self.nodes[next_of_pixel as usize].next_of_pixel;
        }
        if previous == NONE {
            self.pixels[at as usize].1 = new;
        } else {
            self.nodes[previous as usize].next_of_pixel = new;
        }
        let node = Node { segment, pixel: at, next_of_segment, next_of_pixel };
        if new as usize == self.nodes.len() {
            self.nodes.push(node);
        } else {
            self.free = self.nodes[new as usize].next_of_segment;
            self.nodes[new as usize] = node;
        }
    }

    fn unlink_pixel(&mut self, pixel: Point) {
        let Ok(i) = self.pixels.binary_search_by_key(&pixel, |head| head.0) else { return };
        let mut at = std::mem::replace(&mut self.pixels[i].1, NONE);
        while at != NONE {
            let Node { segment, next_of_pixel, .. } = self.nodes[at as usize];
            self.unlink_of_segment(segment, at);
            self.give_back(at);
            at = next_of_pixel;
        }
    }

    fn unlink_segment(&mut self, name: Name) {
        let Ok(i) = self.segments.binary_search_by_key(&name, |head| head.0) else { return };
        let mut at = std::mem::replace(&mut self.segments[i].1, NONE);
        while at != NONE {
            let Node { pixel, next_of_segment, .. } = self.nodes[at as usize];
            self.unlink_of_pixel(pixel, at);
            self.give_back(at);
            at = next_of_segment;
        }
    }

    fn along(&self, name: Name, mut visit: impl FnMut(Point)) {
        let Ok(i) = self.segments.binary_search_by_key(&name, |head| head.0) else { return };
        let mut at = self.segments[i].1;
        while at != NONE {
            visit(self.pixels[self.nodes[at as usize].pixel as usize].0);
            at = self.nodes[at as usize].next_of_segment;
        }
    }

    fn across(&self, pixel: Point, mut visit: impl FnMut(Name)) {
        let Ok(i) = self.pixels.binary_search_by_key(&pixel, |head| head.0) else { return };
        let mut at = self.pixels[i].1;
        while at != NONE {
            visit(self.segments[self.nodes[at as usize].segment as usize].0);
            at = self.nodes[at as usize].next_of_pixel;
        }
    }
}

// ---- a vector for each segment

#[derive(Clone)]
struct Plain(BTreeMap<Name, Vec<Point>>);

impl Lists for Plain {
    fn open() -> Plain {
        Plain(BTreeMap::new())
    }

    fn reserve(&mut self, _more: usize) {}

    fn has(&self, name: Name, pixel: Point) -> bool {
        self.0.get(&name).is_some_and(|points| points.contains(&pixel))
    }

    fn link_between(&mut self, name: Name, pixel: Point, after: Option<Point>) {
        let points = self.0.entry(name).or_default();
        let place = match after {
            None => 0,
            Some(after) => points.iter().position(|point| *point == after).map_or(points.len(), |i| i + 1),
        };
        points.insert(place, pixel);
    }

    fn unlink_pixel(&mut self, pixel: Point) {
        self.0.values_mut().for_each(|points| points.retain(|point| *point != pixel));
    }

    fn unlink_segment(&mut self, name: Name) {
        self.0.remove(&name);
    }

    fn along(&self, name: Name, mut visit: impl FnMut(Point)) {
        self.0.get(&name).into_iter().flatten().for_each(|point| visit(*point));
    }

    fn across(&self, pixel: Point, mut visit: impl FnMut(Name)) {
        for (name, points) in &self.0 {
            if points.contains(&pixel) {
                visit(*name);
            }
        }
    }
}

// ---- one vector of keys

#[derive(Clone)]
struct Keys {
    names: Vec<Name>,
    passes: Vec<u32>,
}

/// The pixel by its column and its row in a tile of 256 by 256.
fn pixel_key(pixel: Point) -> u32 {
    ((pixel.x as u32 & 255) << 8) | (pixel.y as u32 & 255)
}

fn point_of_key(key: u32) -> Point {
    Point { x: i64::from(key >> 8 & 255), y: i64::from(key & 255) }
}

impl Keys {
    /// Where the segment's run of keys begins and ends.
    fn run(&self, segment: usize) -> (usize, usize) {
        let start = self.passes.partition_point(|key| (key >> 16) < segment as u32);
        let len = self.passes[start..].partition_point(|key| (key >> 16) == segment as u32);
        (start, start + len)
    }

    /// The segment's place among the names, where it is put in if it is new.
    fn place_of(&mut self, name: Name) -> usize {
        match self.names.binary_search(&name) {
            Ok(i) => i,
            Err(i) => {
                let start = self.run(i).0;
                self.names.insert(i, name);
                self.passes[start..].iter_mut().for_each(|key| *key += 1 << 16);
                i
            }
        }
    }
}

impl Lists for Keys {
    fn open() -> Keys {
        Keys { names: Vec::new(), passes: Vec::new() }
    }

    fn reserve(&mut self, more: usize) {
        self.passes.reserve(more);
    }

    fn copy_with_room(&self, more: usize) -> Keys {
        let mut passes = Vec::with_capacity(self.passes.len() + more);
        passes.extend_from_slice(&self.passes);
        Keys { names: self.names.clone(), passes }
    }

    fn has(&self, name: Name, pixel: Point) -> bool {
        let Ok(segment) = self.names.binary_search(&name) else { return false };
        let (start, end) = self.run(segment);
        self.passes[start..end].contains(&((segment as u32) << 16 | pixel_key(pixel)))
    }

    fn link_between(&mut self, name: Name, pixel: Point, after: Option<Point>) {
        self.link_run(name, after, &[pixel]);
    }

    fn link_run(&mut self, name: Name, after: Option<Point>, run: &[Point]) {
        let segment = self.place_of(name);
        let high = (segment as u32) << 16;
        let (start, end) = self.run(segment);
        let at = match after {
            None => start,
            Some(after) => {
                let key = high | pixel_key(after);
                start + self.passes[start..end].iter().position(|pass| *pass == key).map_or(end - start, |i| i + 1)
            }
        };
        self.passes.splice(at..at, run.iter().map(|pixel| high | pixel_key(*pixel)));
    }

    fn unlink_pixel(&mut self, pixel: Point) {
        let low = pixel_key(pixel);
        self.passes.retain(|key| key & 0xffff != low);
    }

    fn unlink_segment(&mut self, name: Name) {
        let Ok(segment) = self.names.binary_search(&name) else { return };
        let (start, end) = self.run(segment);
        self.passes.drain(start..end);
    }

    fn along(&self, name: Name, mut visit: impl FnMut(Point)) {
        let Ok(segment) = self.names.binary_search(&name) else { return };
        let (start, end) = self.run(segment);
        self.passes[start..end].iter().for_each(|key| visit(point_of_key(*key)));
    }

    fn across(&self, pixel: Point, mut visit: impl FnMut(Name)) {
        let low = pixel_key(pixel);
        for key in &self.passes {
            if key & 0xffff == low {
                visit(self.names[(key >> 16) as usize]);
            }
        }
    }
}

// ---- the work

fn name_of(segment: u16) -> Name {
    Name { editor: 1, serial: segment + 1 }
}

fn pixel_of(pixel: u16) -> Point {
    Point { x: i64::from(pixel) / 16, y: i64::from(pixel) % 16 }
}

fn link_segment<L: Lists>(lists: &mut L, segment: u16) -> u64 {
    let mut linked = 0;
    let mut after = None;
    for pixel in 0..256 {
        if pixel % 4 == segment % 4 {
            let (name, at) = (name_of(segment), pixel_of(pixel));
            if !lists.has(name, at) {
                let before = after.filter(|before| lists.has(name, *before));
                lists.link_between(name, at, before);
                after = Some(at);
                linked += 1;
            }
        }
    }
    linked
}

fn link_all<L: Lists>(lists: &mut L) -> u64 {
    (0..16).map(|segment| link_segment(lists, segment)).sum()
}

fn walk_all<L: Lists>(lists: &L, first: u64) -> u64 {
    let mut sum = 0;
    for segment in 0..16 {
        lists.along(name_of(segment), |_point| sum += 1);
    }
    for pixel in 0..256 {
        lists.across(pixel_of(((pixel + first) % 256) as u16), |name| sum += u64::from(name.serial));
    }
    sum
}

fn run<L: Lists>(work: &str, rounds: u32) -> u64 {
    let mut total = 0;
    let mut kept = L::open();
    kept.reserve(1024);
    link_all(&mut kept);
    let line: Vec<Point> = (0..256).filter(|pixel| pixel % 4 == 0).map(pixel_of).collect();
    for _ in 0..rounds {
        match work {
            "link" => {
                let mut lists = L::open();
                lists.reserve(1024);
                total += link_all(&mut lists);
                for pixel in 0..128 {
                    lists.unlink_pixel(pixel_of(pixel));
                }
                for segment in 0..16 {
                    lists.unlink_segment(name_of(segment));
                }
                total += walk_all(&lists, total);
            }
            "copy" => {
                let copy = black_box(kept.clone());
                copy.across(pixel_of(4), |name| total += u64::from(name.serial));
            }
            "change" => {
                let mut changed = kept.copy_with_room(64);
                total += link_segment(&mut changed, 16);
                changed.across(pixel_of(4), |name| total += u64::from(name.serial));
            }
            "run" => {
                let mut changed = kept.copy_with_room(64);
                changed.link_run(name_of(16), None, &line);
                total += line.len() as u64;
                changed.across(pixel_of(4), |name| total += u64::from(name.serial));
            }
            _ => total += walk_all(black_box(&kept), total),
        }
    }
    total
}

fn main() {
    let words: Vec<String> = env::args().skip(1).collect();
    let rounds = words[0].parse().expect("the number of rounds");
    let total = match words.get(2).map(String::as_str) {
        Some("small") => run::<Small>(&words[1], rounds),
        Some("flat") => run::<Flat>(&words[1], rounds),
        Some("plain") => run::<Plain>(&words[1], rounds),
        Some("keys") => run::<Keys>(&words[1], rounds),
        _ => run::<Same>(&words[1], rounds),
    };
    println!("{rounds} rounds: {total}");
}
