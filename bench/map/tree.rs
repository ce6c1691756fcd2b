//! The tree of `radix_map` in plain Rust, with the same layout and the same walks, and std's
//! `BTreeMap` beside it: it takes the words of `bench_map`, for `get` the word `btree` more, and for
//! `find_all` the word `path` more, with which it keeps the path to the last key and not its leaf
//! beside. It prints the same counts. It notes no edits, since want of memory ends it.

use std::collections::BTreeMap;
use std::sync::Arc;

type Edit<V> = (u32, Option<Arc<V>>);

struct Places<T> {
    digits: u16,
    items: Vec<Arc<T>>,
}

impl<T> Places<T> {
    fn empty() -> Places<T> {
        Places { digits: 0, items: Vec::new() }
    }

    #[inline(always)]
    fn rank(&self, at: u32) -> usize {
        (self.digits & ((1 << at) - 1)).count_ones() as usize
    }

    #[inline(always)]
    fn get(&self, at: u32) -> Option<&T> {
        if self.digits >> at & 1 == 0 {
            return None;
        }
        Some(&self.items[self.rank(at)])
    }

    #[inline(always)]
    fn next(&self, at: u32) -> Option<(u32, &T)> {
        let higher = u32::from(self.digits) >> at;
        if higher == 0 {
            return None;
        }
        let n = at + higher.trailing_zeros();
        Some((n, &self.items[self.rank(n)]))
    }

    fn copy(&self, more: usize) -> Places<T> {
        let mut items = Vec::with_capacity(self.items.len().saturating_add(more).min(16));
        for item in &self.items {
            items.push(Arc::clone(item));
        }
        Places { digits: self.digits, items }
    }

    fn put(&mut self, at: u32, item: Option<Arc<T>>) {
        let low = self.rank(at);
        let is_taken = self.digits >> at & 1 != 0;
        match item {
            Some(item) if is_taken => self.items[low] = item,
            Some(item) => {
                self.items.insert(low, item);
                self.digits |= 1 << at;
            }
            None if is_taken => {
                self.items.remove(low);
                self.digits &= !(1 << at);
            }
            None => {}
        }
    }
}

trait Level<V>: Sized {
    fn empty() -> Self;
    fn is_empty(&self) -> bool;
    fn get(&self, key: u32, shift: u32) -> Option<&V>;
    fn copy(&self, more: usize) -> Self;
    fn edit(&mut self, edits: &[Edit<V>], shift: u32) -> (usize, usize);
}

struct Leaf<V> {
    places: Places<V>,
}

struct Node<L> {
    places: Places<L>,
}

#[inline(always)]
fn place(key: u32, shift: u32) -> u32 {
    key >> shift & 15
}

fn edit_value<V>(places: &mut Places<V>, edit: &Edit<V>) -> (usize, usize) {
    let at = edit.0 & 15;
    let was = places.get(at).is_some();
    let is = edit.1.is_some();
    places.put(at, edit.1.clone());
    (usize::from(is && !was), usize::from(was && !is))
}

impl<V> Level<V> for Leaf<V> {
    fn empty() -> Self {
        Leaf { places: Places::empty() }
    }

    fn is_empty(&self) -> bool {
        self.places.digits == 0
    }

    #[inline(always)]
    fn get(&self, key: u32, _shift: u32) -> Option<&V> {
        self.places.get(key & 15)
    }

    fn copy(&self, more: usize) -> Self {
        Leaf { places: self.places.copy(more) }
    }

    fn edit(&mut self, edits: &[Edit<V>], _shift: u32) -> (usize, usize) {
        let (mut added, mut removed) = (0, 0);
        for edit in edits {
            let one = edit_value(&mut self.places, edit);
            added += one.0;
            removed += one.1;
        }
        (added, removed)
    }
}

fn run_length<V>(edits: &[Edit<V>], shift: u32) -> usize {
    let at = place(edits[0].0, shift);
    edits.iter().position(|edit| place(edit.0, shift) != at).unwrap_or(edits.len())
}

impl<V, L: Level<V>> Level<V> for Node<L> {
    fn empty() -> Self {
        Node { places: Places::empty() }
    }

    fn is_empty(&self) -> bool {
        self.places.digits == 0
    }

    #[inline(always)]
    fn get(&self, key: u32, shift: u32) -> Option<&V> {
        self.places.get(place(key, shift))?.get(key, shift - 4)
    }

    fn copy(&self, more: usize) -> Self {
        Node { places: self.places.copy(more) }
    }

    fn edit(&mut self, edits: &[Edit<V>], shift: u32) -> (usize, usize) {
        let (mut added, mut removed) = (0, 0);
        let mut rest = edits;
        while !rest.is_empty() {
            let at = place(rest[0].0, shift);
            let (run, later) = rest.split_at(run_length(rest, shift));
            let one = edit_run(&mut self.places, at, run, shift);
            added += one.0;
            removed += one.1;
            rest = later;
        }
        (added, removed)
    }
}

// A child that nobody else holds is changed where it is, and one that others hold is copied first.
fn edit_run<V, L: Level<V>>(
    places: &mut Places<L>,
    at: u32,
    run: &[Edit<V>],
    shift: u32,
) -> (usize, usize) {
    if places.get(at).is_none() {
        let mut child = L::empty().copy(run.len());
        let tally = child.edit(run, shift - 4);
        places.put(at, (!child.is_empty()).then(|| Arc::new(child)));
        return tally;
    }
    let low = places.rank(at);
    let item = &mut places.items[low];
    let tally = match Arc::get_mut(item) {
        Some(child) => child.edit(run, shift - 4),
        None => {
            let mut copy = item.copy(run.len());
            let tally = copy.edit(run, shift - 4);
            *item = Arc::new(copy);
            tally
        }
    };
    if item.is_empty() {
        places.put(at, None);
    }
    tally
}

type Node1<V> = Node<Leaf<V>>;
type Node2<V> = Node<Node1<V>>;
type Node3<V> = Node<Node2<V>>;
type Node4<V> = Node<Node3<V>>;
type Node5<V> = Node<Node4<V>>;
type Node6<V> = Node<Node5<V>>;
type Root<V> = Node<Node6<V>>;

trait Walk<'a, V, L: Level<V>> {
    fn begin(node: &'a L, base: u32, from: u32, shift: u32) -> Self;
    fn step(&mut self, shift: u32) -> Option<(u32, &'a V)>;
}

struct LeafWalk<'a, V> {
    leaf: &'a Leaf<V>,
    at: u32,
    base: u32,
}

struct NodeWalk<'a, L, W> {
    node: &'a Node<L>,
    at: u32,
    base: u32,
    inner: Option<W>,
}

impl<'a, V> Walk<'a, V, Leaf<V>> for LeafWalk<'a, V> {
    fn begin(leaf: &'a Leaf<V>, base: u32, from: u32, _shift: u32) -> Self {
        LeafWalk { leaf, at: from & 15, base }
    }

    fn step(&mut self, _shift: u32) -> Option<(u32, &'a V)> {
        let (n, value) = self.leaf.places.next(self.at)?;
        self.at = n + 1;
        Some((self.base + n, value))
    }
}

impl<'a, V, L: Level<V>, W: Walk<'a, V, L>> Walk<'a, V, Node<L>> for NodeWalk<'a, L, W> {
    fn begin(node: &'a Node<L>, base: u32, from: u32, shift: u32) -> Self {
        let at = place(from, shift);
        let inner = node.places.get(at).map(|child| W::begin(child, base + (at << shift), from, shift - 4));
        NodeWalk { node, at: at + 1, base, inner }
    }

    fn step(&mut self, shift: u32) -> Option<(u32, &'a V)> {
        loop {
            if let Some(inner) = &mut self.inner {
                if let Some(entry) = inner.step(shift - 4) {
                    return Some(entry);
                }
            }
            let (n, child) = self.node.places.next(self.at)?;
            self.inner = Some(W::begin(child, self.base + (n << shift), 0, shift - 4));
            self.at = n + 1;
        }
    }
}

type Walk1<'a, V> = NodeWalk<'a, Leaf<V>, LeafWalk<'a, V>>;
type Walk2<'a, V> = NodeWalk<'a, Node1<V>, Walk1<'a, V>>;
type Walk3<'a, V> = NodeWalk<'a, Node2<V>, Walk2<'a, V>>;
type Walk4<'a, V> = NodeWalk<'a, Node3<V>, Walk3<'a, V>>;
type Walk5<'a, V> = NodeWalk<'a, Node4<V>, Walk4<'a, V>>;
type Walk6<'a, V> = NodeWalk<'a, Node5<V>, Walk5<'a, V>>;
type RootWalk<'a, V> = NodeWalk<'a, Node6<V>, Walk6<'a, V>>;

trait Finger<'a, V, L: Level<V>> {
    type Found;
    fn begin(node: &'a L) -> Self;
    fn find(&mut self, key: u32, shift: u32) -> Option<Self::Found>;
}

struct LeafFinger<'a, V> {
    leaf: &'a Leaf<V>,
}

struct NodeFinger<'a, L, F> {
    node: &'a Node<L>,
    at: u32,
    inner: Option<F>,
}

impl<'a, V> Finger<'a, V, Leaf<V>> for LeafFinger<'a, V> {
    type Found = &'a V;

    fn begin(leaf: &'a Leaf<V>) -> Self {
        LeafFinger { leaf }
    }

    #[inline(always)]
    fn find(&mut self, key: u32, shift: u32) -> Option<&'a V> {
        self.leaf.get(key, shift)
    }
}

impl<'a, V> Finger<'a, V, Node1<V>> for &'a Node1<V> {
    type Found = &'a Leaf<V>;

    fn begin(node: &'a Node1<V>) -> Self {
        node
    }

    #[inline(always)]
    fn find(&mut self, key: u32, shift: u32) -> Option<&'a Leaf<V>> {
        self.places.get(place(key, shift))
    }
}

impl<'a, V, L: Level<V>, F: Finger<'a, V, L>> Finger<'a, V, Node<L>> for NodeFinger<'a, L, F> {
    type Found = F::Found;

    fn begin(node: &'a Node<L>) -> Self {
        NodeFinger { node, at: 0, inner: None }
    }

    #[inline(always)]
    fn find(&mut self, key: u32, shift: u32) -> Option<F::Found> {
        let at = place(key, shift);
        if at == self.at {
            if let Some(inner) = &mut self.inner {
                return inner.find(key, shift - 4);
            }
        }
        let mut inner = F::begin(self.node.places.get(at)?);
        let found = inner.find(key, shift - 4);
        self.inner = Some(inner);
        self.at = at;
        found
    }
}

// A path from the root, where F is its end, from the node above the leaves on.
type Path<'a, V, F> = NodeFinger<'a, Node6<V>, Path6<'a, V, F>>;
type Path6<'a, V, F> = NodeFinger<'a, Node5<V>, Path5<'a, V, F>>;
type Path5<'a, V, F> = NodeFinger<'a, Node4<V>, Path4<'a, V, F>>;
type Path4<'a, V, F> = NodeFinger<'a, Node3<V>, Path3<'a, V, F>>;
type Path3<'a, V, F> = NodeFinger<'a, Node2<V>, NodeFinger<'a, Node1<V>, F>>;

// Look-ups that keep the path to the last key, down to its leaf.
type PathFinger<'a, V> = Path<'a, V, NodeFinger<'a, Leaf<V>, LeafFinger<'a, V>>>;

// Look-ups that keep the path to the last key, and its leaf by itself.
struct TreeFinger<'a, V> {
    path: Path<'a, V, &'a Node1<V>>,
    kept: Option<BlockLeaf<'a, V>>,
}

struct BlockLeaf<'a, V> {
    block: u32,
    leaf: Option<&'a Leaf<V>>,
}

impl<'a, V> TreeFinger<'a, V> {
    fn of(root: &'a Root<V>) -> Self {
        TreeFinger { path: Finger::begin(root), kept: None }
    }

    #[inline(always)]
    fn find(&mut self, key: u32) -> Option<&'a V> {
        self.leaf_of(key)?.get(key, 0)
    }

    #[inline(always)]
    fn leaf_of(&mut self, key: u32) -> Option<&'a Leaf<V>> {
        let block = key >> 4;
        if let Some(kept) = &self.kept {
            if kept.block == block {
                return kept.leaf;
            }
        }
        let leaf = self.path.find(key, 28);
        self.kept = Some(BlockLeaf { block, leaf });
        leaf
    }
}

struct Map<V> {
    len: usize,
    root: Root<V>,
}

impl<V> Map<V> {
    fn open() -> Map<V> {
        Map { len: 0, root: Level::<V>::empty() }
    }

    fn get(&self, key: u32) -> Option<&V> {
        self.root.get(key, 28)
    }

    fn with(&self, key: u32, value: Arc<V>) -> Map<V> {
        self.with_all(&[(key, Some(value))])
    }

    fn with_all(&self, edits: &[Edit<V>]) -> Map<V> {
        let mut root = self.root.copy(edits.len());
        let (added, removed) = root.edit(edits, 28);
        Map { len: self.len + added - removed, root }
    }

    fn edit_all(&mut self, edits: &[Edit<V>]) {
        let (added, removed) = self.root.edit(edits, 28);
        self.len = self.len + added - removed;
    }
}

struct Draws {
    state: u64,
}

impl Draws {
    fn start() -> Draws {
        Draws { state: 1 }
    }

    fn next(&mut self) -> u32 {
        self.state = self
            .state
            .wrapping_mul(6_364_136_223_846_793_005)
            .wrapping_add(1_442_695_040_888_963_407);
        (self.state >> 32) as u32
    }
}

fn tile_key(x: u32, y: u32) -> u32 {
    x * 8_193 + y
}

fn line_keys(line: &str) -> Vec<u32> {
    match line {
        "steep" => (0..8_193).map(|n| tile_key(4_096, n)).collect(),
        "flat" => (0..8_193).map(|n| tile_key(n, 4_096)).collect(),
        _ => (0..4_096).map(window_key).collect(),
    }
}

fn window_key(n: u32) -> u32 {
    tile_key(n / 64 % 64 + 4_096, n % 64 + 4_096)
}

fn line_edits(line: &str) -> Vec<Edit<u64>> {
    let value = Arc::new(7);
    line_keys(line).into_iter().map(|key| (key, Some(Arc::clone(&value)))).collect()
}

fn random_map(count: u32) -> Map<u64> {
    let value = Arc::new(7);
    let mut draws = Draws::start();
    let mut map = Map::open();
    for _ in 0..count {
        map = map.with(draws.next(), Arc::clone(&value));
    }
    map
}

fn main() {
    let words: Vec<String> = std::env::args().collect();
    let rounds: u32 = words[1].parse().expect("a number of rounds");
    let work = words[2].as_str();
    let count: u64 = match work {
        "with_random" => random_map(rounds * 10_000).len as u64,
        "with_window" => {
            let value = Arc::new(7);
            let mut map: Map<u64> = Map::open();
            for n in 0..rounds * 10_000 {
                map = map.with(window_key(n), Arc::clone(&value));
            }
            map.len as u64
        }
        "get" if words.get(3).is_some_and(|form| form == "btree") => {
            let value: Arc<u64> = Arc::new(7);
            let mut draws = Draws::start();
            let map: BTreeMap<u32, Arc<u64>> =
                (0..100_000).map(|_| (draws.next(), Arc::clone(&value))).collect();
            let mut count = 0;
            for _ in 0..rounds {
                let mut draws = Draws::start();
                for m in 0..100_000 {
                    count += u64::from(map.get(&(draws.next() ^ (m & 1))).is_some());
                }
            }
            count
        }
        "get" => {
            let map = random_map(100_000);
            let mut count = 0;
            for _ in 0..rounds {
                let mut draws = Draws::start();
                for m in 0..100_000 {
                    count += u64::from(map.get(draws.next() ^ (m & 1)).is_some());
                }
            }
            count
        }
        "entries" => {
            let map = random_map(100_000);
            let mut count: u64 = 0;
            for _ in 0..rounds {
                let mut walk = RootWalk::begin(&map.root, 0, 0, 28);
                while let Some((key, value)) = walk.step(28) {
                    count = count.wrapping_add(u64::from(key) ^ *value);
                }
            }
            count
        }
        "entries_from" => {
            let map = random_map(100_000);
            let mut draws = Draws::start();
            let mut count: u64 = 0;
            for _ in 0..rounds * 10_000 {
                let mut walk = RootWalk::begin(&map.root, 0, draws.next() ^ 1, 28);
                if let Some((key, value)) = walk.step(28) {
                    count = count.wrapping_add(u64::from(key) ^ *value);
                }
            }
            count
        }
        _ => {
            if let Some(line) = work.strip_prefix("with_all_") {
                let edits = line_edits(line);
                let mut map = Map::open();
                for _ in 0..rounds {
                    map = map.with_all(&edits);
                }
                map.len as u64
            } else if let Some(line) = work.strip_prefix("edit_all_") {
                let edits = line_edits(line);
                let mut map = Map::open();
                for _ in 0..rounds {
                    map.edit_all(&edits);
                }
                map.len as u64
            } else if let Some(line) = work.strip_prefix("find_all_") {
                let keys = line_keys(line);
                let map = Map::open().with_all(&line_edits(line));
                let mut count = 0;
                if words.get(3).is_some_and(|form| form == "path") {
                    for _ in 0..rounds {
                        let mut finger = PathFinger::begin(&map.root);
                        for key in &keys {
                            count += u64::from(finger.find(*key, 28).is_some());
                        }
                    }
                } else {
                    for _ in 0..rounds {
                        let mut finger = TreeFinger::of(&map.root);
                        for key in &keys {
                            count += u64::from(finger.find(*key).is_some());
                        }
                    }
                }
                count
            } else {
                panic!("no work is called {work}");
            }
        }
    };
    println!("rounds {rounds} count {count}");
}
