//! The tuned counterpart of goodlock: the same answers by hand-tuned Rust (std only, no proofs).
//!
//! It reads an STD trace from standard input and prints the predicted deadlocks. Output, standard error
//! and exit status are those of goodlock, so that the two can be timed on the same files.
//!
//!     rustc --edition 2021 -O main.rs && ./main --mode full --len 4 --max 1000 < trace.std
//!
//! How it works: lines are judged and edges are made in one pass over the text. Names borrow from the
//! text. What a thread holds is a node of a tree (one child for each lock, mode and segment that was
//! acquired on top), so that an acquire seen before costs one look-up and makes no edge. Edges outside the
//! strongly connected parts of the lock-order graph are dropped before they are sorted.

use std::cmp::Ordering;
use std::collections::{HashMap, HashSet};
use std::fs::File;
use std::hash::{BuildHasherDefault, Hasher};
use std::io::{self, Read, Write};
use std::ops::Range;
use std::os::fd::AsFd;
use std::process::ExitCode;

const MAX_LINE: usize = 65_536;
const MAX_HELD: usize = 64;
const MAX_DEPTH: u32 = 1_000_000;
const MAX_THREADS: usize = 1_024;
const MAX_EVENTS: u32 = 4_000_000_000;
const MAX_NAMES: usize = 4_000_000_000;
/// The shortest line that can be an event, with its line end.
const SHORTEST_EVENT: usize = "T|acq(a)|\n".len();

// ---------------------------------------------------------------------------------------------
// Hashing: a multiply-and-fold hash, quick on short keys.

#[derive(Default)]
struct QuickHasher(u64);

impl QuickHasher {
    #[inline]
    fn mix(&mut self, word: u64) {
        let product = u128::from(self.0 ^ word) * 0x9E37_79B9_7F4A_7C15_F39C_C060_5CED_C835;
        self.0 = (product as u64) ^ ((product >> 64) as u64);
    }
}

impl Hasher for QuickHasher {
    #[inline]
    fn write(&mut self, bytes: &[u8]) {
        let mut chunks = bytes.chunks_exact(8);
        for chunk in &mut chunks {
            self.mix(u64::from_le_bytes(
                chunk.try_into().expect("a chunk has 8 bytes"),
            ));
        }
        let rest = chunks.remainder();
        if !rest.is_empty() {
            let mut word = [0u8; 8];
            word[..rest.len()].copy_from_slice(rest);
            self.mix(u64::from_le_bytes(word));
        }
    }
    #[inline]
    fn write_u32(&mut self, value: u32) {
        self.mix(u64::from(value));
    }
    #[inline]
    fn write_u64(&mut self, value: u64) {
        self.mix(value);
    }
    #[inline]
    fn write_usize(&mut self, value: usize) {
        self.mix(value as u64 ^ 0xA076_1D64_78BD_642F);
    }
    #[inline]
    fn finish(&self) -> u64 {
        self.0
    }
}

type Quick = BuildHasherDefault<QuickHasher>;

/// Names numbered from 0 by first mention.
#[derive(Default)]
struct Names<'a> {
    numbers: HashMap<&'a [u8], u32, Quick>,
    names: Vec<&'a [u8]>,
}

impl<'a> Names<'a> {
    #[inline]
    fn find(&self, name: &[u8]) -> Option<u32> {
        self.numbers.get(name).copied()
    }
    fn add(&mut self, name: &'a [u8]) -> u32 {
        let number = self.names.len() as u32;
        self.names.push(name);
        self.numbers.insert(name, number);
        number
    }
    fn name(&self, number: u32) -> &'a [u8] {
        self.names[number as usize]
    }
    fn len(&self) -> usize {
        self.names.len()
    }
}

// ---------------------------------------------------------------------------------------------
// Reading the text.

#[derive(Clone, Copy)]
enum Fault {
    TooLong,
    NoBar,
    NoLocation,
    NoThread,
    BadOperand,
    OnItself,
    HeldFull,
    DepthFull,
    Upgrade,
    TooManyThreads,
    TooManyEvents,
    TooManyNames,
}

impl Fault {
    fn text(self) -> &'static str {
        match self {
            Fault::TooLong => "line too long",
            Fault::NoBar => "no bar",
            Fault::NoLocation => "no location field",
            Fault::NoThread => "no thread",
            Fault::BadOperand => "bad operand",
            Fault::OnItself => "thread forks or joins itself",
            Fault::HeldFull => "too many locks held",
            Fault::DepthFull => "lock taken too often",
            Fault::Upgrade => "shared lock taken exclusively",
            Fault::TooManyThreads => "too many threads",
            Fault::TooManyEvents => "too many events",
            Fault::TooManyNames => "too many names",
        }
    }
}

#[derive(Clone, Copy, PartialEq, Eq, PartialOrd, Ord)]
enum LockMode {
    Exclusive,
    Shared,
}

use LockMode::{Exclusive, Shared};

/// Whether two threads can't have one lock in these modes.
#[inline]
fn clash(mode: LockMode, other: LockMode) -> bool {
    mode == Exclusive || other == Exclusive
}

#[derive(Clone, Copy, PartialEq)]
enum Operation {
    /// `is_tried` where it couldn't have waited.
    Acquire {
        mode: LockMode,
        is_tried: bool,
    },
    Release,
    Fork,
    Join,
}

/// A lock that a thread holds, with the facts of its outermost acquire.
struct Held<'a> {
    lock: u32,
    mode: LockMode,
    depth: u32,
    segment: u32,
    location: &'a [u8],
}

struct Thread<'a> {
    held: Vec<Held<'a>>,
    /// The node of the tree of held locks that stands for `held`.
    node: u32,
    events: u32,
    /// Forks and joins in order: entry `i` closes segment `i`.
    links: Vec<Link>,
}

#[derive(Clone, Copy)]
struct Link {
    is_fork: bool,
    other: u32,
}

/// A sequence of held locks of one thread: the parent's, then one more lock.
struct Node {
    parent: u32,
    /// Whether an acquire that could wait led here (else one that was tried or a release out of order
    /// did), so that its edges are made.
    was_awaited: bool,
}

#[derive(Clone)]
struct Edge<'a> {
    thread: u32,
    held: u32,
    held_mode: LockMode,
    wanted: u32,
    wanted_mode: LockMode,
    first: u32,
    second: u32,
    /// Where the guard set, ascending by locks, stands in the store of guards.
    guards: (usize, usize),
    place: u32,
    held_location: &'a [u8],
    wanted_location: &'a [u8],
}

/// What was read so far.
struct Reader<'a> {
    with_forks: bool,
    number_locations: bool,
    threads: Names<'a>,
    locks: Names<'a>,
    locations: HashSet<&'a [u8], Quick>,
    states: Vec<Thread<'a>>,
    last_thread: Option<(&'a [u8], u32)>,
    nodes: Vec<Node>,
    children: HashMap<(u32, u64, u32), u32, Quick>,
    edges: Vec<Edge<'a>>,
    guards: Vec<Guard>,
}

/// A lock that is held, and in which mode.
type Guard = (u32, LockMode);

/// The position of the first `byte`, eight bytes at a time.
#[inline]
fn find(byte: u8, text: &[u8]) -> Option<usize> {
    const ONES: u64 = 0x0101_0101_0101_0101;
    let pattern = ONES * u64::from(byte);
    let mut at = 0;
    while let Some(chunk) = text.get(at..at + 8) {
        let word = u64::from_le_bytes(chunk.try_into().expect("a chunk has 8 bytes")) ^ pattern;
        let hit = word.wrapping_sub(ONES) & !word & (ONES << 7);
        if hit != 0 {
            return Some(at + hit.trailing_zeros() as usize / 8);
        }
        at += 8;
    }
    text[at..].iter().position(|&b| b == byte).map(|i| at + i)
}

impl<'a> Reader<'a> {
    fn new(with_forks: bool, number_locations: bool) -> Reader<'a> {
        Reader {
            with_forks,
            number_locations,
            threads: Names::default(),
            locks: Names::default(),
            locations: HashSet::default(),
            states: Vec::new(),
            last_thread: None,
            nodes: Vec::new(),
            children: HashMap::default(),
            edges: Vec::new(),
            guards: Vec::new(),
        }
    }

    /// Reads every line; the first with a fault decides.
    fn read(&mut self, text: &'a [u8]) -> Result<(), (u64, Fault)> {
        let mut rest = text;
        let mut number = 0u64;
        while !rest.is_empty() {
            number += 1;
            let line = match find(b'\n', rest) {
                Some(end) => {
                    let line = &rest[..end];
                    rest = &rest[end + 1..];
                    line.strip_suffix(b"\r").unwrap_or(line)
                }
                None => std::mem::take(&mut rest),
            };
            self.line(line).map_err(|fault| (number, fault))?;
        }
        Ok(())
    }

    #[inline]
    fn line(&mut self, line: &'a [u8]) -> Result<(), Fault> {
        if line.len() > MAX_LINE {
            return Err(Fault::TooLong);
        }
        if line.is_empty() {
            return Ok(());
        }
        let bar = find(b'|', line).ok_or(Fault::NoBar)?;
        let (thread, rest) = (&line[..bar], &line[bar + 1..]);
        let bar = find(b'|', rest).ok_or(Fault::NoLocation)?;
        let (call, location) = (&rest[..bar], &rest[bar + 1..]);
        if thread.is_empty() {
            return Err(Fault::NoThread);
        }
        let acquire = |mode, is_tried| Operation::Acquire { mode, is_tried };
        let open = find(b'(', call);
        let operation = match &call[..open.unwrap_or(call.len())] {
            b"acq" => acquire(Exclusive, false),
            b"rel" | b"rrel" => Operation::Release,
            b"racq" => acquire(Shared, false),
            b"tryacq" => acquire(Exclusive, true),
            b"tryracq" => acquire(Shared, true),
            b"fork" if self.with_forks => Operation::Fork,
            b"join" if self.with_forks => Operation::Join,
            _ => return Ok(()),
        };
        let operand = match open {
            Some(at) if call.len() > at + 2 && call.ends_with(b")") => {
                &call[at + 1..call.len() - 1]
            }
            _ => return Err(Fault::BadOperand),
        };
        match operation {
            Operation::Acquire { mode, is_tried } => {
                self.acquire(thread, operand, mode, is_tried, location)
            }
            Operation::Release => self.release(thread, operand, location),
            Operation::Fork => self.link(thread, operand, location, true),
            Operation::Join => self.link(thread, operand, location, false),
        }
    }

    #[inline]
    fn find_thread(&mut self, name: &'a [u8]) -> Option<u32> {
        if let Some((last, number)) = self.last_thread {
            if last == name {
                return Some(number);
            }
        }
        let number = self.threads.find(name)?;
        self.last_thread = Some((name, number));
        Some(number)
    }

    fn add_thread(&mut self, name: &'a [u8]) -> u32 {
        let node = self.nodes.len() as u32;
        self.nodes.push(Node {
            parent: node,
            was_awaited: false,
        });
        self.states.push(Thread {
            held: Vec::new(),
            node,
            events: 0,
            links: Vec::new(),
        });
        self.threads.add(name)
    }

    /// The last refusals that any event meets: threads, events, names.
    #[inline]
    fn check_limits(
        &mut self,
        thread: Option<u32>,
        new_threads: usize,
        is_new_lock: bool,
        location: &'a [u8],
    ) -> Result<(), Fault> {
        if new_threads > 0 && self.threads.len() + new_threads > MAX_THREADS {
            return Err(Fault::TooManyThreads);
        }
        if thread.is_some_and(|t| self.states[t as usize].events >= MAX_EVENTS) {
            return Err(Fault::TooManyEvents);
        }
        if is_new_lock && self.locks.len() >= MAX_NAMES {
            return Err(Fault::TooManyNames);
        }
        if self.number_locations
            && self.locations.insert(location)
            && self.locations.len() > MAX_NAMES
        {
            return Err(Fault::TooManyNames);
        }
        Ok(())
    }

    #[inline]
    fn acquire(
        &mut self,
        thread: &'a [u8],
        lock: &'a [u8],
        mode: LockMode,
        is_tried: bool,
        location: &'a [u8],
    ) -> Result<(), Fault> {
        let thread_number = self.find_thread(thread);
        let lock_number = self.locks.find(lock);
        let mut again = None;
        if let Some(t) = thread_number {
            let held = &self.states[t as usize].held;
            again = lock_number.and_then(|l| held.iter().position(|entry| entry.lock == l));
            match again {
                None if held.len() >= MAX_HELD => return Err(Fault::HeldFull),
                Some(at) if held[at].depth >= MAX_DEPTH => return Err(Fault::DepthFull),
                Some(at) if mode == Exclusive && held[at].mode == Shared => {
                    return Err(Fault::Upgrade)
                }
                _ => {}
            }
        }
        let new_threads = usize::from(thread_number.is_none());
        self.check_limits(thread_number, new_threads, lock_number.is_none(), location)?;
        let t = thread_number.unwrap_or_else(|| self.add_thread(thread));
        let lock = lock_number.unwrap_or_else(|| self.locks.add(lock));
        match again {
            Some(at) => self.states[t as usize].held[at].depth += 1,
            None => self.acquire_outermost(t, (lock, mode), is_tried, location),
        }
        self.states[t as usize].events += 1;
        Ok(())
    }

    #[inline]
    fn child(&mut self, node: u32, (lock, mode): Guard, segment: u32) -> u32 {
        let nodes = &mut self.nodes;
        let lock = u64::from(lock) << 1 | mode as u64;
        *self
            .children
            .entry((node, lock, segment))
            .or_insert_with(|| {
                nodes.push(Node {
                    parent: node,
                    was_awaited: false,
                });
                (nodes.len() - 1) as u32
            })
    }

    #[inline]
    fn acquire_outermost(
        &mut self,
        thread: u32,
        wanted: Guard,
        is_tried: bool,
        location: &'a [u8],
    ) {
        let state = &self.states[thread as usize];
        let segment = state.links.len() as u32;
        let node = self.child(state.node, wanted, segment);
        if !is_tried && !std::mem::replace(&mut self.nodes[node as usize].was_awaited, true) {
            self.make_edges(thread, wanted, segment, location);
        }
        let state = &mut self.states[thread as usize];
        state.node = node;
        let (lock, mode) = wanted;
        state.held.push(Held {
            lock,
            mode,
            depth: 1,
            segment,
            location,
        });
    }

    fn make_edges(&mut self, thread: u32, wanted: Guard, second: u32, location: &'a [u8]) {
        let state = &self.states[thread as usize];
        let start = self.guards.len();
        self.guards
            .extend(state.held.iter().map(|entry| (entry.lock, entry.mode)));
        self.guards[start..].sort_unstable();
        let guards = (start, self.guards.len());
        self.edges.extend(state.held.iter().map(|entry| Edge {
            thread,
            held: entry.lock,
            held_mode: entry.mode,
            wanted: wanted.0,
            wanted_mode: wanted.1,
            first: entry.segment,
            second,
            guards,
            place: state.events,
            held_location: entry.location,
            wanted_location: location,
        }));
    }

    #[inline]
    fn release(
        &mut self,
        thread: &'a [u8],
        lock: &'a [u8],
        location: &'a [u8],
    ) -> Result<(), Fault> {
        let Some(t) = self.find_thread(thread) else {
            return Ok(());
        };
        let Some(lock) = self.locks.find(lock) else {
            return Ok(());
        };
        let held = &self.states[t as usize].held;
        let Some(at) = held.iter().rposition(|entry| entry.lock == lock) else {
            return Ok(());
        };
        self.check_limits(Some(t), 0, false, location)?;
        let state = &mut self.states[t as usize];
        state.events += 1;
        state.held[at].depth -= 1;
        if state.held[at].depth > 0 {
            return Ok(());
        }
        let mut node = state.node;
        for _ in at..state.held.len() {
            node = self.nodes[node as usize].parent;
        }
        state.held.remove(at);
        for above in at..self.states[t as usize].held.len() {
            let Held {
                lock,
                mode,
                segment,
                ..
            } = self.states[t as usize].held[above];
            node = self.child(node, (lock, mode), segment);
        }
        self.states[t as usize].node = node;
        Ok(())
    }

    fn link(
        &mut self,
        thread: &'a [u8],
        other: &'a [u8],
        location: &'a [u8],
        is_fork: bool,
    ) -> Result<(), Fault> {
        if thread == other {
            return Err(Fault::OnItself);
        }
        let thread_number = self.find_thread(thread);
        let other_number = self.threads.find(other);
        let new_threads =
            usize::from(thread_number.is_none()) + usize::from(other_number.is_none());
        self.check_limits(thread_number, new_threads, false, location)?;
        let t = thread_number.unwrap_or_else(|| self.add_thread(thread));
        let other = other_number.unwrap_or_else(|| self.add_thread(other));
        let state = &mut self.states[t as usize];
        state.links.push(Link { is_fork, other });
        state.events += 1;
        Ok(())
    }
}

// ---------------------------------------------------------------------------------------------
// Strongly connected parts of a graph, by Tarjan's algorithm without recursion.

struct Graph {
    /// The followers of node `n` are `targets[starts[n]..starts[n + 1]]`.
    starts: Vec<usize>,
    targets: Vec<u32>,
}

impl Graph {
    fn new(size: usize, steps: &[(u32, u32)]) -> Graph {
        let mut starts = vec![0; size + 1];
        for &(from, _) in steps {
            starts[from as usize + 1] += 1;
        }
        for node in 0..size {
            starts[node + 1] += starts[node];
        }
        let mut next = starts.clone();
        let mut targets = vec![0; steps.len()];
        for &(from, to) in steps {
            targets[next[from as usize]] = to;
            next[from as usize] += 1;
        }
        Graph { starts, targets }
    }

    /// For each node the number of its part, and for each part its size.
    fn parts(&self) -> (Vec<u32>, Vec<u32>) {
        const NONE: u32 = u32::MAX;
        let size = self.starts.len() - 1;
        let (mut part_of, mut sizes) = (vec![NONE; size], Vec::new());
        let (mut index, mut low) = (vec![NONE; size], vec![0u32; size]);
        let (mut stack, mut calls) = (Vec::new(), Vec::new());
        let mut count = 0u32;
        for root in 0..size as u32 {
            if index[root as usize] != NONE {
                continue;
            }
            calls.push((root, self.starts[root as usize]));
            while let Some((node, at)) = calls.pop() {
                let n = node as usize;
                if at == self.starts[n] && index[n] == NONE {
                    index[n] = count;
                    low[n] = count;
                    count += 1;
                    stack.push(node);
                }
                if at < self.starts[n + 1] {
                    calls.push((node, at + 1));
                    let target = self.targets[at];
                    if index[target as usize] == NONE {
                        calls.push((target, self.starts[target as usize]));
                    } else if part_of[target as usize] == NONE {
                        low[n] = low[n].min(index[target as usize]);
                    }
                    continue;
                }
                if low[n] == index[n] {
                    let part = sizes.len() as u32;
                    let mut members = 0;
                    loop {
                        let member = stack.pop().expect("the root of a part is on the stack");
                        part_of[member as usize] = part;
                        members += 1;
                        if member == node {
                            break;
                        }
                    }
                    sizes.push(members);
                }
                if let Some(&(caller, _)) = calls.last() {
                    low[caller as usize] = low[caller as usize].min(low[n]);
                }
            }
        }
        (part_of, sizes)
    }
}

// ---------------------------------------------------------------------------------------------
// Happens-before between segments.

/// For each segment the clock of what is before it; segments between two joins share one clock.
struct Order {
    clocks: Vec<Vec<u32>>,
    /// By thread and segment, the number of its clock.
    clock_of: Vec<Vec<u32>>,
}

impl Order {
    /// The clocks, or nothing where a segment precedes itself.
    fn of(threads: &[Thread]) -> Option<Order> {
        let count = threads.len();
        let mut forks_left = vec![0usize; count];
        for link in threads.iter().flat_map(|thread| &thread.links) {
            forks_left[link.other as usize] += usize::from(link.is_fork);
        }
        let mut order = Order {
            clocks: vec![vec![0; count]],
            clock_of: vec![Vec::new(); count],
        };
        let mut at_start: Vec<Option<Vec<u32>>> = vec![None; count];
        let mut waiting: Vec<Vec<u32>> = vec![Vec::new(); count];
        let mut is_done = vec![false; count];
        let mut done = 0;
        let mut ready: Vec<u32> = (0..count as u32)
            .filter(|&t| forks_left[t as usize] == 0)
            .collect();
        while let Some(thread) = ready.pop() {
            let t = thread as usize;
            if order.clock_of[t].is_empty() {
                let clock = at_start[t].take().map_or(0, |clock| order.add(clock));
                order.clock_of[t].push(clock);
            }
            loop {
                let closed = order.clock_of[t].len() - 1;
                let mut clock = order.clock_of[t][closed];
                let Some(link) = threads[t].links.get(closed) else {
                    is_done[t] = true;
                    done += 1;
                    ready.append(&mut waiting[t]);
                    break;
                };
                let u = link.other as usize;
                if link.is_fork {
                    let start = at_start[u].get_or_insert_with(|| vec![0; count]);
                    raise(start, &order.clocks[clock as usize]);
                    start[t] = start[t].max(closed as u32 + 1);
                    forks_left[u] -= 1;
                    if forks_left[u] == 0 {
                        ready.push(link.other);
                    }
                } else if is_done[u] {
                    clock = order.join(clock, u);
                } else {
                    waiting[u].push(thread);
                    break;
                }
                order.clock_of[t].push(clock);
            }
        }
        (done == count).then_some(order)
    }

    fn add(&mut self, clock: Vec<u32>) -> u32 {
        self.clocks.push(clock);
        (self.clocks.len() - 1) as u32
    }

    /// The clock after a join of the ended thread `u`.
    fn join(&mut self, clock: u32, u: usize) -> u32 {
        let segments = self.clock_of[u].len() as u32;
        if self.clocks[clock as usize][u] >= segments {
            return clock;
        }
        let last = self.clock_of[u][segments as usize - 1];
        let mut joined = self.clocks[clock as usize].clone();
        raise(&mut joined, &self.clocks[last as usize]);
        joined[u] = segments;
        self.add(joined)
    }

    #[inline]
    fn before(&self, a: (u32, u32), b: (u32, u32)) -> bool {
        if a.0 == b.0 {
            return a.1 < b.1;
        }
        let clock = self.clock_of[b.0 as usize][b.1 as usize];
        self.clocks[clock as usize][a.0 as usize] > a.1
    }

    #[inline]
    fn ordered(&self, e: &Edge, f: &Edge) -> bool {
        self.before((e.thread, e.second), (f.thread, f.first))
            || self.before((f.thread, f.second), (e.thread, e.first))
    }
}

fn raise(clock: &mut [u32], other: &[u32]) {
    for (mine, theirs) in clock.iter_mut().zip(other) {
        *mine = (*mine).max(*theirs);
    }
}

/// The least segment that precedes itself, where there is one.
fn least_looped(threads: &[Thread]) -> Option<(u32, u32)> {
    let mut starts = Vec::with_capacity(threads.len());
    let mut size = 0u32;
    for thread in threads {
        starts.push(size);
        size += thread.links.len() as u32 + 1;
    }
    let mut steps = Vec::new();
    for (t, thread) in threads.iter().enumerate() {
        for (closed, link) in thread.links.iter().enumerate() {
            let segment = starts[t] + closed as u32;
            let u = link.other as usize;
            steps.push((segment, segment + 1));
            steps.push(if link.is_fork {
                (segment, starts[u])
            } else {
                (starts[u] + threads[u].links.len() as u32, segment + 1)
            });
        }
    }
    let (part_of, sizes) = Graph::new(size as usize, &steps).parts();
    let least = part_of.iter().position(|&part| sizes[part as usize] > 1)? as u32;
    let thread = starts.partition_point(|&start| start <= least) - 1;
    Some((thread as u32, least - starts[thread]))
}

// ---------------------------------------------------------------------------------------------
// Cycles.

#[derive(Clone, Copy, PartialEq, PartialOrd)]
enum Mode {
    Basic,
    Guarded,
    Full,
}

struct Query {
    mode: Mode,
    len: usize,
    max: usize,
}

struct Search<'s, 'a> {
    query: &'s Query,
    order: Option<&'s Order>,
    edges: &'s [Edge<'a>],
    guards: &'s [Guard],
    threads: &'s Names<'a>,
    locks: &'s Names<'a>,
    /// Positions of edges by held lock, ascending.
    by_held: Vec<Vec<u32>>,
    /// Positions of edges by held and wanted lock, ascending.
    by_locks: HashMap<(u32, u32), Range<usize>, Quick>,
    ranked: Vec<u32>,
    path: Vec<u32>,
    found: usize,
    report: Vec<u8>,
}

fn compare_edges(guards: &[Guard], e: &Edge, f: &Edge) -> Ordering {
    let key = |edge: &Edge| {
        let held = (edge.held, edge.held_mode);
        let wanted = (edge.wanted, edge.wanted_mode);
        (edge.thread, held, wanted, edge.first, edge.second)
    };
    key(e)
        .cmp(&key(f))
        .then_with(|| guards[e.guards.0..e.guards.1].cmp(&guards[f.guards.0..f.guards.1]))
}

/// The edges that can stand in a cycle, strictly ascending, each with its sample of least place.
fn table<'a>(mut edges: Vec<Edge<'a>>, guards: &[Guard], locks: usize) -> Vec<Edge<'a>> {
    let mut steps: Vec<(u32, u32)> = edges.iter().map(|edge| (edge.held, edge.wanted)).collect();
    steps.sort_unstable();
    steps.dedup();
    let (part_of, _) = Graph::new(locks, &steps).parts();
    edges.retain(|edge| part_of[edge.held as usize] == part_of[edge.wanted as usize]);
    edges.sort_unstable_by(|e, f| compare_edges(guards, e, f).then(e.place.cmp(&f.place)));
    edges.dedup_by(|later, kept| compare_edges(guards, later, kept) == Ordering::Equal);
    edges
}

/// Whether each lock that both have is shared in both.
fn are_apart(a: &[Guard], b: &[Guard]) -> bool {
    let (mut i, mut j) = (0, 0);
    while i < a.len() && j < b.len() {
        match a[i].0.cmp(&b[j].0) {
            Ordering::Equal if clash(a[i].1, b[j].1) => return false,
            Ordering::Equal => (i, j) = (i + 1, j + 1),
            Ordering::Less => i += 1,
            Ordering::Greater => j += 1,
        }
    }
    true
}

impl<'s, 'a> Search<'s, 'a> {
    fn new(
        query: &'s Query,
        order: Option<&'s Order>,
        edges: &'s [Edge<'a>],
        reader: &'s Reader<'a>,
    ) -> Self {
        let mut by_held = vec![Vec::new(); reader.locks.len()];
        for (at, edge) in edges.iter().enumerate() {
            by_held[edge.held as usize].push(at as u32);
        }
        let locks_of = |at: u32| (edges[at as usize].held, edges[at as usize].wanted);
        let mut ranked: Vec<u32> = (0..edges.len() as u32).collect();
        ranked.sort_by_key(|&at| locks_of(at));
        let mut by_locks: HashMap<_, _, Quick> = HashMap::default();
        let mut from = 0;
        for block in ranked.chunk_by(|&e, &f| locks_of(e) == locks_of(f)) {
            by_locks.insert(locks_of(block[0]), from..from + block.len());
            from += block.len();
        }
        Search {
            query,
            order,
            edges,
            guards: &reader.guards,
            threads: &reader.threads,
            locks: &reader.locks,
            by_held,
            by_locks,
            ranked,
            path: Vec::with_capacity(query.len),
            found: 0,
            report: Vec::new(),
        }
    }

    /// Prints the first cycles in order; the number printed and whether there are more.
    fn run(mut self) -> (Vec<u8>, usize) {
        for root in 0..self.edges.len() as u32 {
            self.path.clear();
            self.path.push(root);
            if self.grow() {
                break;
            }
        }
        let listed = self.found.min(self.query.max);
        let more = if self.found > listed { " (more)" } else { "" };
        self.report
            .extend_from_slice(format!("cycles: {listed}{more}\n").as_bytes());
        (self.report, listed)
    }

    /// Whether the edge may stand in the path: one more thread, guard set and held lock.
    #[inline]
    fn fits(&self, edge: &Edge) -> bool {
        self.path.iter().all(|&at| {
            let other = &self.edges[at as usize];
            other.thread != edge.thread
                && other.held != edge.held
                && (self.query.mode < Mode::Guarded
                    || are_apart(
                        &self.guards[other.guards.0..other.guards.1],
                        &self.guards[edge.guards.0..edge.guards.1],
                    ))
                && !self.order.is_some_and(|order| order.ordered(other, edge))
        })
    }

    /// Tries every follower of the path in order; true once more cycles than asked for are found.
    fn grow(&mut self) -> bool {
        let edges = self.edges;
        let root = &edges[self.path[0] as usize];
        let last = &edges[self.path[self.path.len() - 1] as usize];
        let may_extend = self.path.len() + 1 < self.query.len;
        let followers = if may_extend {
            0..self.by_held[last.wanted as usize].len()
        } else {
            self.by_locks
                .get(&(last.wanted, root.held))
                .cloned()
                .unwrap_or(0..0)
        };
        for i in followers {
            let at = if may_extend {
                self.by_held[last.wanted as usize][i]
            } else {
                self.ranked[i]
            };
            let edge = &edges[at as usize];
            if edge.thread <= root.thread
                || !clash(last.wanted_mode, edge.held_mode)
                || !self.fits(edge)
            {
                continue;
            }
            self.path.push(at);
            let is_enough = if edge.wanted == root.held {
                clash(edge.wanted_mode, root.held_mode) && self.list()
            } else {
                self.grow()
            };
            self.path.pop();
            if is_enough {
                return true;
            }
        }
        false
    }

    /// Lists the path as a cycle; true where it was one more than asked for.
    fn list(&mut self) -> bool {
        self.found += 1;
        if self.found > self.query.max {
            return true;
        }
        let head = format!("cycle {}: {} edges\n", self.found, self.path.len());
        self.report.extend_from_slice(head.as_bytes());
        for &at in &self.path {
            let edge = &self.edges[at as usize];
            for part in [
                b"  ",
                self.threads.name(edge.thread),
                b" holds ",
                self.locks.name(edge.held),
                b" since ",
                edge.held_location,
                b" wants ",
                self.locks.name(edge.wanted),
                b" at ",
                edge.wanted_location,
                b"\n",
            ] {
                self.report.extend_from_slice(part);
            }
        }
        false
    }
}

// ---------------------------------------------------------------------------------------------
// The program.

struct Options {
    query: Query,
    with_forks: bool,
    number_locations: bool,
}

fn options() -> Option<Options> {
    let query = Query {
        mode: Mode::Full,
        len: 4,
        max: 1_000,
    };
    let mut options = Options {
        query,
        with_forks: true,
        number_locations: false,
    };
    let mut words = std::env::args().skip(1);
    while let Some(word) = words.next() {
        match word.as_str() {
            "--skip-forks" => options.with_forks = false,
            "--number-locations" => options.number_locations = true,
            "--mode" => {
                options.query.mode = match words.next()?.as_str() {
                    "basic" => Mode::Basic,
                    "guarded" => Mode::Guarded,
                    "full" => Mode::Full,
                    _ => return None,
                }
            }
            "--len" => {
                options.query.len = words
                    .next()?
                    .parse()
                    .ok()
                    .filter(|len| (2..=16).contains(len))?
            }
            "--max" => {
                options.query.max = words
                    .next()?
                    .parse()
                    .ok()
                    .filter(|max| (1..=100_000).contains(max))?
            }
            _ => return None,
        }
    }
    Some(options)
}

/// Standard output's bytes and the status, or standard error's line and the status.
fn predict(text: &[u8], was_read: bool, options: &Options) -> Result<(Vec<u8>, u8), (Vec<u8>, u8)> {
    // Fewer locations than the limit fit into a shorter text, so they needn't be counted there.
    let may_pass_names = text.len() / SHORTEST_EVENT > MAX_NAMES;
    let mut reader = Reader::new(
        options.with_forks,
        options.number_locations || may_pass_names,
    );
    // After a failed read only the lines that were ended are judged.
    let end = if was_read {
        text.len()
    } else {
        text.iter()
            .rposition(|&b| b == b'\n')
            .map_or(0, |at| at + 1)
    };
    reader
        .read(&text[..end])
        .map_err(|(line, fault)| (format!("line {line}: {}", fault.text()).into_bytes(), 2))?;
    if !was_read {
        return Err((b"read failed".to_vec(), 4));
    }
    let has_links = reader.states.iter().any(|thread| !thread.links.is_empty());
    let mut order = None;
    if has_links {
        order = Order::of(&reader.states);
        if order.is_none() {
            let (thread, index) = least_looped(&reader.states).expect("a loop was found");
            let name = reader.threads.name(thread);
            return Err((
                [
                    b"inconsistent: ",
                    name,
                    format!(".{index} precedes itself").as_bytes(),
                ]
                .concat(),
                2,
            ));
        }
    }
    let order = order.as_ref().filter(|_| options.query.mode == Mode::Full);
    let edges = table(
        std::mem::take(&mut reader.edges),
        &reader.guards,
        reader.locks.len(),
    );
    let (report, cycles) = Search::new(&options.query, order, &edges, &reader).run();
    Ok((report, u8::from(cycles > 0)))
}

fn read_input() -> (Vec<u8>, bool) {
    let mut text = Vec::new();
    let read = io::stdin()
        .as_fd()
        .try_clone_to_owned()
        .map(File::from)
        .and_then(|mut file| file.read_to_end(&mut text));
    (text, read.is_ok())
}

fn complain(line: &[u8]) {
    let _ = io::stderr().write_all(&[b"goodlock: ", line, b"\n"].concat());
}

fn main() -> ExitCode {
    let Some(options) = options() else {
        complain(b"usage: [--mode basic|guarded|full] [--len 2..16] [--max 1..100000] [--skip-forks] [--number-locations]");
        return ExitCode::from(2);
    };
    let (text, was_read) = read_input();
    match predict(&text, was_read, &options) {
        Ok((report, status)) => match io::stdout()
            .write_all(&report)
            .and_then(|()| io::stdout().flush())
        {
            Ok(()) => ExitCode::from(status),
            Err(_) => {
                complain(b"write failed");
                ExitCode::from(4)
            }
        },
        Err((line, status)) => {
            complain(&line);
            ExitCode::from(status)
        }
    }
}
