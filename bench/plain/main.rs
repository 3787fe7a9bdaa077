//! The plain counterpart of goodlock: the same answers by ordinary Rust (std only, no proofs, no tuning).
//!
//! It reads an STD trace from standard input and prints the predicted deadlocks. Output, standard error
//! and exit status are those of goodlock, so that the two can be timed on the same files.
//!
//!     rustc --edition 2021 -O main.rs && ./main --mode full --len 4 --max 1000 < trace.std
//!
//! How it works: the text is read into each thread's list of events, with numbers for names. Then the
//! lists give the order of segments and a map of edges, and a depth-first search finds the cycles.

use std::collections::{BTreeMap, HashMap};
use std::io::{self, Read, Write};
use std::process::ExitCode;

const MAX_LINE: usize = 65_536;
const MAX_HELD: usize = 64;
const MAX_DEPTH: u32 = 1_000_000;
const MAX_THREADS: usize = 1_024;
const MAX_EVENTS: usize = 4_000_000_000;
const MAX_NAMES: usize = 4_000_000_000;

// ---------------------------------------------------------------------------------------------
// The text of a line.

#[derive(Clone, Copy)]
enum Fault {
    TooLong,
    NoBar,
    NoLocation,
    NoThread,
    BadOperand,
    OnItself,
    HeldFull,
    DepthFull,
    Upgrade,
    TooManyThreads,
    TooManyEvents,
    TooManyNames,
}

impl Fault {
    fn text(self) -> &'static str {
        match self {
            Fault::TooLong => "line too long",
            Fault::NoBar => "no bar",
            Fault::NoLocation => "no location field",
            Fault::NoThread => "no thread",
            Fault::BadOperand => "bad operand",
            Fault::OnItself => "thread forks or joins itself",
            Fault::HeldFull => "too many locks held",
            Fault::DepthFull => "lock taken too often",
            Fault::Upgrade => "shared lock taken exclusively",
            Fault::TooManyThreads => "too many threads",
            Fault::TooManyEvents => "too many events",
            Fault::TooManyNames => "too many names",
        }
    }
}

#[derive(Clone, Copy, PartialEq, Eq, PartialOrd, Ord)]
enum LockMode {
    Exclusive,
    Shared,
}

#[derive(Clone, Copy, PartialEq)]
enum Operation {
    /// `is_tried` where it couldn't have waited.
    Acquire {
        mode: LockMode,
        is_tried: bool,
    },
    Release,
    Fork,
    Join,
}

/// A line that tells an event.
struct Call<'a> {
    operation: Operation,
    thread: &'a [u8],
    operand: &'a [u8],
    location: &'a [u8],
}

/// What the line says; nothing where it is empty or has another operation.
fn parse(line: &[u8], with_forks: bool) -> Result<Option<Call<'_>>, Fault> {
    if line.len() > MAX_LINE {
        return Err(Fault::TooLong);
    }
    if line.is_empty() {
        return Ok(None);
    }
    let mut fields = line.splitn(3, |&byte| byte == b'|');
    let thread = fields.next().unwrap_or_default();
    let call = fields.next().ok_or(Fault::NoBar)?;
    let location = fields.next().ok_or(Fault::NoLocation)?;
    if thread.is_empty() {
        return Err(Fault::NoThread);
    }
    let acquire = |mode, is_tried| Operation::Acquire { mode, is_tried };
    let mut parts = call.splitn(2, |&byte| byte == b'(');
    let operation = match parts.next().unwrap_or_default() {
        b"acq" => acquire(LockMode::Exclusive, false),
        b"racq" => acquire(LockMode::Shared, false),
        b"tryacq" => acquire(LockMode::Exclusive, true),
        b"tryracq" => acquire(LockMode::Shared, true),
        b"rel" | b"rrel" => Operation::Release,
        b"fork" if with_forks => Operation::Fork,
        b"join" if with_forks => Operation::Join,
        _ => return Ok(None),
    };
    let operand = parts
        .next()
        .and_then(|rest| rest.strip_suffix(b")"))
        .filter(|operand| !operand.is_empty())
        .ok_or(Fault::BadOperand)?;
    if matches!(operation, Operation::Fork | Operation::Join) && operand == thread {
        return Err(Fault::OnItself);
    }
    Ok(Some(Call {
        operation,
        thread,
        operand,
        location,
    }))
}

// ---------------------------------------------------------------------------------------------
// The trace.

/// Names numbered from 0 by first mention.
#[derive(Default)]
struct Names<'a> {
    numbers: HashMap<&'a [u8], u32>,
    names: Vec<&'a [u8]>,
}

impl<'a> Names<'a> {
    fn find(&self, name: &[u8]) -> Option<u32> {
        self.numbers.get(name).copied()
    }

    fn add(&mut self, name: &'a [u8]) -> u32 {
        let number = self.names.len() as u32;
        self.names.push(name);
        self.numbers.insert(name, number);
        number
    }

    fn name(&self, number: u32) -> &'a [u8] {
        self.names[number as usize]
    }

    fn len(&self) -> usize {
        self.names.len()
    }
}

/// An operation on the lock or thread with this number, at the location with this number.
#[derive(Clone, Copy)]
struct Event {
    operation: Operation,
    operand: u32,
    location: u32,
}

/// Each thread's events, and the names behind the numbers.
#[derive(Default)]
struct Trace<'a> {
    threads: Names<'a>,
    locks: Names<'a>,
    locations: Names<'a>,
    events: Vec<Vec<Event>>,
    /// By thread, the locks that it holds.
    held: Vec<Vec<HeldLock>>,
}

struct HeldLock {
    lock: u32,
    /// The mode of the outermost acquire.
    mode: LockMode,
    /// How often the thread has acquired it.
    depth: u32,
}

impl<'a> Trace<'a> {
    /// Reads every line; the first with a fault decides.
    fn read(text: &'a [u8], with_forks: bool) -> Result<Trace<'a>, (usize, Fault)> {
        let mut trace = Trace::default();
        for (i, piece) in text.split_inclusive(|&byte| byte == b'\n').enumerate() {
            let line = match piece.strip_suffix(b"\n") {
                Some(line) => line.strip_suffix(b"\r").unwrap_or(line),
                None => piece,
            };
            match parse(line, with_forks) {
                Ok(Some(call)) => trace.take(&call),
                Ok(None) => Ok(()),
                Err(fault) => Err(fault),
            }
            .map_err(|fault| (i + 1, fault))?;
        }
        Ok(trace)
    }

    /// Adds the event, unless it is a release of a lock that isn't held.
    fn take(&mut self, call: &Call<'a>) -> Result<(), Fault> {
        let is_on_thread = matches!(call.operation, Operation::Fork | Operation::Join);
        let thread = self.threads.find(call.thread);
        let operand = if is_on_thread {
            self.threads.find(call.operand)
        } else {
            self.locks.find(call.operand)
        };
        let location = self.locations.find(call.location);

        let held = thread.map_or(&[][..], |thread| &self.held[thread as usize]);
        let entry = held.iter().find(|entry| Some(entry.lock) == operand);
        match (call.operation, entry) {
            (Operation::Release, None) => return Ok(()),
            (Operation::Acquire { .. }, None) if held.len() >= MAX_HELD => {
                return Err(Fault::HeldFull)
            }
            (Operation::Acquire { .. }, Some(entry)) if entry.depth >= MAX_DEPTH => {
                return Err(Fault::DepthFull)
            }
            (Operation::Acquire { mode, .. }, Some(entry)) if mode < entry.mode => {
                return Err(Fault::Upgrade)
            }
            _ => {}
        }
        let is_new = |number: Option<u32>| usize::from(number.is_none());
        let (new_threads, new_locks) = if is_on_thread {
            (is_new(thread) + is_new(operand), 0)
        } else {
            (is_new(thread), is_new(operand))
        };
        if self.threads.len() + new_threads > MAX_THREADS {
            return Err(Fault::TooManyThreads);
        }
        if thread.is_some_and(|thread| self.events[thread as usize].len() >= MAX_EVENTS) {
            return Err(Fault::TooManyEvents);
        }
        if self.locks.len() + new_locks > MAX_NAMES
            || self.locations.len() + is_new(location) > MAX_NAMES
        {
            return Err(Fault::TooManyNames);
        }

        let thread = thread.unwrap_or_else(|| self.add_thread(call.thread));
        let operand = match operand {
            Some(number) => number,
            None if is_on_thread => self.add_thread(call.operand),
            None => self.locks.add(call.operand),
        };
        let location = location.unwrap_or_else(|| self.locations.add(call.location));
        self.keep_held(thread, call.operation, operand);
        self.events[thread as usize].push(Event {
            operation: call.operation,
            operand,
            location,
        });
        Ok(())
    }

    fn add_thread(&mut self, name: &'a [u8]) -> u32 {
        self.events.push(Vec::new());
        self.held.push(Vec::new());
        self.threads.add(name)
    }

    fn keep_held(&mut self, thread: u32, operation: Operation, lock: u32) {
        let held = &mut self.held[thread as usize];
        let place = held.iter().position(|entry| entry.lock == lock);
        match (operation, place) {
            (Operation::Acquire { .. }, Some(place)) => held[place].depth += 1,
            (Operation::Acquire { mode, .. }, None) => held.push(HeldLock {
                lock,
                mode,
                depth: 1,
            }),
            (Operation::Release, Some(place)) if held[place].depth > 1 => held[place].depth -= 1,
            (Operation::Release, Some(place)) => {
                held.remove(place);
            }
            _ => {}
        }
    }
}

// ---------------------------------------------------------------------------------------------
// Segments and which is before which.

/// A thread and how many forks and joins it has done.
type Segment = (u32, u32);

/// For each segment and each thread, how many of the thread's segments are before it.
struct Order {
    clocks: Vec<Vec<Vec<u32>>>,
}

impl Order {
    /// The order, or the least segment that is before itself.
    fn of(events: &[Vec<Event>]) -> Result<Order, Segment> {
        let steps = steps(events);
        let mut waits_for: Vec<Vec<u32>> = steps.iter().map(|row| vec![0; row.len()]).collect();
        for &(thread, index) in steps.iter().flatten().flatten() {
            waits_for[thread as usize][index as usize] += 1;
        }
        let mut clocks: Vec<Vec<Vec<u32>>> = steps
            .iter()
            .map(|row| vec![vec![0; events.len()]; row.len()])
            .collect();
        let mut ready: Vec<Segment> = (0..events.len() as u32)
            .map(|thread| (thread, 0))
            .filter(|&(thread, _)| waits_for[thread as usize][0] == 0)
            .collect();
        let mut left: usize = steps.iter().map(Vec::len).sum();
        while let Some((thread, index)) = ready.pop() {
            left -= 1;
            let mut clock = clocks[thread as usize][index as usize].clone();
            clock[thread as usize] = index + 1;
            for &(other, next) in &steps[thread as usize][index as usize] {
                let later = &mut clocks[other as usize][next as usize];
                for (mine, theirs) in later.iter_mut().zip(&clock) {
                    *mine = (*mine).max(*theirs);
                }
                let waits_for = &mut waits_for[other as usize][next as usize];
                *waits_for -= 1;
                if *waits_for == 0 {
                    ready.push((other, next));
                }
            }
        }
        if left > 0 {
            return Err(least_looped(&steps));
        }
        Ok(Order { clocks })
    }

    fn is_before(&self, a: Segment, b: Segment) -> bool {
        self.clocks[b.0 as usize][b.1 as usize][a.0 as usize] > a.1
    }

    /// Whether one of the edges is over before the other begins.
    fn orders(&self, e: &Edge, f: &Edge) -> bool {
        self.is_before((e.thread, e.second), (f.thread, f.first))
            || self.is_before((f.thread, f.second), (e.thread, e.first))
    }
}

/// By thread and index, the segments to which one step leads.
fn steps(events: &[Vec<Event>]) -> Vec<Vec<Vec<Segment>>> {
    let links: Vec<Vec<&Event>> = events
        .iter()
        .map(|list| {
            let is_link =
                |event: &&Event| matches!(event.operation, Operation::Fork | Operation::Join);
            list.iter().filter(is_link).collect()
        })
        .collect();
    let mut steps: Vec<Vec<Vec<Segment>>> = links
        .iter()
        .map(|list| vec![Vec::new(); list.len() + 1])
        .collect();
    for (thread, list) in links.iter().enumerate() {
        for (index, link) in list.iter().enumerate() {
            let next = (thread as u32, index as u32 + 1);
            steps[thread][index].push(next);
            if link.operation == Operation::Fork {
                steps[thread][index].push((link.operand, 0));
            } else if let Some(last) = steps[link.operand as usize].last_mut() {
                last.push(next);
            }
        }
    }
    steps
}

/// The least segment that is before itself, where there is one.
fn least_looped(steps: &[Vec<Vec<Segment>>]) -> Segment {
    let segments = steps
        .iter()
        .enumerate()
        .flat_map(|(thread, row)| (0..row.len()).map(move |index| (thread as u32, index as u32)));
    for segment in segments {
        let mut seen: Vec<Vec<bool>> = steps.iter().map(|row| vec![false; row.len()]).collect();
        let mut stack = vec![segment];
        while let Some((thread, index)) = stack.pop() {
            for &(other, next) in &steps[thread as usize][index as usize] {
                if (other, next) == segment {
                    return segment;
                }
                if !std::mem::replace(&mut seen[other as usize][next as usize], true) {
                    stack.push((other, next));
                }
            }
        }
    }
    unreachable!("some segment is before itself")
}

// ---------------------------------------------------------------------------------------------
// Edges.

/// The thread wants a lock while it holds another one. Edges are ordered by their fields.
#[derive(Clone, PartialEq, Eq, PartialOrd, Ord)]
struct Edge {
    thread: u32,
    held: u32,
    held_mode: LockMode,
    wanted: u32,
    wanted_mode: LockMode,
    /// The segment in which the held lock was acquired.
    first: u32,
    /// The segment in which the wanted lock is acquired.
    second: u32,
    /// All locks that the thread holds with their modes, ascending.
    guards: Vec<(u32, LockMode)>,
}

impl Edge {
    /// Whether its thread waits while the other edge's one holds what it holds.
    fn waits_for(&self, other: &Edge) -> bool {
        self.wanted == other.held && clash(self.wanted_mode, other.held_mode)
    }

    /// Whether the threads can't hold their locks at the same time.
    fn excludes(&self, other: &Edge) -> bool {
        self.guards.iter().any(|&(lock, mode)| {
            other
                .guards
                .binary_search_by_key(&lock, |guard| guard.0)
                .is_ok_and(|at| clash(mode, other.guards[at].1))
        })
    }
}

/// Whether two threads can't have one lock in these modes.
fn clash(mode: LockMode, other: LockMode) -> bool {
    mode == LockMode::Exclusive || other == LockMode::Exclusive
}

/// Where an edge was first seen.
struct Sample {
    held_location: u32,
    wanted_location: u32,
}

/// A lock that a thread holds, with the facts of its outermost acquire.
struct Held {
    lock: u32,
    mode: LockMode,
    depth: u32,
    segment: u32,
    location: u32,
}

/// Each edge once, with its first sample.
fn edges_of(events: &[Vec<Event>]) -> BTreeMap<Edge, Sample> {
    let mut edges = BTreeMap::new();
    for (thread, list) in events.iter().enumerate() {
        let mut held: Vec<Held> = Vec::new();
        let mut segment = 0;
        for event in list {
            let lock = event.operand;
            let place = held.iter().position(|entry| entry.lock == lock);
            match (event.operation, place) {
                (Operation::Acquire { .. }, Some(place)) => held[place].depth += 1,
                (Operation::Acquire { mode, is_tried }, None) => {
                    if !is_tried {
                        add_edges(&mut edges, thread as u32, &held, segment, event, mode);
                    }
                    held.push(Held {
                        lock,
                        mode,
                        depth: 1,
                        segment,
                        location: event.location,
                    });
                }
                (Operation::Release, Some(place)) if held[place].depth > 1 => {
                    held[place].depth -= 1
                }
                (Operation::Release, Some(place)) => {
                    held.remove(place);
                }
                (Operation::Release, None) => {}
                (Operation::Fork | Operation::Join, _) => segment += 1,
            }
        }
    }
    edges
}

fn add_edges(
    edges: &mut BTreeMap<Edge, Sample>,
    thread: u32,
    held: &[Held],
    segment: u32,
    acquire: &Event,
    wanted_mode: LockMode,
) {
    let mut guards: Vec<_> = held.iter().map(|entry| (entry.lock, entry.mode)).collect();
    guards.sort_unstable();
    for entry in held {
        let edge = Edge {
            thread,
            held: entry.lock,
            held_mode: entry.mode,
            wanted: acquire.operand,
            wanted_mode,
            first: entry.segment,
            second: segment,
            guards: guards.clone(),
        };
        edges.entry(edge).or_insert(Sample {
            held_location: entry.location,
            wanted_location: acquire.location,
        });
    }
}

// ---------------------------------------------------------------------------------------------
// Cycles.

#[derive(Clone, Copy, PartialEq, PartialOrd)]
enum Mode {
    Basic,
    Guarded,
    Full,
}

struct Query {
    mode: Mode,
    len: usize,
    max: usize,
}

struct Search<'s> {
    query: &'s Query,
    order: &'s Order,
    edges: &'s [&'s Edge],
    /// By lock, the positions of the edges that hold it.
    followers: Vec<Vec<usize>>,
    path: Vec<usize>,
    cycles: Vec<Vec<usize>>,
    has_more: bool,
}

impl Search<'_> {
    /// Finds the first cycles in order.
    fn run(&mut self) {
        for root in 0..self.edges.len() {
            self.path.push(root);
            self.grow();
            self.path.pop();
            if self.has_more {
                return;
            }
        }
    }

    /// Tries every follower of the path in order.
    fn grow(&mut self) {
        let edges = self.edges;
        let root = edges[self.path[0]];
        let last = edges[self.path[self.path.len() - 1]];
        let wanted = last.wanted as usize;
        for i in 0..self.followers[wanted].len() {
            let at = self.followers[wanted][i];
            let edge = edges[at];
            if edge.thread <= root.thread || !last.waits_for(edge) || !self.fits(edge) {
                continue;
            }
            self.path.push(at);
            if edge.waits_for(root) {
                self.list();
            } else if self.path.len() < self.query.len {
                self.grow();
            }
            self.path.pop();
            if self.has_more {
                return;
            }
        }
    }

    /// Whether the edge can stand in a cycle with each edge of the path.
    fn fits(&self, edge: &Edge) -> bool {
        self.path.iter().map(|&at| self.edges[at]).all(|other| {
            other.thread != edge.thread
                && other.held != edge.held
                && (self.query.mode < Mode::Guarded || !other.excludes(edge))
                && (self.query.mode < Mode::Full || !self.order.orders(other, edge))
        })
    }

    fn list(&mut self) {
        if self.cycles.len() < self.query.max {
            self.cycles.push(self.path.clone());
        } else {
            self.has_more = true;
        }
    }
}

// ---------------------------------------------------------------------------------------------
// The program.

struct Options {
    query: Query,
    with_forks: bool,
}

fn options() -> Option<Options> {
    let mut query = Query {
        mode: Mode::Full,
        len: 4,
        max: 1_000,
    };
    let mut with_forks = true;
    let mut words = std::env::args().skip(1);
    while let Some(word) = words.next() {
        match word.as_str() {
            "--skip-forks" => with_forks = false,
            // Locations are always numbered here; the tuned program needs to be asked.
            "--number-locations" => {}
            "--mode" => {
                query.mode = match words.next()?.as_str() {
                    "basic" => Mode::Basic,
                    "guarded" => Mode::Guarded,
                    "full" => Mode::Full,
                    _ => return None,
                }
            }
            "--len" => {
                let len = words.next()?.parse().ok();
                query.len = len.filter(|len| (2..=16).contains(len))?;
            }
            "--max" => {
                let max = words.next()?.parse().ok();
                query.max = max.filter(|max| (1..=100_000).contains(max))?;
            }
            _ => return None,
        }
    }
    Some(Options { query, with_forks })
}

/// Why there is no report: a line for standard error, and the status.
struct Refusal {
    line: Vec<u8>,
    status: u8,
}

/// The report and the status.
fn predict(text: &[u8], was_read: bool, options: &Options) -> Result<(Vec<u8>, u8), Refusal> {
    // After a failed read only the lines that were ended are judged.
    let text = if was_read {
        text
    } else {
        let end = text.iter().rposition(|&byte| byte == b'\n');
        &text[..end.map_or(0, |end| end + 1)]
    };
    let trace = Trace::read(text, options.with_forks).map_err(|(line, fault)| Refusal {
        line: format!("line {line}: {}", fault.text()).into_bytes(),
        status: 2,
    })?;
    if !was_read {
        return Err(Refusal {
            line: b"read failed".to_vec(),
            status: 4,
        });
    }
    let order = Order::of(&trace.events).map_err(|(thread, index)| {
        let end = format!(".{index} precedes itself");
        let line = [
            b"inconsistent: ",
            trace.threads.name(thread),
            end.as_bytes(),
        ]
        .concat();
        Refusal { line, status: 2 }
    })?;
    let table = edges_of(&trace.events);
    let (edges, samples): (Vec<&Edge>, Vec<&Sample>) = table.iter().unzip();
    let mut followers = vec![Vec::new(); trace.locks.len()];
    for (at, edge) in edges.iter().enumerate() {
        followers[edge.held as usize].push(at);
    }
    let mut search = Search {
        query: &options.query,
        order: &order,
        edges: &edges,
        followers,
        path: Vec::new(),
        cycles: Vec::new(),
        has_more: false,
    };
    search.run();
    let status = u8::from(!search.cycles.is_empty());
    Ok((report(&trace, &edges, &samples, &search), status))
}

fn report(trace: &Trace, edges: &[&Edge], samples: &[&Sample], search: &Search) -> Vec<u8> {
    let mut text = Vec::new();
    for (i, cycle) in search.cycles.iter().enumerate() {
        let head = format!("cycle {}: {} edges\n", i + 1, cycle.len());
        text.extend_from_slice(head.as_bytes());
        for &at in cycle {
            let line = [
                b"  ",
                trace.threads.name(edges[at].thread),
                b" holds ",
                trace.locks.name(edges[at].held),
                b" since ",
                trace.locations.name(samples[at].held_location),
                b" wants ",
                trace.locks.name(edges[at].wanted),
                b" at ",
                trace.locations.name(samples[at].wanted_location),
                b"\n",
            ];
            text.extend_from_slice(&line.concat());
        }
    }
    let more = if search.has_more { " (more)" } else { "" };
    let last = format!("cycles: {}{more}\n", search.cycles.len());
    text.extend_from_slice(last.as_bytes());
    text
}

fn complain(line: &[u8]) {
    let _ = io::stderr().write_all(&[b"goodlock: ", line, b"\n"].concat());
}

fn main() -> ExitCode {
    let Some(options) = options() else {
        complain(b"usage: [--mode basic|guarded|full] [--len 2..16] [--max 1..100000] [--skip-forks] [--number-locations]");
        return ExitCode::from(2);
    };
    let mut text = Vec::new();
    let was_read = io::stdin().read_to_end(&mut text).is_ok();
    match predict(&text, was_read, &options) {
        Ok((report, status)) => {
            let mut output = io::stdout();
            match output.write_all(&report).and_then(|()| output.flush()) {
                Ok(()) => ExitCode::from(status),
                Err(_) => {
                    complain(b"write failed");
                    ExitCode::from(4)
                }
            }
        }
        Err(refusal) => {
            complain(&refusal.line);
            ExitCode::from(refusal.status)
        }
    }
}
