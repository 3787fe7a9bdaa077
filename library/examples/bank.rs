//! A bank that predicts its own deadlock: two threads move money between two accounts, in opposite directions. The run
//! ends well, as the second thread starts when the first one is done; no event tells so, and another run deadlocks.
//!
//!     rustc --edition 2021 -L native=prebuilt -l static=goodlock library/examples/bank.rs -o bank
//!     ./bank

use std::sync::{Mutex, MutexGuard};
use std::thread;

/// What goodlock.h declares, as far as it is used here.
mod goodlock {
    use std::ffi::c_void;

    pub const OK: u32 = 0;
    pub const FULL: u32 = 2;
    pub const ACQUIRE: u32 = 0;
    pub const RELEASE: u32 = 2;
    pub const FORK: u32 = 6;
    pub const JOIN: u32 = 7;
    pub const FULL_MODE: u32 = 2;

    /// A handle: of a session, a lane or a report. It is given to one call at a time, as `&mut` says.
    #[repr(C)]
    pub struct Handle(*mut c_void);

    impl Handle {
        pub const NONE: Handle = Handle(std::ptr::null_mut());
    }

    // SAFETY: a handle may go from thread to thread, where something orders the calls: Rust sees to that.
    unsafe impl Send for Handle {}

    #[repr(C)]
    #[derive(Default)]
    pub struct Pulled {
        pub events: u32,
        pub ended: u32,
    }

    extern "C" {
        pub fn goodlock_open(number: u64, threads: u32, ring: u32, session: &mut Handle) -> u32;
        pub fn goodlock_lane_open(session: &mut Handle, lane: &mut Handle, thread: &mut u32) -> u32;
        pub fn goodlock_lock(session: &mut Handle, name: *const u8, length: usize, lock: &mut u32) -> u32;
        pub fn goodlock_place(session: &mut Handle, name: *const u8, length: usize, place: &mut u32) -> u32;
        pub fn goodlock_record(lane: &mut Handle, kind: u32, operand: u32, place: u32, at: &mut u32) -> u32;
        pub fn goodlock_close(lane: &mut Handle) -> u32;
        pub fn goodlock_pull(session: &mut Handle, most: u32, pulled: &mut Pulled) -> u32;
        pub fn goodlock_hand_in(session: &mut Handle, lane: &mut Handle) -> u32;
        pub fn goodlock_settle(session: &mut Handle, thread: &mut u32) -> u32;
        pub fn goodlock_settled_report(session: &mut Handle, mode: u32, length: u32, number: u32, report: &mut Handle) -> u32;
        pub fn goodlock_text(session: &mut Handle, report: &mut Handle, buffer: *mut u8, size: usize, needed: &mut usize) -> u32;
        pub fn goodlock_session_free(session: &mut Handle);
        pub fn goodlock_report_free(report: &mut Handle);
    }
}

use goodlock::Handle;

fn check(code: u32) {
    assert!(code == goodlock::OK, "goodlock answers {code}");
}

/// What one thread records into. It is the thread's own.
struct Lane(Handle);

impl Lane {
    /// Records an event, as soon as there is room for it.
    fn record(&mut self, kind: u32, operand: u32, place: u32) {
        let mut at = 0;
        loop {
            match unsafe { goodlock::goodlock_record(&mut self.0, kind, operand, place, &mut at) } {
                goodlock::FULL => thread::yield_now(), // until the collecting thread pulls
                code => return check(code),
            }
        }
    }

    fn close(mut self) -> Handle {
        loop {
            match unsafe { goodlock::goodlock_close(&mut self.0) } {
                goodlock::FULL => thread::yield_now(),
                code => {
                    check(code);
                    return self.0;
                }
            }
        }
    }
}

/// A mutex with its number beside it.
struct Account {
    lock: u32,
    balance: Mutex<i64>,
}

impl Account {
    fn take(&self, lane: &mut Lane, place: u32) -> MutexGuard<'_, i64> {
        lane.record(goodlock::ACQUIRE, self.lock, place); // before the call that may wait
        self.balance.lock().unwrap()
    }

    fn give(&self, lane: &mut Lane, guard: MutexGuard<'_, i64>, place: u32) {
        lane.record(goodlock::RELEASE, self.lock, place); // before the lock is given up
        drop(guard);
    }
}

/// The numbers of the places in the source.
#[derive(Clone, Copy)]
struct Places {
    first: u32,
    second: u32,
    end: u32,
    main: u32,
}

fn transfer(lane: &mut Lane, places: Places, from: &Account, to: &Account, amount: i64) {
    let mut first = from.take(lane, places.first);
    let mut second = to.take(lane, places.second);
    *first -= amount;
    *second += amount;
    to.give(lane, second, places.end);
    from.give(lane, first, places.end);
}

fn place(session: &mut Handle, name: &str) -> u32 {
    let mut number = 0;
    check(unsafe { goodlock::goodlock_place(session, name.as_ptr(), name.len(), &mut number) });
    number
}

fn account(session: &mut Handle, name: &str) -> Account {
    let mut lock = 0;
    check(unsafe { goodlock::goodlock_lock(session, name.as_ptr(), name.len(), &mut lock) });
    Account { lock, balance: Mutex::new(100) }
}

fn lane(session: &mut Handle) -> Lane {
    let (mut lane, mut thread) = (Handle::NONE, 0);
    check(unsafe { goodlock::goodlock_lane_open(session, &mut lane, &mut thread) });
    Lane(lane)
}

/// The lanes are those of the main thread, the saver and the spender.
const LANES: u32 = 3;
const RING: u32 = 256;

/// The collecting thread: pulls until every lane has ended, with short sleeps while all are empty. A pull may take what all
/// rings hold, so that a busy thread keeps no other one waiting.
fn collect(mut session: Handle) -> Handle {
    let (mut pulled, mut ended) = (goodlock::Pulled::default(), 0);
    while ended < LANES {
        check(unsafe { goodlock::goodlock_pull(&mut session, LANES * RING, &mut pulled) });
        ended += pulled.ended;
        if pulled.events == 0 {
            thread::sleep(std::time::Duration::from_micros(20));
        }
    }
    session
}

/// The report of all that was recorded.
fn report(session: &mut Handle) -> String {
    let (mut report, mut size) = (Handle::NONE, 0);
    let mut text = Vec::new();
    unsafe {
        check(goodlock::goodlock_settled_report(session, goodlock::FULL_MODE, 4, 1000, &mut report));
        check(goodlock::goodlock_text(session, &mut report, text.as_mut_ptr(), 0, &mut size));
        text.resize(size, 0);
        check(goodlock::goodlock_text(session, &mut report, text.as_mut_ptr(), size, &mut size));
        goodlock::goodlock_report_free(&mut report);
    }
    String::from_utf8_lossy(&text).into_owned()
}

fn main() {
    let mut session = Handle::NONE;
    check(unsafe { goodlock::goodlock_open(1, LANES, RING, &mut session) });
    let (savings, current) = (account(&mut session, "savings"), account(&mut session, "current"));
    let places = Places {
        first: place(&mut session, "transfer, first"),
        second: place(&mut session, "transfer, second"),
        end: place(&mut session, "transfer, end"),
        main: place(&mut session, "main"),
    };
    let (mut main_lane, saver, spender) = (lane(&mut session), lane(&mut session), lane(&mut session));
    let collector = thread::spawn(move || collect(session));

    let tell = |mut lane: Lane, from: &Account, to: &Account, is_done: std::sync::mpsc::Sender<()>| {
        (0..1000).for_each(|i| transfer(&mut lane, places, from, to, if i % 2 == 0 { 1 } else { -1 }));
        is_done.send(()).unwrap();
        lane.close()
    };
    let mut lanes = thread::scope(|scope| {
        let mut ended = Vec::new();
        let mut threads = Vec::new();
        for (number, lane, from, to) in [(1, saver, &current, &savings), (2, spender, &savings, &current)] {
            let (sender, is_done) = std::sync::mpsc::channel();
            main_lane.record(goodlock::FORK, number, places.main); // before the thread starts
            threads.push((number, scope.spawn(move || tell(lane, from, to, sender))));
            is_done.recv().unwrap();
        }
        for (number, thread) in threads {
            ended.push(thread.join().unwrap());
            main_lane.record(goodlock::JOIN, number, places.main); // after it was waited for
        }
        ended
    });
    lanes.push(main_lane.close());

    let mut session = collector.join().unwrap();
    let mut missing = 0;
    for lane in &mut lanes {
        check(unsafe { goodlock::goodlock_hand_in(&mut session, lane) });
    }
    check(unsafe { goodlock::goodlock_settle(&mut session, &mut missing) });
    print!("{}", report(&mut session));
    unsafe { goodlock::goodlock_session_free(&mut session) };
    assert_eq!(*savings.balance.lock().unwrap() + *current.balance.lock().unwrap(), 200);
}
