//! The yardstick of the desk: a desk of atomic words and slots with the same rules in plain Rust, which is proved nowhere.
//!
//!     desk rounds LANES TIMES
//!     desk hands TIMES
//!
//! `rounds` is `bench_desk rounds`: in each round the worker of each lane asks, the round collects, decides by the rules of
//! `rules.rs` and posts, and each worker takes its grant. `hands` hands one word to and fro between two threads, without a slot:
//! one stores 2 and waits for 4, and the other makes 4 of each 2.

mod rules;

use rules::{Ask, Limits, allot, asks, limits, seal, tree_of};
use std::cell::UnsafeCell;
use std::sync::atomic::{AtomicU64, Ordering};
use std::{env, process, thread};

const MAX_LANES: usize = 64;
const MAX_ISSUED: u64 = 1 << 62;

#[derive(Clone, Copy)]
enum Slot {
    Blank,
    Ask(Ask),
    Grant(u64),
}

/// A word, and a slot that the side has which may change the word.
struct Lane {
    word: AtomicU64,
    slot: UnsafeCell<Slot>,
}

unsafe impl Sync for Lane {}

struct Desk {
    lanes: Vec<Lane>,
}

struct Book {
    issued: u64,
    last_tick: Option<u64>,
}

impl Desk {
    fn open(lanes: usize) -> Desk {
        let lane = |_| Lane { word: AtomicU64::new(0), slot: UnsafeCell::new(Slot::Blank) };
        Desk { lanes: (0..lanes).map(lane).collect() }
    }

    fn sit(&self, lane: usize) {
        self.lanes[lane].word.store(1, Ordering::Release);
    }

    fn ask(&self, lane: usize, ask: Ask) {
        let lane = &self.lanes[lane];
        unsafe { *lane.slot.get() = Slot::Ask(ask) };
        lane.word.store(2, Ordering::Release);
    }

    fn try_take(&self, lane: usize) -> Option<u64> {
        let lane = &self.lanes[lane];
        lane.word.compare_exchange(4, 1, Ordering::AcqRel, Ordering::Acquire).ok()?;
        match unsafe { lane.slot.get().replace(Slot::Blank) } {
            Slot::Grant(octets) => Some(octets),
            _ => unreachable!(),
        }
    }

    fn collect(&self, lane: usize) -> Option<Ask> {
        let lane = &self.lanes[lane];
        lane.word.compare_exchange(2, 3, Ordering::AcqRel, Ordering::Acquire).ok()?;
        match unsafe { lane.slot.get().replace(Slot::Blank) } {
            Slot::Ask(ask) => Some(ask),
            _ => unreachable!(),
        }
    }

    fn post(&self, lane: usize, octets: u64) {
        let lane = &self.lanes[lane];
        unsafe { *lane.slot.get() = Slot::Grant(octets) };
        lane.word.store(4, Ordering::Release);
    }

    /// Collects, decides and posts; a refused round posts 0 octets to each lane that it collected.
    fn round(&self, limits: &Limits, tick: u64, book: &mut Book) -> bool {
        let mut asks = [(0, Ask { user: 0, session: 0, way: rules::Way::Down, want: 0 }); MAX_LANES];
        let mut count = 0;
        for lane in 0..self.lanes.len() {
            if let Some(ask) = self.collect(lane) {
                asks[count] = (lane as u8, ask);
                count += 1;
            }
        }
        let asks = &asks[..count];
        match decide(limits, tick, asks, book) {
            Some((lanes, grants)) => {
                for (lane, octets) in lanes.iter().zip(&grants) {
                    self.post(*lane as usize, *octets);
                }
                true
            }
            None => {
                for (lane, _) in asks {
                    self.post(*lane as usize, 0);
                }
                false
            }
        }
    }
}

fn decide(limits: &Limits, tick: u64, asks: &[(u8, Ask)], book: &mut Book) -> Option<(Vec<u8>, Vec<u64>)> {
    if book.last_tick.is_some_and(|last| tick <= last) {
        return None;
    }
    let (tree, lanes) = tree_of(limits, tick, asks)?;
    let (grants, entries) = allot(&tree);
    let sealed = seal(tree, grants, entries)?;
    let total: u64 = sealed.grants.iter().sum();
    if total > MAX_ISSUED - book.issued {
        return None;
    }
    book.issued += total;
    book.last_tick = Some(tick);
    Some((lanes, sealed.grants))
}

/// Told are the octets that all workers took in the last round.
fn rounds(lanes: usize, times: u64) -> u64 {
    let (limits, asks) = (limits(), asks());
    let desk = Desk::open(lanes);
    let mut book = Book { issued: 0, last_tick: None };
    (0..lanes).for_each(|lane| desk.sit(lane));
    let mut told = 0;
    for tick in 0..times {
        (0..lanes).for_each(|lane| desk.ask(lane, asks[lane].1));
        assert!(desk.round(&limits, tick, &mut book));
        told = (0..lanes).filter_map(|lane| desk.try_take(lane)).sum();
    }
    told
}

/// Told is how often the word went to and fro.
fn hands(times: u64) -> u64 {
    let word = AtomicU64::new(0);
    let wait_for = |wanted: u64| {
        while word.load(Ordering::Acquire) != wanted {
            thread::yield_now();
        }
    };
    thread::scope(|scope| {
        scope.spawn(|| {
            for _ in 0..times {
                wait_for(2);
                word.store(4, Ordering::Release);
            }
        });
        for _ in 0..times {
            word.store(2, Ordering::Release);
            wait_for(4);
        }
    });
    times
}

fn main() {
    let words: Vec<String> = env::args().skip(1).collect();
    let numbers: Vec<u64> = words.iter().skip(1).filter_map(|word| word.parse().ok()).collect();
    let told = match (words.first().map(String::as_str), numbers.as_slice()) {
        (Some("rounds"), [lanes @ 1..=64, times]) => rounds(*lanes as usize, *times),
        (Some("hands"), [times]) => hands(*times),
        _ => {
            eprintln!("use: desk rounds LANES TIMES, or hands TIMES, with 1 to 64 lanes");
            process::exit(2);
        }
    };
    println!("{told}");
}
