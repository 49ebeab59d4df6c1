//! The yardstick of a round: the same rules as `bench_work round` in plain Rust, which is proved nowhere.
//!
//!     rounds plan|allot|check|seal TIMES
//!
//! It makes the tree of each tick from the same asks and rates, shares it out by the same search for levels, checks the
//! grants and their certificate, and checks them once more for the seal (`rules.rs`). It prints what the last round granted.

mod rules;

use rules::{Ask, Limits, allot, asks, check, limits, seal, tree_of};
use std::{env, hint, process};

/// One round, as far as the work goes: 0 makes the tree, 1 shares it out too, 2 checks the grants too, and 3 is a whole round. Told
/// are the octets granted, where they are sealed.
fn round(limits: &Limits, tick: u64, asks: &[(u8, Ask)], work: u32) -> Option<u64> {
    let (tree, lanes) = tree_of(limits, tick, asks)?;
    hint::black_box(&lanes);
    if work == 0 {
        return Some(0);
    }
    let (grants, entries) = allot(&tree);
    if work == 1 {
        return Some(0);
    }
    if !check(&tree, &grants, &entries) {
        return None;
    }
    if work == 2 {
        return Some(0);
    }
    Some(seal(tree, grants, entries)?.grants.iter().sum())
}

fn main() {
    let words: Vec<String> = env::args().skip(1).collect();
    let works = ["plan", "allot", "check", "seal"];
    let work = words.first().and_then(|word| works.iter().position(|it| it == word));
    let times = words.get(1).and_then(|word| word.parse::<u64>().ok());
    let (Some(work), Some(times)) = (work, times) else {
        eprintln!("use: rounds plan|allot|check|seal TIMES");
        process::exit(2);
    };
    let (limits, asks) = (limits(), asks());
    let mut told = 0;
    for tick in 0..times {
        told = round(&limits, tick, &asks, work as u32).expect("a round is refused");
    }
    println!("{told}");
}
