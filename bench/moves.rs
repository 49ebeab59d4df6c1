//! The yardstick of the pumps: moves the same text as `bench_work transfer` by plain Rust, through buffers of the same sizes.
//!
//!     moves out|in image|text TIMES       a read, the turning, and a write, as a pump makes them
//!     moves alone out|in TIMES            the turning of text alone
//!
//! Octets are copied by `copy_from_slice`, which is `memcpy`. Text is turned octet by octet. It prints the same line as
//! `bench_work transfer`; alone, the sum of what was turned last.

use std::{env, process};

const OCTETS: usize = 1_048_576;
const HELD: usize = 131_072;
const BUFFER: usize = 65_536;
const LF: u8 = 10;
const CR: u8 = 13;

fn lines(end: &[u8]) -> Vec<u8> {
    let mut octets = Vec::new();
    for line in 0..OCTETS {
        if octets.len() >= OCTETS {
            break;
        }
        for place in 0..line % 144 * 37 % 144 {
            octets.push(b'a' + (place % 26) as u8);
        }
        octets.extend_from_slice(end);
    }
    octets.truncate(OCTETS);
    octets
}

fn send(text: &[u8], wire: &mut [u8]) -> usize {
    let mut count = 0;
    for &octet in text {
        if octet == LF {
            wire[count] = CR;
            count += 1;
        }
        wire[count] = octet;
        count += 1;
    }
    count
}

fn receive(holds_cr: &mut bool, wire: &[u8], text: &mut [u8]) -> usize {
    let mut count = 0;
    for &octet in wire {
        if *holds_cr && octet != LF {
            text[count] = CR;
            count += 1;
        }
        *holds_cr = octet == CR;
        if octet != CR {
            text[count] = octet;
            count += 1;
        }
    }
    count
}

/// The other end: each piece behind the last one, or at the front.
struct Over {
    octets: Vec<u8>,
    at: usize,
}

impl Over {
    #[inline(never)]
    fn put(&mut self, piece: &[u8]) {
        if self.at > self.octets.len() - piece.len() {
            self.at = 0;
        }
        self.octets[self.at..self.at + piece.len()].copy_from_slice(piece);
        self.at += piece.len();
    }
}

#[inline(never)]
fn read(piece: &[u8], buffer: &mut [u8]) {
    buffer[..piece.len()].copy_from_slice(piece);
}

/// Moves the text so many times, and returns how many octets went over the wire.
fn move_all(is_upload: bool, is_text: bool, times: u32, held: &mut Over) -> u64 {
    let octets = lines(if is_upload && is_text { b"\r\n" } else { b"\n" });
    let most = if is_text && !is_upload { BUFFER / 2 } else { BUFFER };
    let (mut buffer, mut turned) = (vec![0; BUFFER], vec![0; BUFFER + 1]);
    let (mut moved, mut holds_cr) = (0, false);
    for _ in 0..times {
        for piece in octets.chunks(most) {
            read(piece, &mut buffer);
            let read = &buffer[..piece.len()];
            let count = match (is_text, is_upload) {
                (false, _) => {
                    held.put(read);
                    read.len()
                }
                (true, false) => {
                    let count = send(read, &mut turned);
                    held.put(&turned[..count]);
                    count
                }
                (true, true) => {
                    let count = receive(&mut holds_cr, read, &mut turned);
                    held.put(&turned[..count]);
                    read.len()
                }
            };
            moved += count as u64;
        }
    }
    moved
}

/// Turns the text so many times, and returns the sum of what was turned last.
fn turn_all(is_upload: bool, times: u32) -> u64 {
    let octets = lines(if is_upload { b"\r\n" } else { b"\n" });
    let most = if is_upload { BUFFER } else { BUFFER / 2 };
    let (mut turned, mut holds_cr) = (vec![0; BUFFER + 1], false);
    for _ in 0..times {
        for piece in octets.chunks(most) {
            std::hint::black_box(match is_upload {
                false => send(piece, &mut turned),
                true => receive(&mut holds_cr, piece, &mut turned),
            });
            std::hint::black_box(&mut turned);
        }
    }
    turned.iter().map(|it| *it as u64).sum()
}

fn main() {
    let words: Vec<String> = env::args().skip(1).collect();
    let words: Vec<&str> = words.iter().map(String::as_str).collect();
    let (["alone", way, times] | [way, _, times]) = words.as_slice() else {
        eprintln!("use: moves out|in image|text TIMES, or moves alone out|in TIMES");
        process::exit(2);
    };
    let times = times.parse().expect("a number of times");
    if words[0] == "alone" {
        println!("sum {}", turn_all(*way == "in", times));
        return;
    }
    let mut held = Over {
        octets: vec![0; HELD],
        at: 0,
    };
    let moved = move_all(*way == "in", words[1] == "text", times, &mut held);
    let sum: u64 = held.octets.iter().map(|it| *it as u64).sum();
    println!("moved {moved} sum {sum}");
}
