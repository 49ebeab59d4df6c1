//! The clients of the bench of the running server.
//!
//! ```text
//! load PORT down SESSIONS TIMES PATH       so many sessions download a file so often, each in turn
//! load PORT up SESSIONS TIMES OCTETS       they store so many octets each time
//! load PORT rates SKIP SECONDS PATH USER:OCTETS..   clients read on, each at most so many octets a second (0: all that comes)
//! load PORT list SESSIONS TIMES PATH       they list a folder so often
//! load PORT login SESSIONS TIMES           they log in and quit so often
//! load PORT hold SESSIONS                  they log in, and wait until standard input ends
//! ```
//!
//! `down` and `up` print the octets moved and the seconds that it took, `list` and `login` the number of listings and logins in place
//! of the octets; `rates` how many octets a second each client had behind the first SKIP seconds. A session that is told anything but
//! what it waits for ends the program. All log in as ann, or as `LOGIN=NAME` has it; a reply may have several lines.

use std::io::{BufRead, BufReader, Read, Write};
use std::net::TcpStream;
use std::os::fd::AsRawFd;
use std::sync::atomic::{AtomicU64, Ordering};
use std::sync::{Arc, Barrier};
use std::time::{Duration, Instant};
use std::{env, panic, process, thread};

extern "C" {
    fn setsockopt(socket: i32, level: i32, name: i32, value: *const i32, length: u32) -> i32;
}

const SOL_SOCKET: i32 = 1;
const SO_RCVBUF: i32 = 8;
const BUFFER: usize = 262_144;

struct Session {
    reader: BufReader<TcpStream>,
    writer: TcpStream,
}

impl Session {
    fn new(port: u16, user: &str) -> Session {
        let writer = TcpStream::connect(("127.0.0.1", port)).unwrap();
        writer.set_nodelay(true).unwrap();
        let mut session = Session { reader: BufReader::new(writer.try_clone().unwrap()), writer };
        session.wants("220");
        session.says(&format!("USER {user}"), "331");
        session.says("PASS secret", "230");
        session.says("TYPE I", "200");
        session
    }

    fn wants(&mut self, code: &str) -> String {
        let mut line = String::new();
        while line.is_empty() || line.as_bytes().get(3) == Some(&b'-') {
            line.clear();
            self.reader.read_line(&mut line).unwrap();
            assert!(line.starts_with(code), "{line:?}, wanted {code}");
        }
        line
    }

    fn says(&mut self, line: &str, code: &str) -> String {
        self.writer.write_all(format!("{line}\r\n").as_bytes()).unwrap();
        self.wants(code)
    }

    fn data(&mut self) -> TcpStream {
        let line = self.says("PASV", "227");
        let inside = line.split(['(', ')']).nth(1).unwrap();
        let numbers: Vec<u16> = inside.split(',').map(|it| it.parse().unwrap()).collect();
        TcpStream::connect(("127.0.0.1", numbers[4] * 256 + numbers[5])).unwrap()
    }

    /// What comes over a data connection by this line, in octets.
    fn fetch(&mut self, line: &str, buffer: &mut [u8]) -> u64 {
        let mut data = self.data();
        self.says(line, "1");
        let mut octets = 0;
        loop {
            match data.read(buffer).unwrap() {
                0 => break,
                count => octets += count as u64,
            }
        }
        // (ProFTPD says 226 only once its client has closed)
        drop(data);
        self.wants("226");
        octets
    }

    fn upload(&mut self, path: &str, octets: u64, buffer: &[u8]) -> u64 {
        let mut data = self.data();
        self.says(&format!("STOR {path}"), "1");
        let mut left = octets;
        while left > 0 {
            let count = left.min(buffer.len() as u64);
            data.write_all(&buffer[..count as usize]).unwrap();
            left -= count;
        }
        drop(data);
        self.wants("226");
        octets
    }
}

/// Who logs in.
fn login() -> String {
    env::var("LOGIN").unwrap_or("ann".to_string())
}

/// So many sessions at once, each of which does its part so often.
fn many(port: u16, sessions: usize, times: u32, part: impl Fn(&mut Session, usize, &mut [u8]) -> u64 + Send + Sync + 'static) {
    let start = Arc::new(Barrier::new(sessions + 1));
    let part = Arc::new(part);
    let threads: Vec<_> = (0..sessions)
        .map(|number| {
            let (start, part) = (start.clone(), part.clone());
            thread::spawn(move || {
                let mut session = Session::new(port, &login());
                let mut buffer = vec![7; BUFFER];
                start.wait();
                let octets = (0..times).map(|_| part(&mut session, number, &mut buffer)).sum::<u64>();
                session.says("QUIT", "221");
                octets
            })
        })
        .collect();
    start.wait();
    let begun = Instant::now();
    let octets = threads.into_iter().map(|it| it.join().unwrap()).sum::<u64>();
    println!("{octets} {}", begun.elapsed().as_secs_f64());
}

/// Reads a file again and again, at most so many octets a second, and counts what it had.
fn read_on(port: u16, user: &str, path: &str, rate: u64, had: &AtomicU64) {
    let mut session = Session::new(port, user);
    let mut buffer = vec![0; if rate == 0 { BUFFER } else { 8_192 }];
    loop {
        let mut data = session.data();
        if rate > 0 {
            let room = 131_072;
            unsafe { setsockopt(data.as_raw_fd(), SOL_SOCKET, SO_RCVBUF, &room, 4) };
        }
        session.says(&format!("RETR {path}"), "150");
        let begun = Instant::now();
        let mut octets = 0u64;
        loop {
            match data.read(&mut buffer).unwrap_or(0) {
                0 => break,
                count => {
                    octets += count as u64;
                    had.fetch_add(count as u64, Ordering::Relaxed);
                }
            }
            if rate > 0 {
                let due = Duration::from_secs_f64(octets as f64 / rate as f64);
                thread::sleep(due.saturating_sub(begun.elapsed()));
            }
        }
        session.wants("226");
    }
}

fn rates(port: u16, skip: f64, seconds: f64, path: &str, clients: &[String]) {
    let counts: Vec<_> = clients.iter().map(|_| Arc::new(AtomicU64::new(0))).collect();
    for (client, count) in clients.iter().zip(&counts) {
        let (user, rate) = client.split_once(':').unwrap();
        let (user, rate) = (user.to_string(), rate.parse().unwrap());
        let (path, count) = (path.to_string(), count.clone());
        thread::spawn(move || read_on(port, &user, &path, rate, &count));
    }
    thread::sleep(Duration::from_secs_f64(skip));
    let before: Vec<_> = counts.iter().map(|it| it.load(Ordering::Relaxed)).collect();
    let begun = Instant::now();
    thread::sleep(Duration::from_secs_f64(seconds));
    let after: Vec<_> = counts.iter().map(|it| it.load(Ordering::Relaxed)).collect();
    let took = begun.elapsed().as_secs_f64();
    let found = after.iter().zip(before).map(|(after, before)| ((after - before) as f64 / took).to_string());
    println!("{}", found.collect::<Vec<_>>().join(" "));
}

fn hold(port: u16, sessions: usize) {
    let held: Vec<_> = (0..sessions).map(|_| Session::new(port, &login())).collect();
    println!("held");
    let _ = std::io::stdin().read_to_end(&mut Vec::new());
    drop(held);
}

fn main() {
    // (a session that fails ends the program, whatever the others wait for)
    let told = panic::take_hook();
    panic::set_hook(Box::new(move |fault| {
        told(fault);
        process::exit(1);
    }));
    let words: Vec<String> = env::args().collect();
    let port = words[1].parse().unwrap();
    let number = |place: usize| words[place].parse::<u64>().unwrap();
    match words[2].as_str() {
        "down" => {
            let path = words[5].clone();
            many(port, number(3) as usize, number(4) as u32, move |session, _, buffer| session.fetch(&format!("RETR {path}"), buffer));
        }
        "list" => {
            let path = words[5].clone();
            many(port, number(3) as usize, number(4) as u32, move |session, _, buffer| {
                session.fetch(&format!("LIST {path}"), buffer);
                1
            });
        }
        "login" => many(port, number(3) as usize, number(4) as u32, move |_, _, _| {
            Session::new(port, &login()).says("QUIT", "221");
            1
        }),
        "up" => {
            let octets = number(5);
            many(port, number(3) as usize, number(4) as u32, move |session, place, buffer| session.upload(&format!("up{place}"), octets, buffer));
        }
        "rates" => rates(port, words[3].parse().unwrap(), words[4].parse().unwrap(), &words[5], &words[6..]),
        _ => hold(port, number(3) as usize),
    }
}
