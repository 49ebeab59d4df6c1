//! The yardstick of the running server: an FTP server that reads and writes, and divides nothing.
//!
//! `serve PORT FOLDER LANES FIRST LAST` has the threads and buffers of `ftpd serve`: a thread for each control connection, and as many
//! that move octets as there are lanes, each through a buffer of 65,536 octets. Passive ports are used in turn. It knows
//! what the bench says (USER, PASS, TYPE, PASV, RETR, STOR, QUIT), and judges nothing.

use std::collections::VecDeque;
use std::fs::File;
use std::io::{BufRead, BufReader, Read, Write};
use std::net::{TcpListener, TcpStream};
use std::sync::atomic::{AtomicU16, Ordering};
use std::sync::mpsc::{channel, Sender};
use std::sync::{Arc, Condvar, Mutex};
use std::{env, thread};

const BUFFER: usize = 65_536;

/// A transfer, and where its end is told.
struct Job {
    file: File,
    connection: TcpStream,
    is_upload: bool,
    end: Sender<bool>,
}

struct House {
    folder: String,
    jobs: Mutex<VecDeque<Job>>,
    bell: Condvar,
    first: u16,
    last: u16,
    next: AtomicU16,
}

fn move_all(from: &mut impl Read, to: &mut impl Write, buffer: &mut [u8]) -> bool {
    loop {
        match from.read(buffer) {
            Ok(0) => return true,
            Ok(count) => {
                if to.write_all(&buffer[..count]).is_err() {
                    return false;
                }
            }
            Err(_) => return false,
        }
    }
}

fn work(house: &House) {
    let mut buffer = vec![0; BUFFER];
    loop {
        let mut jobs = house.jobs.lock().unwrap();
        let mut job = loop {
            match jobs.pop_front() {
                Some(job) => break job,
                None => jobs = house.bell.wait(jobs).unwrap(),
            }
        };
        drop(jobs);
        let is_whole = if job.is_upload {
            move_all(&mut job.connection, &mut job.file, &mut buffer)
        } else {
            move_all(&mut job.file, &mut job.connection, &mut buffer)
        };
        drop(job.connection);
        let _ = job.end.send(is_whole);
    }
}

fn passive(house: &House) -> (TcpListener, u16) {
    loop {
        let port = house.next.fetch_add(1, Ordering::Relaxed);
        if port >= house.last {
            house.next.store(house.first, Ordering::Relaxed);
        }
        if let Ok(listener) = TcpListener::bind(("127.0.0.1", port.min(house.last))) {
            return (listener, port.min(house.last));
        }
    }
}

fn transfer(house: &House, listener: TcpListener, code: &str, path: &str) -> Option<bool> {
    let is_upload = code == "STOR";
    let path = format!("{}/{path}", house.folder);
    let file = if is_upload { File::create(path) } else { File::open(path) }.ok()?;
    let (connection, _) = listener.accept().ok()?;
    let _ = connection.set_nodelay(true);
    let (end, ended) = channel();
    house.jobs.lock().unwrap().push_back(Job { file, connection, is_upload, end });
    house.bell.notify_one();
    ended.recv().ok()
}

fn converse(house: &House, stream: TcpStream) -> std::io::Result<()> {
    let _ = stream.set_nodelay(true);
    let mut writer = stream.try_clone()?;
    let mut listener = None;
    writer.write_all(b"220 Ready\r\n")?;
    for line in BufReader::new(stream).lines() {
        let line = line?;
        let (code, argument) = line.split_once(' ').unwrap_or((&line, ""));
        let reply = match code {
            "USER" => "331 Password required\r\n".into(),
            "PASS" => "230 Welcome\r\n".into(),
            "PASV" => {
                let (bound, port) = passive(house);
                listener = Some(bound);
                format!("227 Entering Passive Mode (127,0,0,1,{},{})\r\n", port / 256, port % 256)
            }
            "RETR" | "STOR" => {
                writer.write_all(b"150 Opening data connection\r\n")?;
                match listener.take().and_then(|it| transfer(house, it, code, argument)) {
                    Some(true) => "226 Transfer complete\r\n".into(),
                    _ => "426 Connection lost\r\n".into(),
                }
            }
            "QUIT" => {
                writer.write_all(b"221 Goodbye\r\n")?;
                return Ok(());
            }
            _ => "200 Done\r\n".to_string(),
        };
        writer.write_all(reply.as_bytes())?;
    }
    Ok(())
}

fn main() {
    let words: Vec<String> = env::args().collect();
    let number = |place: usize| words[place].parse::<u16>().unwrap();
    let (first, last) = (number(4), number(5));
    let house = Arc::new(House {
        folder: words[2].clone(),
        jobs: Mutex::new(VecDeque::new()),
        bell: Condvar::new(),
        first,
        last,
        next: AtomicU16::new(first),
    });
    for _ in 0..number(3) {
        let own = house.clone();
        thread::Builder::new().stack_size(262_144).spawn(move || work(&own)).unwrap();
    }
    let listener = TcpListener::bind(("127.0.0.1", number(1))).unwrap();
    println!("ready");
    for stream in listener.incoming().flatten() {
        let own = house.clone();
        let _ = thread::Builder::new().stack_size(262_144).spawn(move || converse(&own, stream));
    }
}
