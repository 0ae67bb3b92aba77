//! Asks a server on this machine for ranges of 64 KiB of an object, one after the other over one connection: first for each
//! range once, and compares what comes with the file; then for some seconds, or until the connection has had as many
//! requests as it may, and prints how many requests were answered a second.
//!
//!     ask_ranges PORT TARGET FILE SECONDS
//!
//! FILE is the object's, of a multiple of 64 KiB. It ends with 1 where a reply isn't the range that was asked for.

use std::io::{self, Error, ErrorKind, Read, Write};
use std::net::{Ipv4Addr, TcpStream};
use std::process::ExitCode;
use std::time::{Duration, Instant};

const RANGE: usize = 65536;

/// A server closes a connection behind so many requests.
const MOST_REQUESTS: usize = 65536;

/// A connection, and a reply with its head.
struct Peer {
    stream: TcpStream,
    request: String,
    reply: Vec<u8>,
}

fn wrong(what: &str) -> Error {
    Error::new(ErrorKind::InvalidData, what)
}

impl Peer {
    fn connect(port: u16) -> io::Result<Peer> {
        let stream = TcpStream::connect((Ipv4Addr::LOCALHOST, port))?;
        stream.set_nodelay(true)?;
        stream.set_read_timeout(Some(Duration::from_secs(10)))?;
        Ok(Peer {
            stream,
            request: String::new(),
            reply: vec![0; RANGE + 4096],
        })
    }

    /// The bytes of a range, where the reply is whole and no longer.
    fn ask(&mut self, target: &str, from: usize) -> io::Result<&[u8]> {
        self.request = format!(
            "GET {target} HTTP/1.1\r\nHost: 127.0.0.1\r\nRange: bytes={from}-{}\r\n\r\n",
            from + RANGE - 1
        );
        self.stream.write_all(self.request.as_bytes())?;
        let mut there = 0;
        let mut end = None;
        while end.is_none_or(|end| there < end) {
            match self.stream.read(&mut self.reply[there..])? {
                0 => return Err(wrong("the reply is cut short")),
                n => there += n,
            }
            if end.is_none() {
                let received = &self.reply[..there];
                let head = received.windows(4).position(|line| line == b"\r\n\r\n");
                end = head.map(|at| at + 4 + RANGE);
            }
        }
        let whole = self.reply.starts_with(b"HTTP/1.1 206 ") && end == Some(there);
        let body = whole.then(|| &self.reply[there - RANGE..there]);
        body.ok_or_else(|| wrong("the reply is no range of this length"))
    }
}

fn run(port: u16, target: &str, file: &str, seconds: u64) -> io::Result<f64> {
    let object = std::fs::read(file)?;
    let places = || (0..object.len()).step_by(RANGE);
    let mut peer = Peer::connect(port)?;
    for from in places() {
        if peer.ask(target, from)? != &object[from..from + RANGE] {
            return Err(wrong("the reply has other bytes"));
        }
    }
    let begin = Instant::now();
    let mut count = 0u32;
    let left = MOST_REQUESTS.saturating_sub(places().count());
    for from in places().cycle().take(left) {
        peer.ask(target, from)?;
        count += 1;
        if begin.elapsed() >= Duration::from_secs(seconds) {
            break;
        }
    }
    Ok(f64::from(count) / begin.elapsed().as_secs_f64())
}

fn main() -> ExitCode {
    let words: Vec<String> = std::env::args().skip(1).collect();
    let words: Vec<&str> = words.iter().map(String::as_str).collect();
    let answered = match words[..] {
        [port, target, file, seconds] => match (port.parse(), seconds.parse()) {
            (Ok(port), Ok(seconds)) => run(port, target, file, seconds),
            _ => Err(wrong("PORT and SECONDS are numbers")),
        },
        _ => Err(wrong("ask_ranges PORT TARGET FILE SECONDS")),
    };
    match answered {
        Ok(rate) => {
            println!("{rate:.0}");
            ExitCode::SUCCESS
        }
        Err(error) => {
            eprintln!("{error}");
            ExitCode::FAILURE
        }
    }
}
