//! Asks a server on this machine for objects over several connections at once, each of which is kept for all its requests:
//! prints how many requests were answered a second, from the first connection on until all have ended.
//!
//!     ask_many PORT FOLDER LENGTH CONNECTIONS REQUESTS
//!
//! The objects are the files of FOLDER, by their names, each of a multiple of LENGTH bytes; one of LENGTH bytes is asked for
//! whole, of a longer one its ranges of so many bytes. Each connection makes so many requests, from another one on, at most
//! 65,536. What comes to its first 16 is compared with the files. It ends with 1 where a reply isn't what was asked for.

use std::fs;
use std::io::{self, Error, ErrorKind, Read, Write};
use std::net::{Ipv4Addr, TcpStream};
use std::process::ExitCode;
use std::thread;
use std::time::{Duration, Instant};

/// How many replies of each connection are compared.
const COMPARED: usize = 16;

/// A request, what its reply begins with, and the bytes that are due.
struct Piece {
    request: String,
    status: &'static str,
    bytes: Vec<u8>,
}

fn wrong(what: &str) -> Error {
    Error::new(ErrorKind::InvalidData, what)
}

fn pieces_of(name: &str, object: &[u8], len: usize) -> Vec<Piece> {
    let piece = |(number, bytes): (usize, &[u8])| {
        let from = number * len;
        let (range, status) = if object.len() == len {
            (String::new(), "HTTP/1.1 200 ")
        } else {
            let range = format!("Range: bytes={from}-{}\r\n", from + len - 1);
            (range, "HTTP/1.1 206 ")
        };
        Piece {
            request: format!("GET /{name} HTTP/1.1\r\nHost: 127.0.0.1\r\n{range}\r\n"),
            status,
            bytes: bytes.to_vec(),
        }
    };
    object.chunks_exact(len).enumerate().map(piece).collect()
}

fn read_pieces(folder: &str, len: usize) -> io::Result<Vec<Piece>> {
    let mut pieces = Vec::new();
    for entry in fs::read_dir(folder)? {
        let entry = entry?;
        let name = entry.file_name().into_string();
        let name = name.map_err(|_| wrong("the name of a file is no text"))?;
        pieces.extend(pieces_of(&name, &fs::read(entry.path())?, len));
    }
    if pieces.is_empty() {
        return Err(wrong("there are no objects"));
    }
    Ok(pieces)
}

/// A connection, and a reply with its head.
struct Peer {
    stream: TcpStream,
    reply: Vec<u8>,
}

impl Peer {
    fn connect(port: u16, len: usize) -> io::Result<Peer> {
        let stream = TcpStream::connect((Ipv4Addr::LOCALHOST, port))?;
        stream.set_nodelay(true)?;
        Ok(Peer {
            stream,
            reply: vec![0; len + 4096],
        })
    }

    /// The bytes of a reply, where it is whole and no longer.
    fn ask(&mut self, piece: &Piece) -> io::Result<&[u8]> {
        self.stream.write_all(piece.request.as_bytes())?;
        let mut there = 0;
        let mut end = None;
        while end.is_none_or(|end| there < end) {
            match self.stream.read(&mut self.reply[there..])? {
                0 => return Err(wrong("the reply is cut short")),
                n => there += n,
            }
            if end.is_none() {
                let received = &self.reply[..there];
                let head = received.windows(4).position(|line| line == b"\r\n\r\n");
                end = head.map(|at| at + 4 + piece.bytes.len());
            }
        }
        let whole = self.reply.starts_with(piece.status.as_bytes()) && end == Some(there);
        let body = whole.then(|| &self.reply[there - piece.bytes.len()..there]);
        body.ok_or_else(|| wrong("the reply isn't what was asked for"))
    }

    fn ask_all<'a>(&mut self, pieces: impl Iterator<Item = &'a Piece>) -> io::Result<()> {
        for (number, piece) in pieces.enumerate() {
            let bytes = self.ask(piece)?;
            if number < COMPARED && bytes != piece.bytes {
                return Err(wrong("the reply has other bytes"));
            }
        }
        Ok(())
    }
}

fn run(port: u16, folder: &str, [len, connections, requests]: [usize; 3]) -> io::Result<f64> {
    let pieces = read_pieces(folder, len)?;
    let begin = Instant::now();
    let peers = (0..connections)
        .map(|_| Peer::connect(port, len))
        .collect::<io::Result<Vec<_>>>()?;
    thread::scope(|scope| {
        let turns = peers.into_iter().enumerate().map(|(number, mut peer)| {
            let first = number * pieces.len() / connections;
            let asked = pieces.iter().cycle().skip(first).take(requests);
            scope.spawn(move || peer.ask_all(asked))
        });
        let turns: Vec<_> = turns.collect();
        for turn in turns {
            turn.join().map_err(|_| wrong("a thread has ended"))??;
        }
        Ok::<(), Error>(())
    })?;
    Ok((connections * requests) as f64 / begin.elapsed().max(Duration::from_micros(1)).as_secs_f64())
}

fn main() -> ExitCode {
    let words: Vec<String> = std::env::args().skip(1).collect();
    let words: Vec<&str> = words.iter().map(String::as_str).collect();
    let answered = match words[..] {
        [port, folder, len, connections, requests] => {
            match (port.parse(), len.parse(), connections.parse(), requests.parse()) {
                (Ok(port), Ok(len), Ok(connections), Ok(requests)) if len > 0 => {
                    run(port, folder, [len, connections, requests])
                }
                _ => Err(wrong("PORT, LENGTH, CONNECTIONS and REQUESTS are numbers")),
            }
        }
        _ => Err(wrong("ask_many PORT FOLDER LENGTH CONNECTIONS REQUESTS")),
    };
    match answered {
        Ok(rate) => {
            println!("{rate:.0}");
            ExitCode::SUCCESS
        }
        Err(error) => {
            eprintln!("{error}");
            ExitCode::FAILURE
        }
    }
}
