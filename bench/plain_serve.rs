//! A server of objects by byte ranges as an ordinary Rust program has it, for comparison: the replies of docs/serving.md,
//! on so many threads (1 where none is named), on each one connection after the other.
//!
//!     plain_serve serve DATASET --port=P --connections=N [--workers=W]
//!
//! Port 0 is any free one. It prints `listening PORT`. On each thread the file that was read last stays open, as long as it
//! stands there and is as long as it was.

use std::fs::{self, File, Metadata};
use std::io::{self, ErrorKind, Read, Write};
use std::net::{Ipv4Addr, TcpListener, TcpStream};
use std::os::unix::fs::{FileExt, MetadataExt};
use std::process::ExitCode;
use std::sync::atomic::{AtomicU32, Ordering};
use std::thread;
use std::time::{Duration, Instant};

const MOST_HEAD: usize = 8192;
const PIECE: usize = 65536;
const MOST_REQUESTS: u32 = 65536;

/// An object's file, its length, and its device and inode.
struct Object {
    path: String,
    file: File,
    len: u64,
    place: (u64, u64),
}

impl Object {
    fn is(&self, path: &str, found: &Metadata) -> bool {
        self.path == path && self.len == found.len() && self.place == place(found)
    }
}

fn place(found: &Metadata) -> (u64, u64) {
    (found.dev(), found.ino())
}

/// The objects below a folder.
struct Store {
    dataset: String,
    opened: Option<Object>,
}

impl Store {
    fn find(&mut self, name: &str) -> io::Result<Option<&Object>> {
        let path = format!("{}/{name}", self.dataset);
        let Some(found) = find_file(&path)? else {
            self.opened = None;
            return Ok(None);
        };
        let is_open = |object: &Object| object.is(&path, &found);
        if !self.opened.as_ref().is_some_and(is_open) {
            self.opened = Some(open(path)?);
        }
        Ok(self.opened.as_ref())
    }
}

/// What stands at a path, where it is a file. A folder is none; what is neither is an error, and isn't opened, since that
/// would wait at a pipe.
fn find_file(path: &str) -> io::Result<Option<Metadata>> {
    match fs::metadata(path) {
        Ok(found) if found.is_file() => Ok(Some(found)),
        Ok(found) if found.is_dir() => Ok(None),
        Ok(_) => Err(ErrorKind::InvalidInput.into()),
        Err(error) if matches!(error.kind(), ErrorKind::NotFound | ErrorKind::NotADirectory) => {
            Ok(None)
        }
        Err(error) => Err(error),
    }
}

fn open(path: String) -> io::Result<Object> {
    let file = File::open(&path)?;
    let found = file.metadata()?;
    Ok(Object {
        path,
        file,
        len: found.len(),
        place: place(&found),
    })
}

/// The head of a request.
struct Request<'a> {
    method: &'a str,
    target: &'a str,
    is_old: bool,
    fields: Vec<(&'a str, &'a str)>,
}

impl<'a> Request<'a> {
    fn parse(head: &'a [u8]) -> Option<Request<'a>> {
        let mut lines = std::str::from_utf8(head)
            .ok()?
            .lines()
            .skip_while(|line| line.is_empty());
        let mut words = lines.next()?.split(' ');
        let (method, target, version) = (words.next()?, words.next()?, words.next()?);
        if words.next().is_some() || !matches!(version, "HTTP/1.0" | "HTTP/1.1") {
            return None;
        }
        let fields = lines
            .take_while(|line| !line.is_empty())
            .map(|line| {
                let (name, value) = line.split_once(':')?;
                Some((name, value.trim_matches([' ', '\t'])))
            })
            .collect::<Option<Vec<_>>>()?;
        let is_old = version == "HTTP/1.0";
        Some(Request {
            method,
            target,
            is_old,
            fields,
        })
    }

    fn values<'s>(&'s self, name: &'static str) -> impl Iterator<Item = &'a str> + use<'s, 'a> {
        let named = self
            .fields
            .iter()
            .filter(move |field| field.0.eq_ignore_ascii_case(name));
        named.map(|field| field.1)
    }

    fn has_body(&self) -> bool {
        self.values("transfer-encoding").next().is_some()
            || self.values("content-length").any(|value| value != "0")
    }

    fn asks_close(&self) -> bool {
        let mut members = self.values("connection").flat_map(|value| value.split(','));
        self.is_old || members.any(|member| member.trim().eq_ignore_ascii_case("close"))
    }

    /// The value of the only range, unless a condition stands beside it.
    fn range(&self) -> Option<&'a str> {
        let mut ranges = self.values("range");
        let range = ranges
            .next()
            .filter(|_| self.values("if-range").next().is_none());
        range.filter(|_| ranges.next().is_none())
    }

    /// The name of an object of the data set.
    fn name(&self, dataset: &str) -> Option<&'a str> {
        let name = self.target.strip_prefix('/')?;
        if dataset.len() + 1 + name.len() > 512 || name.ends_with(".part") {
            return None;
        }
        let is_segment = |segment: &str| {
            !matches!(segment, "" | "." | "..")
                && segment
                    .bytes()
                    .all(|b| b.is_ascii_alphanumeric() || b"_-.".contains(&b))
        };
        name.split('/').all(is_segment).then_some(name)
    }
}

/// A part of an object: from which byte on, and how many; or none of it.
enum Part {
    Whole,
    Bytes(u64, u64),
    None,
}

/// The digits of a number without zeros in front.
fn digits(text: &str) -> Option<&str> {
    let all = !text.is_empty() && text.bytes().all(|b| b.is_ascii_digit());
    all.then(|| text.trim_start_matches('0'))
}

/// A number, at most 2^64 - 1.
fn number(digits: &str) -> u64 {
    if digits.is_empty() {
        0
    } else {
        digits.parse().unwrap_or(u64::MAX)
    }
}

fn part_of(value: &str, len: u64) -> Option<Part> {
    let (unit, range) = value.split_at_checked(6)?;
    let (first, last) = range
        .split_once('-')
        .filter(|_| unit.eq_ignore_ascii_case("bytes="))?;
    if first.is_empty() {
        let count = number(digits(last)?).min(len);
        return Some(match (number(digits(last)?), len) {
            (0, _) => Part::None,
            (_, 0) => Part::Whole,
            _ => Part::Bytes(len - count, count),
        });
    }
    let first = digits(first)?;
    let mut end = len;
    if !last.is_empty() {
        let last = digits(last)?;
        if (last.len(), last) < (first.len(), first) {
            return None;
        }
        end = len.min(number(last).saturating_add(1));
    }
    let first = number(first);
    Some(if first < len {
        Part::Bytes(first, end - first)
    } else {
        Part::None
    })
}

/// What a request is answered, but for the object.
struct Reply {
    status: &'static str,
    count: u64,
    from: u64,
    lines: String,
    has_body: bool,
    close: bool,
}

impl Reply {
    fn plain(status: &'static str, close: bool) -> Reply {
        Reply {
            status,
            count: 0,
            from: 0,
            lines: String::new(),
            has_body: false,
            close,
        }
    }

    fn head(&self) -> String {
        let Reply {
            status,
            count,
            lines,
            ..
        } = self;
        let close = if self.close {
            "Connection: close\r\n"
        } else {
            ""
        };
        format!(
            "HTTP/1.1 {status}\r\nContent-Length: {count}\r\nContent-Type: application/octet-stream\r\n\
             Accept-Ranges: bytes\r\nAccess-Control-Allow-Origin: *\r\n{lines}{close}\r\n"
        )
    }
}

fn reply_of(request: &Request, len: u64, close: bool) -> Reply {
    let whole = Reply {
        count: len,
        has_body: request.method == "GET",
        ..Reply::plain("200 OK", close)
    };
    if !whole.has_body {
        return whole;
    }
    match request.range().and_then(|value| part_of(value, len)) {
        None | Some(Part::Whole) => whole,
        Some(Part::None) => Reply {
            lines: format!("Content-Range: bytes */{len}\r\n"),
            ..Reply::plain("416 Range Not Satisfiable", close)
        },
        Some(Part::Bytes(from, count)) => Reply {
            status: "206 Partial Content",
            count,
            from,
            lines: format!("Content-Range: bytes {from}-{}/{len}\r\n", from + count - 1),
            ..whole
        },
    }
}

/// Sends a head, and the bytes behind it with it.
fn send(
    stream: &mut TcpStream,
    reply: &Reply,
    object: Option<&Object>,
    piece: &mut Vec<u8>,
) -> io::Result<()> {
    piece.clear();
    piece.extend_from_slice(reply.head().as_bytes());
    let Some(object) = object.filter(|_| reply.has_body) else {
        return stream.write_all(piece);
    };
    let (mut from, end) = (reply.from, reply.from + reply.count);
    loop {
        let there = piece.len();
        let more = (end - from).min(PIECE as u64) as usize;
        piece.resize(there + more, 0);
        object.file.read_exact_at(&mut piece[there..], from)?;
        stream.write_all(piece)?;
        from += more as u64;
        piece.clear();
        if from == end {
            return Ok(());
        }
    }
}

/// Answers a request, and says whether the connection goes on.
fn answer(
    stream: &mut TcpStream,
    store: &mut Store,
    head: &[u8],
    is_last: bool,
    piece: &mut Vec<u8>,
) -> io::Result<bool> {
    let refused = |stream: &mut TcpStream, reply: Reply, piece: &mut Vec<u8>| {
        send(stream, &reply, None, piece)?;
        Ok(!reply.close)
    };
    let request = match Request::parse(head) {
        Some(request) if !request.has_body() => request,
        _ => return refused(stream, Reply::plain("400 Bad Request", true), piece),
    };
    let close = is_last || request.asks_close();
    if !matches!(request.method, "GET" | "HEAD") {
        let lines = "Allow: GET, HEAD\r\n".to_string();
        let reply = Reply {
            lines,
            ..Reply::plain("405 Method Not Allowed", close)
        };
        return refused(stream, reply, piece);
    }
    let found = match request.name(&store.dataset) {
        Some(name) => store.find(name),
        None => Ok(None),
    };
    match found {
        Ok(Some(object)) => {
            let reply = reply_of(&request, object.len, close);
            send(stream, &reply, Some(object), piece)?;
            Ok(!close)
        }
        Ok(None) => refused(stream, Reply::plain("404 Not Found", close), piece),
        Err(_) => refused(
            stream,
            Reply::plain("500 Internal Server Error", true),
            piece,
        ),
    }
}

/// The length of the head at the front, with the empty lines before it and the one that ends it.
fn head_len(received: &[u8]) -> Option<usize> {
    let begin = received.iter().position(|b| !b"\r\n".contains(b))?;
    let head = &received[begin..];
    let by = |end: &[u8]| {
        let at = head.windows(end.len()).position(|bytes| bytes == end);
        at.map(|at| begin + at + end.len())
    };
    by(b"\n\r\n").into_iter().chain(by(b"\n\n")).min()
}

fn serve(stream: &mut TcpStream, store: &mut Store) -> io::Result<()> {
    let mut received = Vec::with_capacity(MOST_HEAD);
    let mut piece = Vec::with_capacity(PIECE + 512);
    let mut buffer = [0; MOST_HEAD];
    for number in 1..=MOST_REQUESTS {
        let len = loop {
            if let Some(len) = head_len(&received) {
                break len;
            }
            let room = MOST_HEAD - received.len();
            let given = if room == 0 {
                0
            } else {
                stream.read(&mut buffer[..room])?
            };
            if given == 0 {
                if !received.is_empty() {
                    answer(stream, store, b"", true, &mut piece)?;
                }
                return Ok(());
            }
            received.extend_from_slice(&buffer[..given]);
        };
        let goes_on = answer(
            stream,
            store,
            &received[..len],
            number == MOST_REQUESTS,
            &mut piece,
        )?;
        if !goes_on {
            return Ok(());
        }
        received.drain(..len);
    }
    Ok(())
}

/// Ends what is sent, and drains what still comes, for a second and 64 KiB at most.
fn close(mut stream: TcpStream) -> io::Result<()> {
    stream.shutdown(std::net::Shutdown::Write)?;
    let end = Instant::now() + Duration::from_secs(1);
    let mut piece = [0; 4096];
    let mut left = 65536;
    while left > 0 {
        stream.set_read_timeout(Some(end.saturating_duration_since(Instant::now())))?;
        let most = left.min(piece.len());
        match stream.read(&mut piece[..most])? {
            0 => break,
            n => left -= n,
        }
    }
    Ok(())
}

/// Serves one connection after the other, until as many as are left were accepted.
fn work(listener: &TcpListener, left: &AtomicU32, dataset: &str) -> io::Result<()> {
    let mut store = Store {
        dataset: dataset.to_string(),
        opened: None,
    };
    let fewer = |left: u32| left.checked_sub(1);
    while left.fetch_update(Ordering::SeqCst, Ordering::SeqCst, fewer).is_ok() {
        let (mut stream, _) = listener.accept()?;
        let limit = Some(Duration::from_secs(10));
        stream.set_nodelay(true)?;
        stream.set_read_timeout(limit)?;
        stream.set_write_timeout(limit)?;
        let _ = serve(&mut stream, &mut store);
        let _ = close(stream);
    }
    Ok(())
}

fn run(dataset: &str, port: u16, connections: u32, workers: usize) -> io::Result<()> {
    let listener = TcpListener::bind((Ipv4Addr::LOCALHOST, port))?;
    println!("listening {}", listener.local_addr()?.port());
    let left = AtomicU32::new(connections);
    thread::scope(|scope| {
        let threads: Vec<_> = (0..workers)
            .map(|_| scope.spawn(|| work(&listener, &left, dataset)))
            .collect();
        for thread in threads {
            thread.join().map_err(|_| io::Error::other("a thread has ended"))??;
        }
        Ok(())
    })
}

/// The number of an option, as `--port=8080` has it.
fn option<T: std::str::FromStr>(word: &str, name: &str) -> Option<T> {
    word.strip_prefix(name)?.parse().ok()
}

fn parse(words: &[&str]) -> Option<(String, u16, u32, usize)> {
    let ["serve", dataset, port, connections, workers @ ..] = words else {
        return None;
    };
    let workers = match workers {
        [] => 1,
        [workers] => option(workers, "--workers=")?,
        _ => return None,
    };
    Some((
        dataset.to_string(),
        option(port, "--port=")?,
        option(connections, "--connections=")?,
        workers,
    ))
}

fn main() -> ExitCode {
    let words: Vec<String> = std::env::args().skip(1).collect();
    let words: Vec<&str> = words.iter().map(String::as_str).collect();
    let Some((dataset, port, connections, workers)) = parse(&words) else {
        eprintln!("usage");
        return ExitCode::from(1);
    };
    match run(&dataset, port, connections, workers) {
        Ok(()) => ExitCode::SUCCESS,
        Err(error) => {
            eprintln!("{error}");
            ExitCode::from(9)
        }
    }
}
