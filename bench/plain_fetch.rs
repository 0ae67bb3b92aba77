//! The cutout of a scale over HTTP as an ordinary Rust program does it, for comparison: with the requests of vol_fetch, over one
//! connection. LAYOUT is a volume of layout.rs without blocks, FORM is `files`, or `shards` as shards.rs has them.
//!
//!     plain_fetch LAYOUT FORM HOST PORT BOX     writes the values of the box to standard output
//!
//! It is written by layers of cells along z, each made in memory. Each chunk is one request, and of shards the index of a minishard
//! is five, which is kept until another one is wanted. A body is read to where it is used.

#[allow(dead_code)]
mod layout;
#[allow(dead_code)]
mod shards;

use layout::{Layout, Spans};
use shards::{code, place, shard_bits, Index, BASE};
use std::fmt::Write as _;
use std::io::{self, Error, ErrorKind, Read, Write};
use std::net::TcpStream;
use std::process::ExitCode;
use std::time::Duration;

const MOST_HEAD: usize = 8192;
const MOST_INFO: usize = 1 << 20;

fn wrong(what: &str) -> Error {
    Error::new(ErrorKind::InvalidData, what)
}

/// A connection, the last request, and the front of the last reply.
struct Client {
    stream: TcpStream,
    peer: String,
    request: String,
    front: [u8; MOST_HEAD],
}

/// The head of a reply: its status, the length that it says, and where it ends in the bytes that came.
struct Head {
    status: u16,
    length: usize,
    end: usize,
    there: usize,
}

impl Client {
    fn connect(host: &str, port: u16) -> io::Result<Client> {
        let stream = TcpStream::connect((host, port))?;
        stream.set_nodelay(true)?;
        stream.set_read_timeout(Some(Duration::from_secs(10)))?;
        let peer = format!("{host}:{port}");
        Ok(Client { stream, peer, request: String::new(), front: [0; MOST_HEAD] })
    }

    fn send(&mut self, method: &str, name: &str, range: Option<(u64, u64)>) -> io::Result<()> {
        self.request.clear();
        let _ = write!(self.request, "{method} /{name} HTTP/1.1\r\nHost: {}\r\n", self.peer);
        if let Some((first, last)) = range {
            let _ = write!(self.request, "Range: bytes={first}-{last}\r\n");
        }
        self.request.push_str("\r\n");
        self.stream.write_all(self.request.as_bytes())
    }

    fn receive_head(&mut self) -> io::Result<Head> {
        let mut there = 0;
        loop {
            let end = self.front[..there].windows(4).position(|bytes| bytes == b"\r\n\r\n");
            if let Some(end) = end {
                return self.parse_head(end + 4, there);
            }
            match self.stream.read(&mut self.front[there..])? {
                0 => return Err(wrong("no whole head")),
                n => there += n,
            }
        }
    }

    fn parse_head(&self, end: usize, there: usize) -> io::Result<Head> {
        let text = std::str::from_utf8(&self.front[..end]).map_err(|_| wrong("no text"))?;
        let mut lines = text.split("\r\n");
        let status = lines.next().and_then(|line| line.split(' ').nth(1)?.parse().ok());
        let mut fields = lines.filter_map(|line| line.split_once(':'));
        let length = fields.find(|(name, _)| name.eq_ignore_ascii_case("content-length"));
        let length = length.and_then(|(_, value)| value.trim().parse().ok());
        match (status, length) {
            (Some(status), Some(length)) => Ok(Head { status, length, end, there }),
            _ => Err(wrong("no status, or no length")),
        }
    }

    /// The length of an object.
    fn size(&mut self, name: &str) -> io::Result<u64> {
        self.send("HEAD", name, None)?;
        match self.receive_head()? {
            Head { status: 200, length, .. } => Ok(length as u64),
            _ => Err(wrong("no such object")),
        }
    }

    /// The bytes from a place on, as many as there are and the buffer has room for, or None where there is no object.
    fn read(&mut self, name: &str, at: u64, out: &mut [u8]) -> io::Result<Option<usize>> {
        self.send("GET", name, Some((at, at + out.len() as u64 - 1)))?;
        let head = self.receive_head()?;
        let early = head.there - head.end;
        if early > head.length || head.length > out.len() {
            return Err(wrong("another length"));
        }
        out[..early].copy_from_slice(&self.front[head.end..head.there]);
        self.stream.read_exact(&mut out[early..head.length])?;
        match head.status {
            206 => Ok(Some(head.length)),
            404 => Ok(None),
            _ => Err(wrong("another status")),
        }
    }

    fn read_exact(&mut self, name: &str, at: u64, out: &mut [u8]) -> io::Result<()> {
        match self.read(name, at, out)? {
            Some(n) if n == out.len() => Ok(()),
            _ => Err(wrong("fewer bytes")),
        }
    }
}

fn numbers(bytes: &[u8]) -> impl Iterator<Item = u64> + '_ {
    bytes.chunks_exact(8).map(|number| u64::from_le_bytes(number.try_into().unwrap()))
}

/// The index of a minishard.
fn read_index(client: &mut Client, shard: &str, minishard: u64) -> io::Result<Index> {
    let size = client.size(shard)?;
    let mut entry = [0; 16];
    client.read_exact(shard, 16 * minishard, &mut entry)?;
    let (start, end) = (numbers(&entry).next().unwrap(), numbers(&entry).nth(1).unwrap());
    if start > end || BASE + end > size {
        return Err(wrong("a short shard"));
    }
    let column = (end - start) / 3;
    let mut columns = [const { Vec::new() }; 3];
    for (number, bytes) in columns.iter_mut().enumerate() {
        bytes.resize(column as usize, 0);
        client.read_exact(shard, BASE + start + number as u64 * column, bytes)?;
    }
    let [ids, starts, lengths] = &columns;
    let (mut id, mut begin) = (0, 0);
    let rows = numbers(ids).zip(numbers(starts)).zip(numbers(lengths));
    Ok(rows
        .map(|((next, gap), length)| {
            id += next;
            begin += gap + length;
            (id, BASE + begin - length, length)
        })
        .collect())
}

/// Where chunks are read from.
enum Form {
    Files,
    Shards(Option<((u64, u64), Index)>),
}

impl Form {
    /// Reads a chunk, or answers false where there is none. A file is read for one byte more than a chunk has.
    fn read(&mut self, client: &mut Client, layout: &Layout, cell: [usize; 3], chunk: &mut [u8]) -> io::Result<bool> {
        let len = chunk.len() - 1;
        let kept = match self {
            Form::Files => {
                let found = client.read(&format!("s/{}", layout.chunk_name(cell)), 0, chunk)?;
                return match found {
                    None => Ok(false),
                    Some(n) if n == len => Ok(true),
                    Some(_) => Err(wrong("a chunk of another length")),
                };
            }
            Form::Shards(kept) => kept,
        };
        let id = code(layout.size / layout.chunk, cell);
        let (shard, minishard) = place(shard_bits(layout), id);
        let name = format!("s/{shard:x}.shard");
        if kept.as_ref().is_none_or(|(own, _)| *own != (shard, minishard)) {
            *kept = Some(((shard, minishard), read_index(client, &name, minishard)?));
        }
        let index = &kept.as_ref().unwrap().1;
        let Ok(found) = index.binary_search_by_key(&id, |row| row.0) else {
            return Ok(false);
        };
        client.read_exact(&name, index[found].1, &mut chunk[..len])?;
        Ok(true)
    }
}

fn cut(layout: &Layout, mut form: Form, host: &str, port: u16, part: &Spans) -> io::Result<()> {
    let mut client = Client::connect(host, port)?;
    client.read("info", 0, &mut vec![0; MOST_INFO + 1])?.ok_or_else(|| wrong("no info"))?;
    let mut chunk = vec![0; layout.bytes_of(&layout.cell_box([0, 0, 0])) + 1];
    for layer in layout.layers(part) {
        let mut values = vec![0; layout.bytes_of(&layer)];
        for cell in layout.cells(&layer) {
            if form.read(&mut client, layout, cell, &mut chunk)? {
                let len = chunk.len() - 1;
                layout.copy_rows(&layout.cell_box(cell), &chunk[..len], &layer, &mut values);
            }
        }
        layout::write_out(&values)?;
    }
    Ok(())
}

fn main() -> ExitCode {
    layout::run_with(|layout, words| {
        let [form, host, port, part] = *words else {
            return None;
        };
        let form = match form {
            "files" => Form::Files,
            "shards" => Form::Shards(None),
            _ => return None,
        };
        Some(cut(layout, form, host, port.parse().ok()?, &layout.parse_box(part)?))
    })
}
