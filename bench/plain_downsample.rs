//! The next scale of a pyramid as an ordinary Rust program makes it, for comparison. LAYOUT is a volume of layout.rs, in files; those
//! with blocks are segmentations, in the shards of shards.rs.
//!
//!     plain_downsample LAYOUT mean|mode DATASET [WORKERS]    makes the scale t of s, half as large on each axis
//!
//! The chunks below one of t are read into one buffer, which is reduced row by row. Bytes are averaged in sums of 16 bits; of eight
//! labels that are alike the first is taken before any are counted. With several workers each takes one chunk of t after the other,
//! and writes its file; the chunks of shards are made in windows of 256, and then appended in order. Each file is written under a
//! name that ends in .part, and renamed.

#[allow(dead_code)]
mod layout;
mod segment_codec;
mod segments;
#[allow(dead_code)]
mod shards;

use layout::{Layout, Spans};
use segments::Segments;
use shards::{code, place, shard_bits, write_shard, Placed, Reader};
use std::collections::BTreeMap;
use std::fs::{self, File};
use std::io::{self, Read};
use std::path::{Path, PathBuf};
use std::process::ExitCode;
use std::sync::atomic::{AtomicUsize, Ordering};
use std::sync::OnceLock;
use std::thread;

type Cell = [usize; 3];

#[derive(Clone, Copy)]
enum Method {
    Mean,
    Mode,
}

/// Eight values that lie together, of four rows of pairs.
fn eight_of<'a>(rows: [&'a [u8]; 4], width: usize) -> impl Iterator<Item = [u64; 8]> + 'a {
    let number = move |bytes: &[u8]| {
        let mut number = [0; 8];
        number[..width].copy_from_slice(bytes);
        u64::from_le_bytes(number)
    };
    let [a, b, c, d] = rows.map(|row| row.chunks_exact(2 * width));
    a.zip(b).zip(c.zip(d)).map(move |((a, b), (c, d))| {
        let pair = |pair: &[u8]| [number(&pair[..width]), number(&pair[width..])];
        let ([p, q], [r, s], [t, u], [v, w]) = (pair(a), pair(b), pair(c), pair(d));
        [p, q, r, s, t, u, v, w]
    })
}

fn mode_of(values: &[u64; 8]) -> u64 {
    if values.iter().all(|value| *value == values[0]) {
        return values[0];
    }
    let (mut best, mut most) = (values[0], 0);
    for value in values {
        let count = values.iter().filter(|other| *other == value).count();
        if count > most || (count == most && *value < best) {
            (best, most) = (*value, count);
        }
    }
    best
}

fn mean_of(values: &[u64; 8]) -> u64 {
    (values.iter().map(|value| u128::from(*value)).sum::<u128>() / 8) as u64
}

fn mean_of_bytes([a, b, c, d]: [&[u8]; 4], out: &mut [u8]) {
    let pairs = a.chunks_exact(2).zip(b.chunks_exact(2)).zip(c.chunks_exact(2).zip(d.chunks_exact(2)));
    for (value, ((a, b), (c, d))) in out.iter_mut().zip(pairs) {
        let pair = |pair: &[u8]| u16::from(pair[0]) + u16::from(pair[1]);
        *value = ((pair(a) + pair(b) + pair(c) + pair(d)) / 8) as u8;
    }
}

/// The labels of eight bytes, without a copy of a part of a number.
fn mode_of_labels(rows: [&[u8]; 4], out: &mut [u8]) {
    let [a, b, c, d] = rows.map(|row| row.chunks_exact(16));
    let number = |bytes: &[u8]| u64::from_le_bytes(bytes.try_into().unwrap());
    for (value, ((a, b), (c, d))) in out.chunks_exact_mut(8).zip(a.zip(b).zip(c.zip(d))) {
        let [p, q, r, s] = [a, b, c, d].map(|pair| (number(&pair[..8]), number(&pair[8..])));
        let eight = [p.0, p.1, q.0, q.1, r.0, r.1, s.0, s.1];
        value.copy_from_slice(&mode_of(&eight).to_le_bytes());
    }
}

fn reduce_row(method: Method, width: usize, rows: [&[u8]; 4], out: &mut [u8]) {
    match (method, width) {
        (Method::Mean, 1) => mean_of_bytes(rows, out),
        (Method::Mode, 8) => mode_of_labels(rows, out),
        _ => {
            let reduce = match method {
                Method::Mean => mean_of,
                Method::Mode => mode_of,
            };
            for (value, eight) in out.chunks_exact_mut(width).zip(eight_of(rows, width)) {
                value.copy_from_slice(&reduce(&eight).to_le_bytes()[..width]);
            }
        }
    }
}

/// Reduces a cube of values to one of this side.
fn reduce(method: Method, width: usize, side: usize, from: &[u8], out: &mut [u8]) {
    let row = 2 * side * width;
    let planes = from.chunks_exact(2 * side * row);
    let (lower, upper) = (planes.clone().step_by(2), planes.skip(1).step_by(2));
    for (out, (lower, upper)) in out.chunks_exact_mut(side * side * width).zip(lower.zip(upper)) {
        let pairs = lower.chunks_exact(2 * row).zip(upper.chunks_exact(2 * row));
        for (out, (lower, upper)) in out.chunks_exact_mut(side * width).zip(pairs) {
            let ((a, b), (c, d)) = (lower.split_at(row), upper.split_at(row));
            reduce_row(method, width, [a, b, c, d], out);
        }
    }
}

enum Source {
    Files(PathBuf),
    Shards(Reader),
}

impl Source {
    /// Reads a cell's chunk, or answers false where there is none.
    fn read(&mut self, layout: &Layout, cell: Cell, chunk: &mut Vec<u8>) -> io::Result<bool> {
        let folder = match self {
            Source::Files(folder) => folder,
            Source::Shards(reader) => return reader.read(code(layout.size / layout.chunk, cell), chunk),
        };
        chunk.clear();
        match File::open(folder.join(layout.chunk_name(cell))) {
            Ok(mut file) => file.read_to_end(chunk).map(|_| true),
            Err(error) if error.kind() == io::ErrorKind::NotFound => Ok(false),
            Err(error) => Err(error),
        }
    }
}

/// Makes one chunk after the other.
struct Maker<'a> {
    layout: &'a Layout,
    method: Method,
    source: Source,
    segments: Option<Segments>,
    chunk: Vec<u8>,
    values: Vec<u8>,
    below: Vec<u8>,
    reduced: Vec<u8>,
}

impl<'a> Maker<'a> {
    fn new(layout: &'a Layout, method: Method, dataset: &Path) -> Maker<'a> {
        let folder = dataset.join("s");
        let segments = Segments::of(layout);
        let source = match &segments {
            Some(_) => Source::Shards(Reader::new(&folder, shard_bits(layout))),
            None => Source::Files(folder),
        };
        let len = layout.bytes_of(&layout.cell_box([0, 0, 0]));
        let [values, below, reduced] = [len, 8 * len, len].map(|len| vec![0; len]);
        Maker { layout, method, source, segments, chunk: Vec::new(), values, below, reduced }
    }

    /// Puts the values of a cell of the source into the box below a chunk. False where it isn't stored: then they are zeros.
    fn read(&mut self, cell: Cell, part: &Spans) -> io::Result<bool> {
        let is_there = self.source.read(self.layout, cell, &mut self.chunk)?;
        let values = match (&self.segments, is_there) {
            (_, false) => {
                self.values.fill(0);
                &self.values
            }
            (Some(segments), true) => {
                segments.decode(&self.chunk, &mut self.values)?;
                &self.values
            }
            (None, true) if self.chunk.len() == self.values.len() => &self.chunk,
            _ => return Err(io::ErrorKind::InvalidData.into()),
        };
        self.layout.copy_rows(&self.layout.cell_box(cell), values, part, &mut self.below);
        Ok(is_there)
    }

    /// The chunk of a cell of the target, or none where no chunk below it is stored.
    fn make(&mut self, cell: Cell) -> io::Result<Option<&[u8]>> {
        let side = self.layout.chunk;
        let part = cell.map(|number| (2 * number * side, 2 * (number + 1) * side));
        let mut any = false;
        for below in self.layout.cells(&part) {
            any |= self.read(below, &part)?;
        }
        if !any {
            return Ok(None);
        }
        reduce(self.method, self.layout.width, side, &self.below, &mut self.reduced);
        Ok(Some(match &mut self.segments {
            Some(segments) => segments.encode(&self.reduced),
            None => &self.reduced,
        }))
    }
}

fn put(layout: &Layout, folder: &Path, cell: Cell, chunk: &[u8]) -> io::Result<()> {
    let path = folder.join(layout.chunk_name(cell));
    let part = path.with_extension("part");
    fs::write(&part, chunk)?;
    fs::rename(part, path)
}

/// Does something with each cell by several workers, each of which has a maker of its own, and takes one cell after the other.
fn share<F>(workers: usize, cells: &[Cell], make: impl Fn() -> F + Sync) -> io::Result<()>
where
    F: FnMut(usize, Cell) -> io::Result<()>,
{
    let next = AtomicUsize::new(0);
    let work = || {
        let mut job = make();
        loop {
            let number = next.fetch_add(1, Ordering::Relaxed);
            match cells.get(number) {
                Some(cell) => job(number, *cell)?,
                None => return Ok(()),
            }
        }
    };
    if workers == 1 {
        return work();
    }
    thread::scope(|scope| {
        let threads: Vec<_> = (0..workers).map(|_| scope.spawn(&work)).collect();
        threads.into_iter().try_for_each(|thread| thread.join().unwrap())
    })
}

fn make_files(layout: &Layout, method: Method, dataset: &Path, cells: &[Cell], workers: usize) -> io::Result<()> {
    let folder = dataset.join("t");
    let made = AtomicUsize::new(0);
    share(workers, cells, || {
        let mut maker = Maker::new(layout, method, dataset);
        let (folder, made) = (&folder, &made);
        move |_, cell| {
            if let Some(chunk) = maker.make(cell)? {
                put(layout, folder, cell, chunk)?;
                made.fetch_add(1, Ordering::Relaxed);
            }
            Ok(())
        }
    })?;
    let made = made.into_inner();
    println!("objects {made} cells {made}");
    Ok(())
}

/// The chunks of a window of cells, in order.
fn make_window(
    layout: &Layout,
    method: Method,
    dataset: &Path,
    cells: &[Cell],
    workers: usize,
) -> io::Result<Vec<Option<Vec<u8>>>> {
    let made: Vec<OnceLock<Option<Vec<u8>>>> = cells.iter().map(|_| OnceLock::new()).collect();
    share(workers, cells, || {
        let mut maker = Maker::new(layout, method, dataset);
        let made = &made;
        move |number, cell| {
            made[number].set(maker.make(cell)?.map(<[u8]>::to_vec)).unwrap();
            Ok(())
        }
    })?;
    Ok(made.into_iter().map(|chunk| chunk.into_inner().unwrap()).collect())
}

/// Makes shards all of whose chunks are there.
fn make_shards(layout: &Layout, method: Method, dataset: &Path, cells: &[Cell], workers: usize) -> io::Result<()> {
    let mut plan = BTreeMap::<u64, Placed<Cell>>::new();
    for cell in cells {
        let id = code(layout.size / 2 / layout.chunk, *cell);
        let (shard, minishard) = place(shard_bits(layout), id);
        plan.entry(shard).or_default().insert((minishard, id), *cell);
    }
    let ordered: Vec<Cell> = plan.values().flat_map(|chunks| chunks.values().copied()).collect();
    let mut windows = ordered.chunks(256).map(|window| make_window(layout, method, dataset, window, workers));
    let mut ahead = Vec::new().into_iter();
    let mut maker = Maker::new(layout, method, dataset);
    for (shard, chunks) in &plan {
        write_shard(&dataset.join("t"), *shard, chunks, |file, cell| {
            if workers == 1 {
                return file.append(maker.make(*cell)?.ok_or(io::ErrorKind::NotFound)?);
            }
            if ahead.len() == 0 {
                ahead = windows.next().unwrap()?.into_iter();
            }
            file.append(&ahead.next().unwrap().ok_or(io::ErrorKind::NotFound)?)
        })?;
    }
    println!("objects {} cells {}", plan.len(), ordered.len());
    Ok(())
}

fn downsample(layout: &Layout, method: Method, dataset: &Path, workers: usize) -> io::Result<()> {
    fs::create_dir_all(dataset.join("t"))?;
    let cells = layout.cells(&[(0, layout.size / 2); 3]);
    match layout.block {
        Some(_) => make_shards(layout, method, dataset, &cells, workers),
        None => make_files(layout, method, dataset, &cells, workers),
    }
}

fn main() -> ExitCode {
    layout::run_with(|layout, words| {
        let (method, dataset, workers) = match *words {
            [method, dataset] => (method, dataset, 1),
            [method, dataset, workers] => (method, dataset, workers.parse().ok()?),
            _ => return None,
        };
        let method = match method {
            "mean" => Method::Mean,
            "mode" => Method::Mode,
            _ => return None,
        };
        Some(downsample(layout, method, Path::new(dataset), workers))
    })
}
