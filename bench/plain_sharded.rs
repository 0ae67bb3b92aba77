//! Cutouts of a sharded scale, and writes into it, as an ordinary Rust program does them, for comparison: eight neighbouring
//! chunks have one minishard, and MurmurHash3 places them in four minishards of each of two shards. The volumes many and few
//! have one shard. Chunks of a volume with blocks are segmentations.
//!
//!     plain_sharded LAYOUT make DATASET                 writes the dataset, with the scale s
//!     plain_sharded LAYOUT info DATASET                 writes its info alone
//!     plain_sharded LAYOUT cutout DATASET KEY BOX       writes the values of the box to standard output
//!     plain_sharded LAYOUT write DATASET KEY [WORKERS]  reads a stream from standard input and writes its shards
//!     plain_sharded LAYOUT copy DATASET KEY DATASET2 KEY2 X Y Z
//!                                                       copies the scale into files of raw chunks of X x Y x Z voxels
//!
//! For a cutout the shard and the index that were read last are kept. Each chunk is one pread, and is copied by rows. A
//! write reads the whole stream first. Each chunk is made in memory and appended to the shard's file, which ends in .part and
//! is renamed; the entries are written last. With several workers each window of 256 chunks is made by as many threads, which
//! take one chunk after the other, and then appended in order. A copy cuts one chunk after the other out, and writes each to
//! a file that ends in .part and is renamed.

#[allow(dead_code)]
mod layout;
mod segment_codec;
mod segments;
mod shards;
#[allow(dead_code)]
mod writes;

use layout::{Layout, Noise, Spans};
use segments::Segments;
use shards::{code, members, place, shard_bits, write_shard, Placed, Reader};
use std::collections::BTreeMap;
use std::fs;
use std::io;
use std::path::Path;
use std::process::ExitCode;
use std::sync::atomic::{AtomicUsize, Ordering};
use std::sync::OnceLock;
use std::thread;
use writes::{fill_chunk, met_cells, read_stream, BoxWrite};

/// Cuts one box after the other out of a scale.
struct Cutter<'a> {
    layout: &'a Layout,
    segments: Option<Segments>,
    reader: Reader,
    chunk: Vec<u8>,
    values: Vec<u8>,
}

impl<'a> Cutter<'a> {
    fn new(layout: &'a Layout, folder: &Path) -> Cutter<'a> {
        let segments = Segments::of(layout);
        let len = layout.bytes_of(&layout.cell_box([0, 0, 0]));
        let values = vec![0; if segments.is_some() { len } else { 0 }];
        let shard_bits = shard_bits(layout);
        Cutter { layout, segments, reader: Reader::new(folder, shard_bits), chunk: Vec::new(), values }
    }

    /// Puts the values of a box over zeros. False where no chunk of it is stored.
    fn cut(&mut self, part: &Spans, out: &mut [u8]) -> io::Result<bool> {
        let count = self.layout.size / self.layout.chunk;
        let mut any = false;
        for cell in self.layout.cells(part) {
            if !self.reader.read(code(count, cell), &mut self.chunk)? {
                continue;
            }
            any = true;
            let cell_box = self.layout.cell_box(cell);
            let from = match &self.segments {
                Some(segments) => {
                    segments.decode(&self.chunk, &mut self.values)?;
                    &self.values
                }
                None if self.chunk.len() == self.layout.bytes_of(&cell_box) => &self.chunk,
                None => return Err(io::ErrorKind::InvalidData.into()),
            };
            self.layout.copy_rows(&cell_box, from, part, out);
        }
        Ok(any)
    }
}

fn cut(layout: &Layout, folder: &Path, part: &Spans) -> io::Result<Vec<u8>> {
    let mut out = vec![0; layout.bytes_of(part)];
    Cutter::new(layout, folder).cut(part, &mut out)?;
    Ok(out)
}

/// The boxes of chunks whose sizes divide that of the volume, x fastest.
fn copy_spans(layout: &Layout, [x, y, z]: [usize; 3]) -> Vec<Spans> {
    let spans =
        |step: usize| (0..layout.size).step_by(step).map(move |begin| (begin, begin + step));
    spans(z).flat_map(|z| spans(y).flat_map(move |y| spans(x).map(move |x| [x, y, z]))).collect()
}

/// Copies a scale into files of raw chunks of another size.
fn copy(layout: &Layout, folder: &Path, sizes: [usize; 3], goal: &Path) -> io::Result<()> {
    fs::create_dir_all(goal)?;
    let mut cutter = Cutter::new(layout, folder);
    let mut values = Vec::new();
    let mut cells = 0;
    for part in copy_spans(layout, sizes) {
        values.clear();
        values.resize(layout.bytes_of(&part), 0);
        if cutter.cut(&part, &mut values)? {
            let [x, y, z] = part.map(|(begin, end)| format!("{begin}-{end}"));
            let part = goal.join(format!("{x}_{y}_{z}.part"));
            fs::write(&part, &values)?;
            fs::rename(&part, part.with_extension(""))?;
            cells += 1;
        }
    }
    println!("objects {cells} cells {cells}");
    Ok(())
}

/// Shards with something for each chunk.
type Shards<T> = BTreeMap<u64, Placed<T>>;

/// For each chunk that some write meets, its cell and the numbers of these writes.
fn plan(layout: &Layout, writes: &[BoxWrite]) -> Shards<([usize; 3], Vec<usize>)> {
    let mut plan = Shards::<([usize; 3], Vec<usize>)>::new();
    for (number, cell) in met_cells(layout, writes) {
        let id = code(layout.size / layout.chunk, cell);
        let (shard, minishard) = place(shard_bits(layout), id);
        let chunks = plan.entry(shard).or_default();
        chunks.entry((minishard, id)).or_insert_with(|| (cell, Vec::new())).1.push(number);
    }
    plan
}

/// A cell, and the numbers of the writes that meet it.
type Job = ([usize; 3], Vec<usize>);

/// Makes one chunk after the other.
struct Maker<'a> {
    layout: &'a Layout,
    writes: &'a [BoxWrite],
    segments: Option<Segments>,
    values: Vec<u8>,
}

impl<'a> Maker<'a> {
    fn new(layout: &'a Layout, writes: &'a [BoxWrite]) -> Maker<'a> {
        let values = vec![0; layout.bytes_of(&layout.cell_box([0, 0, 0]))];
        Maker { layout, writes, segments: Segments::of(layout), values }
    }

    fn make(&mut self, (cell, numbers): &Job) -> &[u8] {
        fill_chunk(self.layout, self.writes, numbers, *cell, &mut self.values);
        match &mut self.segments {
            Some(segments) => segments.encode(&self.values),
            None => &self.values,
        }
    }
}

/// Makes the chunks of a window of jobs, in order.
fn make_window(layout: &Layout, writes: &[BoxWrite], jobs: &[&Job], workers: usize) -> Vec<Vec<u8>> {
    let next = AtomicUsize::new(0);
    let made: Vec<OnceLock<Vec<u8>>> = jobs.iter().map(|_| OnceLock::new()).collect();
    thread::scope(|scope| {
        for _ in 0..workers {
            scope.spawn(|| {
                let mut maker = Maker::new(layout, writes);
                loop {
                    let number = next.fetch_add(1, Ordering::Relaxed);
                    let Some(job) = jobs.get(number) else {
                        break;
                    };
                    made[number].set(maker.make(job).to_vec()).unwrap();
                }
            });
        }
    });
    made.into_iter().map(|chunk| chunk.into_inner().unwrap()).collect()
}

fn write(layout: &Layout, folder: &Path, workers: usize) -> io::Result<()> {
    let writes = read_stream(layout, &mut io::stdin())?;
    fs::create_dir_all(folder)?;
    let plan = plan(layout, &writes);
    let jobs: Vec<&Job> = plan.values().flat_map(BTreeMap::values).collect();
    let mut windows = jobs.chunks(256).map(|window| make_window(layout, &writes, window, workers));
    let mut ahead = Vec::new().into_iter();
    let mut maker = Maker::new(layout, &writes);
    for (shard, chunks) in &plan {
        write_shard(folder, *shard, chunks, |file, job| {
            if workers == 1 {
                return file.append(maker.make(job));
            }
            if ahead.len() == 0 {
                ahead = windows.next().unwrap().into_iter();
            }
            file.append(&ahead.next().unwrap())
        })?;
    }
    let cells: usize = plan.values().map(BTreeMap::len).sum();
    println!("objects {} cells {cells}", plan.len());
    Ok(())
}

fn make(layout: &Layout, dataset: &Path) -> io::Result<()> {
    layout.make_info(dataset, &members(layout))?;
    let folder = dataset.join("s");
    fs::create_dir_all(&folder)?;
    let mut noise = Noise::new();
    let mut shards = Shards::<Vec<u8>>::new();
    let count = layout.size / layout.chunk;
    for cell in layout.cells(&[(0, layout.size); 3]) {
        let id = code(count, cell);
        let (shard, minishard) = place(shard_bits(layout), id);
        let chunk = noise.take(layout.bytes_of(&layout.cell_box(cell)));
        shards.entry(shard).or_default().insert((minishard, id), chunk);
    }
    for (shard, chunks) in &shards {
        write_shard(&folder, *shard, chunks, |file, chunk| file.append(chunk))?;
    }
    Ok(())
}

fn main() -> ExitCode {
    layout::run_with(|layout, words| match *words {
        ["make", dataset] => Some(make(layout, Path::new(dataset))),
        ["info", dataset] => Some(layout.make_info(Path::new(dataset), &members(layout))),
        ["write", dataset, key] => Some(write(layout, &Path::new(dataset).join(key), 1)),
        ["write", dataset, key, workers] => {
            Some(write(layout, &Path::new(dataset).join(key), workers.parse().ok()?))
        }
        ["cutout", dataset, key, part] => {
            let part = layout.parse_box(part)?;
            let folder = Path::new(dataset).join(key);
            Some(cut(layout, &folder, &part).and_then(|values| layout::write_out(&values)))
        }
        ["copy", dataset, key, to_dataset, to_key, x, y, z] => {
            let sizes = [x.parse().ok()?, y.parse().ok()?, z.parse().ok()?];
            let goal = Path::new(to_dataset).join(to_key);
            Some(copy(layout, &Path::new(dataset).join(key), sizes, &goal))
        }
        _ => None,
    })
}
