//! Writes over what a scale holds as an ordinary Rust program does them, for comparison. LAYOUT is a volume of layout.rs; those
//! with blocks are segmentations.
//!
//!     plain_update LAYOUT stream COUNT            writes a stream of COUNT cubes of 24 voxels a side at random to standard output
//!     plain_update LAYOUT files DATASET KEY       reads a stream from standard input and writes it over the scale's files
//!     plain_update LAYOUT shards DATASET KEY      writes it over the scale's shards, which are those of shards.rs
//!
//! The values of the stream's cubes are any bytes, or in segmentations a label for each cube. The whole stream is read first. A
//! chunk that some write meets is read, decoded where it is a segmentation, written over in memory and encoded. The other chunks
//! of a shard that is written anew are copied as they are. Each file is written under a name that ends in .part, and renamed.

#[allow(dead_code)]
mod layout;
mod segment_codec;
mod segments;
#[allow(dead_code)]
mod shards;
#[allow(dead_code)]
mod writes;

use layout::{Layout, Noise, Spans};
use segments::Segments;
use shards::{code, place, read_index, shard_bits, write_shard, Placed, MINISHARD_BITS};
use std::collections::BTreeMap;
use std::fs::{self, File};
use std::io::{self, Write};
use std::os::unix::fs::FileExt;
use std::path::Path;
use std::process::ExitCode;
use writes::{fill_over, met_cells, read_stream, BoxWrite};

const SIDE: usize = 24;

/// Makes one chunk after the other.
struct Maker<'a> {
    layout: &'a Layout,
    writes: &'a [BoxWrite],
    segments: Option<Segments>,
    values: Vec<u8>,
}

impl<'a> Maker<'a> {
    fn new(layout: &'a Layout, writes: &'a [BoxWrite]) -> Maker<'a> {
        let values = vec![0; layout.bytes_of(&layout.cell_box([0, 0, 0]))];
        Maker { layout, writes, segments: Segments::of(layout), values }
    }

    /// The chunk of a cell, of the one before and the writes of these numbers.
    fn make(&mut self, old: Option<&[u8]>, cell: [usize; 3], numbers: &[usize]) -> io::Result<&[u8]> {
        match (old, &self.segments) {
            (None, _) => self.values.fill(0),
            (Some(old), Some(segments)) => segments.decode(old, &mut self.values)?,
            (Some(old), None) if old.len() == self.values.len() => self.values.copy_from_slice(old),
            _ => return Err(io::ErrorKind::InvalidData.into()),
        }
        fill_over(self.layout, self.writes, numbers, cell, &mut self.values);
        Ok(match &mut self.segments {
            Some(segments) => segments.encode(&self.values),
            None => &self.values,
        })
    }
}

fn read_file(path: &Path) -> io::Result<Option<Vec<u8>>> {
    match fs::read(path) {
        Ok(bytes) => Ok(Some(bytes)),
        Err(error) if error.kind() == io::ErrorKind::NotFound => Ok(None),
        Err(error) => Err(error),
    }
}

fn update_files(layout: &Layout, folder: &Path) -> io::Result<()> {
    let writes = read_stream(layout, &mut io::stdin())?;
    fs::create_dir_all(folder)?;
    let mut plan: BTreeMap<_, Vec<usize>> = BTreeMap::new();
    for (number, [x, y, z]) in met_cells(layout, &writes) {
        plan.entry([z, y, x]).or_default().push(number);
    }
    let mut maker = Maker::new(layout, &writes);
    for ([z, y, x], numbers) in &plan {
        let cell = [*x, *y, *z];
        let path = folder.join(layout.chunk_name(cell));
        let part = path.with_extension("part");
        let old = read_file(&path)?;
        fs::write(&part, maker.make(old.as_deref(), cell, numbers)?)?;
        fs::rename(part, path)?;
    }
    println!("objects {} cells {}", plan.len(), plan.len());
    Ok(())
}

/// Where a chunk stands in the shard before, and its length.
type Stored = (u64, u64);

/// What a chunk is made of: where it stands already, and the cell and the numbers of the writes that meet it.
#[derive(Default)]
struct Source {
    stored: Option<Stored>,
    met: Option<([usize; 3], Vec<usize>)>,
}

/// The shards that are written anew, with the chunks that some write meets.
fn plan_shards(layout: &Layout, writes: &[BoxWrite]) -> BTreeMap<u64, Placed<Source>> {
    let mut plan = BTreeMap::<u64, Placed<Source>>::new();
    for (number, cell) in met_cells(layout, writes) {
        let id = code(layout.size / layout.chunk, cell);
        let (shard, minishard) = place(shard_bits(layout), id);
        let source = plan.entry(shard).or_default().entry((minishard, id)).or_default();
        source.met.get_or_insert_with(|| (cell, Vec::new())).1.push(number);
    }
    plan
}

/// Adds the chunks that a shard has already.
fn keep(file: &File, chunks: &mut Placed<Source>) -> io::Result<()> {
    for minishard in 0..1 << MINISHARD_BITS {
        for (id, start, len) in read_index(file, minishard)? {
            chunks.entry((minishard, id)).or_default().stored = Some((start, len));
        }
    }
    Ok(())
}

fn read_stored<'a>(file: &Option<File>, stored: Option<Stored>, chunk: &'a mut Vec<u8>) -> io::Result<Option<&'a [u8]>> {
    let (Some(file), Some((start, len))) = (file, stored) else {
        return Ok(None);
    };
    chunk.resize(len as usize, 0);
    file.read_exact_at(chunk, start)?;
    Ok(Some(chunk))
}

fn update_shards(layout: &Layout, folder: &Path) -> io::Result<()> {
    let writes = read_stream(layout, &mut io::stdin())?;
    fs::create_dir_all(folder)?;
    let mut plan = plan_shards(layout, &writes);
    let mut maker = Maker::new(layout, &writes);
    let mut chunk = Vec::new();
    for (shard, chunks) in &mut plan {
        let old = match File::open(folder.join(format!("{shard:x}.shard"))) {
            Ok(file) => Some(file),
            Err(error) if error.kind() == io::ErrorKind::NotFound => None,
            Err(error) => return Err(error),
        };
        if let Some(file) = &old {
            keep(file, chunks)?;
        }
        write_shard(folder, *shard, chunks, |file, source| {
            let stored = read_stored(&old, source.stored, &mut chunk)?;
            match &source.met {
                Some((cell, numbers)) => file.append(maker.make(stored, *cell, numbers)?),
                None => file.append(stored.unwrap()),
            }
        })?;
    }
    let cells: usize = plan.values().map(BTreeMap::len).sum();
    println!("objects {} cells {cells}", plan.len());
    Ok(())
}

/// A number at random below a limit of at most 2^32.
fn pick_below(noise: &mut Noise, limit: usize) -> usize {
    let number = u32::from_le_bytes(noise.take(4).try_into().unwrap());
    (number as usize * limit) >> 32
}

/// The bytes of the values of a cube: a label, or any.
fn pick_values(layout: &Layout, noise: &mut Noise, part: &Spans) -> Vec<u8> {
    let bytes = layout.bytes_of(part);
    match layout.block {
        Some(_) => noise.take(layout.width).repeat(bytes / layout.width),
        None => noise.take(bytes),
    }
}

fn write_stream(layout: &Layout, count: u32) -> io::Result<()> {
    let mut noise = Noise::new();
    let mut out = io::BufWriter::new(io::stdout().lock());
    out.write_all(b"PVW1")?;
    out.write_all(&count.to_le_bytes())?;
    for _ in 0..count {
        let part = [0, 1, 2].map(|_| {
            let begin = pick_below(&mut noise, layout.size - SIDE + 1);
            (begin, begin + SIDE)
        });
        for (begin, _) in part {
            out.write_all(&(begin as u64).to_le_bytes())?;
        }
        for (begin, end) in part {
            out.write_all(&((end - begin) as u64).to_le_bytes())?;
        }
        out.write_all(&pick_values(layout, &mut noise, &part))?;
    }
    out.flush()
}

fn main() -> ExitCode {
    layout::run_with(|layout, words| match *words {
        ["stream", count] => Some(write_stream(layout, count.parse().ok()?)),
        ["files", dataset, key] => Some(update_files(layout, &Path::new(dataset).join(key))),
        ["shards", dataset, key] => Some(update_shards(layout, &Path::new(dataset).join(key))),
        _ => None,
    })
}
