//! Overlapping writes into a plain scale as an ordinary Rust program does them, for comparison. LAYOUT is a volume of
//! layout.rs.
//!
//!     plain_write LAYOUT make DATASET          writes the dataset's info
//!     plain_write LAYOUT stream FORM           writes a stream of writes to standard output
//!     plain_write LAYOUT write DATASET KEY     reads a stream from standard input and writes its objects
//!
//! FORM is `whole`: the whole volume, and a cube of half its side that is in no line with the chunks; or `boxes`: 40 boxes
//! at random, each of at most half the volume's side on each axis; or `voxels`: 20,000 voxels at random; or `labelled`: 4,096
//! boxes at random, each of at most 24 voxels on each axis, with a few labels of its own.
//!
//! The whole stream is read first. Each chunk is made in memory from the writes that meet it, written to a file that
//! ends in .part, and renamed.

#[allow(dead_code)]
mod layout;
mod writes;

use layout::{Layout, Noise, Spans};
use std::collections::BTreeMap;
use std::fs;
use std::io::{self, Write};
use std::path::Path;
use std::process::ExitCode;
use writes::{fill_chunk, met_cells, read_stream, BoxWrite};

/// For each cell that some write meets, z slowest, the numbers of these writes.
fn plan(layout: &Layout, writes: &[BoxWrite]) -> BTreeMap<[usize; 3], Vec<usize>> {
    let mut plan: BTreeMap<_, Vec<usize>> = BTreeMap::new();
    for (number, [x, y, z]) in met_cells(layout, writes) {
        plan.entry([z, y, x]).or_default().push(number);
    }
    plan
}

fn put(path: &Path, chunk: &[u8]) -> io::Result<()> {
    let part = path.with_extension("part");
    fs::write(&part, chunk)?;
    fs::rename(part, path)
}

fn write(layout: &Layout, folder: &Path) -> io::Result<()> {
    let writes = read_stream(layout, &mut io::stdin())?;
    fs::create_dir_all(folder)?;
    let plan = plan(layout, &writes);
    let mut chunk = vec![0; layout.bytes_of(&layout.cell_box([0, 0, 0]))];
    for ([z, y, x], numbers) in &plan {
        let cell = [*x, *y, *z];
        fill_chunk(layout, &writes, numbers, cell, &mut chunk);
        put(&folder.join(layout.chunk_name(cell)), &chunk)?;
    }
    println!("objects {} cells {}", plan.len(), plan.len());
    Ok(())
}

/// A number at random below a limit of at most 2^32.
fn pick_below(noise: &mut Noise, limit: usize) -> usize {
    let bytes = noise.take(4);
    let number = u32::from_le_bytes(bytes.try_into().unwrap());
    (number as usize * limit) >> 32
}

/// A span at random, of at most so many voxels.
fn pick_span(noise: &mut Noise, side: usize, most: usize) -> (usize, usize) {
    let size = 1 + pick_below(noise, most);
    let begin = pick_below(noise, side - size + 1);
    (begin, begin + size)
}

/// Boxes at random, of at most so many voxels on each axis.
fn pick_boxes(layout: &Layout, noise: &mut Noise, count: usize, most: usize) -> Vec<Spans> {
    (0..count).map(|_| [0, 1, 2].map(|_| pick_span(noise, layout.size, most))).collect()
}

/// The boxes of a stream.
fn pick_parts(layout: &Layout, noise: &mut Noise, form: &str) -> Option<Vec<Spans>> {
    let (half, quarter) = (layout.size / 2, layout.size / 4 + 1);
    match form {
        "whole" => Some(vec![[(0, layout.size); 3], [(quarter, quarter + half); 3]]),
        "boxes" => Some(pick_boxes(layout, noise, 40, half)),
        "voxels" => Some(pick_boxes(layout, noise, 20_000, 1)),
        "labelled" => Some(pick_boxes(layout, noise, 4_096, 24)),
        _ => None,
    }
}

/// The bytes of a box's values: labels of the box alone, or any.
fn pick_values(layout: &Layout, noise: &mut Noise, form: &str, number: usize, part: &Spans) -> Vec<u8> {
    let bytes = layout.bytes_of(part);
    if form != "labelled" {
        return noise.take(bytes);
    }
    let labels = noise.take(bytes / layout.width);
    let label = |pick: &u8| (8 * number + usize::from(pick & 7)).to_le_bytes();
    labels.iter().flat_map(|pick| label(pick)[..layout.width].to_vec()).collect()
}

fn write_stream(layout: &Layout, form: &str) -> io::Result<()> {
    let mut noise = Noise::new();
    let parts = pick_parts(layout, &mut noise, form).ok_or(io::ErrorKind::InvalidInput)?;
    let mut out = io::BufWriter::new(io::stdout().lock());
    out.write_all(b"PVW1")?;
    out.write_all(&(parts.len() as u32).to_le_bytes())?;
    for (number, part) in parts.iter().enumerate() {
        for (begin, _) in part {
            out.write_all(&(*begin as i64).to_le_bytes())?;
        }
        for (begin, end) in part {
            out.write_all(&((end - begin) as u64).to_le_bytes())?;
        }
        out.write_all(&pick_values(layout, &mut noise, form, number, part))?;
    }
    out.flush()
}

fn main() -> ExitCode {
    layout::run_with(|layout, words| match *words {
        ["make", dataset] => Some(layout.make_info(Path::new(dataset), "")),
        ["stream", form] => Some(write_stream(layout, form)),
        ["write", dataset, key] => Some(write(layout, &Path::new(dataset).join(key))),
        _ => None,
    })
}
