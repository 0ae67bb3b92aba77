//! The write and the cutout of a segmentation as an ordinary Rust program does them, for comparison. LAYOUT is a volume of
//! layout.rs with blocks.
//!
//!     plain_segmentation LAYOUT info DATASET                writes the dataset's info
//!     plain_segmentation LAYOUT stream FORM                 writes a stream of labels to standard output
//!     plain_segmentation LAYOUT write DATASET KEY           reads a stream from standard input and writes its objects
//!     plain_segmentation LAYOUT cutout DATASET KEY BOX      writes the values of the box to standard output
//!
//! FORM is `pieces`: the whole volume in one write, in pieces of which several share a label; or `cells`: the whole volume
//! as slabs of 32 layers, in cells of 300 seeds at random; or `boxes`: 9,000 cubes of 8 voxels a side at random, with a label
//! each.
//!
//! A write reads the whole stream first. Each chunk is made in memory from the writes that meet it, encoded, written to a
//! file that ends in .part, and renamed. A cutout reads each chunk as a whole, decodes it, and copies it by rows into the
//! result, which is made in memory. Nothing but paths takes memory for each chunk.

#[allow(dead_code)]
mod layout;
mod segment_codec;
mod segments;
mod writes;

use layout::{Layout, Spans};
use segments::Segments;
use std::collections::BTreeMap;
use std::fs::{self, File};
use std::io::{self, Read, Write};
use std::path::Path;
use std::process::ExitCode;
use writes::{fill_chunk, met_cells, read_stream};

fn segments_of(layout: &Layout) -> io::Result<Segments> {
    Segments::of(layout).ok_or(io::ErrorKind::InvalidInput.into())
}

fn put(path: &Path, chunk: &[u8]) -> io::Result<()> {
    let part = path.with_extension("part");
    fs::write(&part, chunk)?;
    fs::rename(part, path)
}

fn write(layout: &Layout, folder: &Path) -> io::Result<()> {
    let mut segments = segments_of(layout)?;
    let writes = read_stream(layout, &mut io::stdin())?;
    fs::create_dir_all(folder)?;
    let mut plan: BTreeMap<_, Vec<usize>> = BTreeMap::new();
    for (number, [x, y, z]) in met_cells(layout, &writes) {
        plan.entry([z, y, x]).or_default().push(number);
    }
    let mut values = vec![0; layout.bytes_of(&layout.cell_box([0, 0, 0]))];
    for ([z, y, x], numbers) in &plan {
        let cell = [*x, *y, *z];
        fill_chunk(layout, &writes, numbers, cell, &mut values);
        put(&folder.join(layout.chunk_name(cell)), segments.encode(&values))?;
    }
    println!("objects {} cells {}", plan.len(), plan.len());
    Ok(())
}

/// Reads a chunk, or answers false where there is none.
fn read_chunk(path: &Path, chunk: &mut Vec<u8>) -> io::Result<bool> {
    let mut file = match File::open(path) {
        Ok(file) => file,
        Err(error) if error.kind() == io::ErrorKind::NotFound => return Ok(false),
        Err(error) => return Err(error),
    };
    chunk.clear();
    file.read_to_end(chunk)?;
    Ok(true)
}

fn cut(layout: &Layout, folder: &Path, part: &Spans) -> io::Result<Vec<u8>> {
    let segments = segments_of(layout)?;
    let mut out = vec![0; layout.bytes_of(part)];
    let mut values = vec![0; layout.bytes_of(&layout.cell_box([0, 0, 0]))];
    let mut chunk = Vec::new();
    for cell in layout.cells(part) {
        if read_chunk(&folder.join(layout.chunk_name(cell)), &mut chunk)? {
            segments.decode(&chunk, &mut values)?;
            layout.copy_rows(&layout.cell_box(cell), &values, part, &mut out);
        }
    }
    Ok(out)
}

/// The side in voxels of the cubes that have a seed each.
const SIDE: usize = 20;

/// A number that looks random, by a cube and a purpose.
fn mix(cube: [usize; 3], purpose: usize) -> u64 {
    let n = cube.iter().fold(purpose as u64, |n, &number| n * 1009 + number as u64 + 1);
    let n = (n ^ n >> 30).wrapping_mul(0xbf58476d1ce4e5b9);
    let n = (n ^ n >> 27).wrapping_mul(0x94d049bb133111eb);
    n ^ n >> 31
}

/// The seed of a cube: a voxel at random in it, and its label. Three of four cubes share the label of the cube below on
/// some axis, so labels are branching pieces of many cubes.
fn seed_of(cube: [usize; 3]) -> ([usize; 3], u64) {
    let place = [0, 1, 2].map(|axis| cube[axis] * SIDE + mix(cube, axis) as usize % SIDE);
    let mut root = cube;
    while mix(root, 3) % 4 != 0 {
        let axis = mix(root, 4) as usize % 3;
        if root[axis] == 0 {
            break;
        }
        root[axis] -= 1;
    }
    (place, mix(root, 5))
}

/// The label of a voxel: that of the nearest seed among those of its cube and of the cubes around it.
fn label_of(seeds: &[([usize; 3], u64)], count: usize, voxel: [usize; 3]) -> u64 {
    let [xs, ys, zs] = voxel.map(|at| (at / SIDE).saturating_sub(1)..count.min(at / SIDE + 2));
    let mut best = (usize::MAX, 0);
    for z in zs {
        for y in ys.clone() {
            for (place, label) in &seeds[count * (y + count * z)..][xs.clone()] {
                let far: usize = [0, 1, 2].map(|axis| place[axis].abs_diff(voxel[axis]).pow(2)).iter().sum();
                best = best.min((far, *label));
            }
        }
    }
    best.1
}

/// A stream of boxes, with a label for each voxel of each of them.
fn write_boxes(parts: &[Spans], label: impl Fn(usize, [usize; 3]) -> u64) -> io::Result<()> {
    let mut out = io::BufWriter::new(io::stdout().lock());
    out.write_all(b"PVW1")?;
    out.write_all(&(parts.len() as u32).to_le_bytes())?;
    for (number, part) in parts.iter().enumerate() {
        let [xs, ys, zs] = part.map(|(begin, end)| begin..end);
        for (begin, _) in part {
            out.write_all(&(*begin as u64).to_le_bytes())?;
        }
        for (begin, end) in part {
            out.write_all(&((end - begin) as u64).to_le_bytes())?;
        }
        for z in zs {
            for y in ys.clone() {
                for x in xs.clone() {
                    out.write_all(&label(number, [x, y, z]).to_le_bytes())?;
                }
            }
        }
    }
    out.flush()
}

/// The whole volume, with labels of irregular pieces.
fn write_pieces(layout: &Layout) -> io::Result<()> {
    let count = layout.size.div_ceil(SIDE);
    let cubes = |n: usize| [n % count, n / count % count, n / count / count];
    let seeds: Vec<_> = (0..count.pow(3)).map(|n| seed_of(cubes(n))).collect();
    write_boxes(&[[(0, layout.size); 3]], |_, voxel| label_of(&seeds, count, voxel))
}

/// A voxel at random below a limit on each axis, and a label.
fn pick_place(number: usize, limit: usize) -> ([usize; 3], u64) {
    ([0, 1, 2].map(|axis| mix([number; 3], axis) as usize % limit), mix([number; 3], 5) >> 1)
}

/// The whole volume by slabs, each voxel with the label of the nearest of 300 seeds.
fn write_cells(layout: &Layout) -> io::Result<()> {
    let size = layout.size;
    let seeds: Vec<_> = (0..300).map(|number| pick_place(number, size)).collect();
    let far = |place: &[usize; 3], voxel: [usize; 3]| -> usize {
        [0, 1, 2].map(|axis| place[axis].abs_diff(voxel[axis]).pow(2)).iter().sum()
    };
    let slabs: Vec<Spans> =
        (0..size).step_by(32).map(|z| [(0, size), (0, size), (z, size.min(z + 32))]).collect();
    write_boxes(&slabs, |_, voxel| seeds.iter().min_by_key(|(place, _)| far(place, voxel)).unwrap().1)
}

/// Cubes of one label each.
fn write_cubes(layout: &Layout) -> io::Result<()> {
    let cubes: Vec<_> = (0..9_000).map(|number| pick_place(number, layout.size - 7)).collect();
    let parts: Vec<Spans> =
        cubes.iter().map(|(place, _)| place.map(|begin| (begin, begin + 8))).collect();
    write_boxes(&parts, |number, _| cubes[number].1)
}

fn main() -> ExitCode {
    layout::run_with(|layout, words| match *words {
        ["info", dataset] => Some(layout.make_info(Path::new(dataset), "")),
        ["stream", "pieces"] => Some(write_pieces(layout)),
        ["stream", "cells"] => Some(write_cells(layout)),
        ["stream", "boxes"] => Some(write_cubes(layout)),
        ["write", dataset, key] => Some(write(layout, &Path::new(dataset).join(key))),
        ["cutout", dataset, key, part] => {
            let part = layout.parse_box(part)?;
            let folder = Path::new(dataset).join(key);
            Some(cut(layout, &folder, &part).and_then(|values| layout::write_out(&values)))
        }
        _ => None,
    })
}
