//! The cutout of a plain scale as an ordinary Rust program does it, for comparison. LAYOUT is a volume of layout.rs.
//!
//!     plain_cutout LAYOUT make DATASET                 writes the dataset, with the scale s
//!     plain_cutout LAYOUT cutout DATASET KEY BOX       writes the values of the box to standard output
//!
//! It is written channel by channel, and within a channel by layers of cells along z, each made in memory. Each chunk costs
//! one open, one fstat and one pread for each channel, and is copied by rows.

#[allow(dead_code)]
mod layout;

use layout::{Layout, Noise, Spans};
use std::fs::{self, File};
use std::io;
use std::os::unix::fs::FileExt;
use std::path::Path;
use std::process::ExitCode;

/// Reads a chunk, or answers false where there is none.
fn read_chunk(path: &Path, chunk: &mut [u8]) -> io::Result<bool> {
    let file = match File::open(path) {
        Ok(file) => file,
        Err(error) if error.kind() == io::ErrorKind::NotFound => return Ok(false),
        Err(error) => return Err(error),
    };
    if file.metadata()?.len() != chunk.len() as u64 {
        return Err(io::ErrorKind::InvalidData.into());
    }
    file.read_exact_at(chunk, 0)?;
    Ok(true)
}

fn cut(layout: &Layout, folder: &Path, part: &Spans) -> io::Result<()> {
    let layers = layout.layers(part);
    let room = layers.iter().map(layout::voxels).max().unwrap_or(0) * layout.width;
    let mut values = vec![0; room];
    let mut chunk = vec![0; layout.bytes_of(&layout.cell_box([0, 0, 0]))];
    let absent = vec![0; chunk.len()];
    for channel in 0..layout.channels {
        for layer in &layers {
            let values = &mut values[..layout::voxels(layer) * layout.width];
            for cell in layout.cells(layer) {
                let there = read_chunk(&folder.join(layout.chunk_name(cell)), &mut chunk)?;
                let bytes = if there { &chunk } else { &absent };
                layout.copy_channel(channel, &layout.cell_box(cell), bytes, layer, values);
            }
            layout::write_out(values)?;
        }
    }
    Ok(())
}

fn make(layout: &Layout, dataset: &Path) -> io::Result<()> {
    layout.make_info(dataset, "")?;
    let folder = dataset.join("s");
    fs::create_dir_all(&folder)?;
    let mut noise = Noise::new();
    for cell in layout.cells(&[(0, layout.size); 3]) {
        let chunk = noise.take(layout.bytes_of(&layout.cell_box(cell)));
        fs::write(folder.join(layout.chunk_name(cell)), chunk)?;
    }
    Ok(())
}

fn main() -> ExitCode {
    layout::run_with(|layout, words| match *words {
        ["make", dataset] => Some(make(layout, Path::new(dataset))),
        ["cutout", dataset, key, part] => {
            let part = layout.parse_box(part)?;
            let folder = Path::new(dataset).join(key);
            Some(cut(layout, &folder, &part))
        }
        _ => None,
    })
}
