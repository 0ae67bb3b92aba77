//! The volumes that are measured: cubes of voxels in chunks that are cubes.

use std::fs::File;
use std::io::{self, Write};
use std::os::fd::AsFd;
use std::path::Path;
use std::process::ExitCode;

/// Sizes in voxels, and the bytes of a value. Chunks with blocks are segmentations.
pub struct Layout {
    pub size: usize,
    pub chunk: usize,
    pub channels: usize,
    pub width: usize,
    pub block: Option<usize>,
}

/// One channel of bytes: 128 MiB in 512 chunks of 256 KiB.
const BYTES: Layout = Layout { size: 512, chunk: 64, channels: 1, width: 1, block: None };

/// Four channels of 64-bit numbers: 64 MiB in 64 chunks of 1 MiB.
const WIDE: Layout = Layout { size: 128, chunk: 32, channels: 4, width: 8, block: None };

/// One channel of bytes in small chunks, many and few of them: 128 MiB in 4,096 chunks of 32 KiB, and 864 KiB in 27.
const MANY: Layout = Layout { size: 512, chunk: 32, channels: 1, width: 1, block: None };

const FEW: Layout = Layout { size: 96, chunk: 32, channels: 1, width: 1, block: None };

/// One channel of bytes: 16 MiB in 64 chunks of 256 KiB.
const CUBE: Layout = Layout { size: 256, chunk: 64, channels: 1, width: 1, block: None };

/// A segmentation of 64-bit labels: 128 MiB of them in 64 chunks, each of 512 blocks.
const LABELS: Layout = Layout { size: 256, chunk: 64, channels: 1, width: 8, block: Some(8) };

/// A large segmentation of 64-bit labels: 8 GiB of them in 4,096 chunks, each of 512 blocks.
const LARGE: Layout = Layout { size: 1024, chunk: 64, channels: 1, width: 8, block: Some(8) };

/// A segmentation most of which is empty: up to 1.95 GiB of labels in 1,000 chunks, each of 512 blocks.
const SPARSE: Layout = Layout { size: 640, chunk: 64, channels: 1, width: 8, block: Some(8) };

/// The begin and the end of a box on each axis, x first.
pub type Spans = [(usize, usize); 3];

pub fn voxels(part: &Spans) -> usize {
    part.iter().map(|(begin, end)| end - begin).product()
}

impl Layout {
    pub fn named(name: &str) -> Option<Layout> {
        match name {
            "bytes" => Some(BYTES),
            "wide" => Some(WIDE),
            "many" => Some(MANY),
            "few" => Some(FEW),
            "cube" => Some(CUBE),
            "labels" => Some(LABELS),
            "large" => Some(LARGE),
            "sparse" => Some(SPARSE),
            _ => None,
        }
    }

    /// A box inside the volume.
    pub fn parse_box(&self, text: &str) -> Option<Spans> {
        let inside = text.strip_prefix('[')?.strip_suffix(']')?;
        let mut spans = [(0, 0); 3];
        let mut axes = inside.split(',');
        for span in &mut spans {
            let (begin, end) = axes.next()?.split_once(':')?;
            *span = (begin.parse().ok()?, end.parse().ok()?);
        }
        let sound = spans.iter().all(|(begin, end)| begin < end && *end <= self.size);
        (axes.next().is_none() && sound).then_some(spans)
    }

    pub fn cell_box(&self, cell: [usize; 3]) -> Spans {
        cell.map(|number| (number * self.chunk, (number + 1) * self.chunk))
    }

    pub fn chunk_name(&self, cell: [usize; 3]) -> String {
        let [x, y, z] = self.cell_box(cell);
        format!("{}-{}_{}-{}_{}-{}", x.0, x.1, y.0, y.1, z.0, z.1)
    }

    /// The bytes of the values of a box.
    pub fn bytes_of(&self, part: &Spans) -> usize {
        voxels(part) * self.channels * self.width
    }

    /// The cells that meet a box, x fastest.
    pub fn cells(&self, part: &Spans) -> Vec<[usize; 3]> {
        let [xs, ys, zs] = part.map(|(begin, end)| begin / self.chunk..end.div_ceil(self.chunk));
        let mut cells = Vec::new();
        for z in zs {
            for y in ys.clone() {
                cells.extend(xs.clone().map(|x| [x, y, z]));
            }
        }
        cells
    }

    /// The parts of a box that lie in one layer of cells along z each.
    pub fn layers(&self, part: &Spans) -> Vec<Spans> {
        let [x, y, (begin, end)] = *part;
        let layers = begin / self.chunk..end.div_ceil(self.chunk);
        let span = |layer: usize| (begin.max(layer * self.chunk), end.min((layer + 1) * self.chunk));
        layers.map(|layer| [x, y, span(layer)]).collect()
    }

    /// Copies by rows what two boxes have in common of one channel, of the source's several, to where that channel is alone.
    pub fn copy_channel(&self, channel: usize, from_box: &Spans, from: &[u8], to_box: &Spans, to: &mut [u8]) {
        let [x, y, z] = [0, 1, 2].map(|axis| {
            (from_box[axis].0.max(to_box[axis].0), from_box[axis].1.min(to_box[axis].1))
        });
        let row = x.1.saturating_sub(x.0) * self.width;
        let place = |part: &Spans, channel: usize, j: usize, k: usize| {
            let [width, height, depth] = part.map(|(begin, end)| end - begin);
            let line = j - part[1].0 + height * (k - part[2].0 + depth * channel);
            self.width * (x.0 - part[0].0 + width * line)
        };
        for k in z.0..z.1 {
            for j in y.0..y.1 {
                let begin = place(from_box, channel, j, k);
                let goal = place(to_box, 0, j, k);
                to[goal..goal + row].copy_from_slice(&from[begin..begin + row]);
            }
        }
    }

    /// The same in each channel.
    pub fn copy_rows(&self, from_box: &Spans, from: &[u8], to_box: &Spans, to: &mut [u8]) {
        let channels = to.chunks_exact_mut(voxels(to_box) * self.width);
        for (channel, values) in channels.enumerate() {
            self.copy_channel(channel, from_box, from, to_box, values);
        }
    }

    /// The scale's encoding, with the block size of segmentations.
    fn encoding(&self) -> String {
        match self.block {
            None => "\"encoding\":\"raw\"".into(),
            Some(block) => format!(
                "\"encoding\":\"compressed_segmentation\",\
                 \"compressed_segmentation_block_size\":[{block},{block},{block}]"
            ),
        }
    }

    /// Writes the info of a dataset with the scale s, which has these members too, each with a comma behind it.
    pub fn make_info(&self, dataset: &Path, members: &str) -> io::Result<()> {
        let (bits, channels, size, chunk) = (8 * self.width, self.channels, self.size, self.chunk);
        let encoding = self.encoding();
        std::fs::create_dir_all(dataset)?;
        let info = format!(
            "{{\"@type\":\"neuroglancer_multiscale_volume\",\"type\":\"image\",\"data_type\":\"uint{bits}\",\
             \"num_channels\":{channels},\"scales\":[{{\"key\":\"s\",{members}\
             \"size\":[{size},{size},{size}],\"chunk_sizes\":[[{chunk},{chunk},{chunk}]],\
             \"resolution\":[8,8,40],{encoding}}}]}}\n"
        );
        std::fs::write(dataset.join("info"), info)
    }
}

/// Writes values to the standard output.
pub fn write_out(values: &[u8]) -> io::Result<()> {
    let out = io::stdout().as_fd().try_clone_to_owned()?;
    File::from(out).write_all(values)
}

/// Bytes that look random.
pub struct Noise(u64);

impl Noise {
    pub fn new() -> Noise {
        Noise(1)
    }

    pub fn take(&mut self, count: usize) -> Vec<u8> {
        let next = || {
            self.0 = self.0.wrapping_mul(6364136223846793005).wrapping_add(1442695040888963407);
            (self.0 >> 56) as u8
        };
        std::iter::repeat_with(next).take(count).collect()
    }
}

/// Does what the words ask of the layout that the first of them names. Status 1: they ask nothing that `job` knows; 5: it
/// failed.
pub fn run_with(job: impl Fn(&Layout, &[&str]) -> Option<io::Result<()>>) -> ExitCode {
    let words: Vec<String> = std::env::args().skip(1).collect();
    let words: Vec<&str> = words.iter().map(String::as_str).collect();
    let layout = words.first().and_then(|name| Layout::named(name));
    match layout.and_then(|layout| job(&layout, &words[1..])) {
        Some(Ok(())) => ExitCode::SUCCESS,
        Some(Err(error)) => {
            eprintln!("{error}");
            ExitCode::from(5)
        }
        None => ExitCode::from(1),
    }
}
