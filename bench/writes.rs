//! The writes of a stream: reading them, and the values that they give a chunk.

use crate::layout::{Layout, Spans};
use std::io::{self, Read};

/// A box, and the bytes of its values.
pub type BoxWrite = (Spans, Vec<u8>);

fn number(bytes: &[u8]) -> usize {
    u64::from_le_bytes(bytes.try_into().unwrap()) as usize
}

fn read_write(layout: &Layout, feed: &mut impl Read) -> io::Result<BoxWrite> {
    let mut head = [0; 48];
    feed.read_exact(&mut head)?;
    let part = [0, 1, 2].map(|axis| {
        let begin = number(&head[8 * axis..8 * axis + 8]);
        let size = number(&head[24 + 8 * axis..32 + 8 * axis]);
        (begin, begin.saturating_add(size))
    });
    if part.iter().any(|(begin, end)| begin >= end || *end > layout.size) {
        return Err(io::ErrorKind::InvalidData.into());
    }
    let mut values = vec![0; layout.bytes_of(&part)];
    feed.read_exact(&mut values)?;
    Ok((part, values))
}

pub fn read_stream(layout: &Layout, feed: &mut impl Read) -> io::Result<Vec<BoxWrite>> {
    let mut head = [0; 8];
    feed.read_exact(&mut head)?;
    let count = u32::from_le_bytes([head[4], head[5], head[6], head[7]]);
    if &head[..4] != b"PVW1" || count > 65536 {
        return Err(io::ErrorKind::InvalidData.into());
    }
    let writes = (0..count).map(|_| read_write(layout, feed)).collect::<io::Result<Vec<_>>>()?;
    match feed.read(&mut [0])? {
        0 => Ok(writes),
        _ => Err(io::ErrorKind::InvalidData.into()),
    }
}

/// For each write, its number and the cells that it meets.
pub fn met_cells<'a>(
    layout: &'a Layout,
    writes: &'a [BoxWrite],
) -> impl Iterator<Item = (usize, [usize; 3])> + 'a {
    let cells = |(number, (part, _)): (usize, &BoxWrite)| {
        layout.cells(part).into_iter().map(move |cell| (number, cell))
    };
    writes.iter().enumerate().flat_map(cells)
}

/// Makes the values of a cell's chunk from the writes of these numbers.
pub fn fill_chunk(
    layout: &Layout,
    writes: &[BoxWrite],
    numbers: &[usize],
    cell: [usize; 3],
    chunk: &mut [u8],
) {
    chunk.fill(0);
    fill_over(layout, writes, numbers, cell, chunk);
}

/// Puts the writes of these numbers over the values of a cell's chunk.
pub fn fill_over(
    layout: &Layout,
    writes: &[BoxWrite],
    numbers: &[usize],
    cell: [usize; 3],
    chunk: &mut [u8],
) {
    for (part, values) in numbers.iter().map(|number| &writes[*number]) {
        layout.copy_rows(part, values, &layout.cell_box(cell), chunk);
    }
}
