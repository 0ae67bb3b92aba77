//! The chunks of a layout with blocks: encoded and decoded one at a time, in memory that is reserved once.

use crate::layout::Layout;
use crate::segment_codec::{decode, encode, reserve, Scratch, Shape};
use std::io;

pub struct Segments {
    shape: Shape,
    scratch: Scratch,
    chunk: Vec<u8>,
}

impl Segments {
    /// None where chunks are raw.
    pub fn of(layout: &Layout) -> Option<Segments> {
        let shape = Shape { size: [layout.chunk; 3], block: [layout.block?; 3] };
        let padded: usize = shape.size.iter().map(|side| side.next_multiple_of(shape.block[0])).product();
        Some(Segments { shape, scratch: reserve(&shape), chunk: vec![0; 4 + 16 * padded] })
    }

    /// The chunk of these values.
    pub fn encode(&mut self, values: &[u8]) -> &[u8] {
        let len = encode(values, &self.shape, &mut self.scratch, &mut self.chunk);
        &self.chunk[..len]
    }

    /// Puts the values of a chunk side by side.
    pub fn decode(&self, chunk: &[u8], values: &mut [u8]) -> io::Result<()> {
        match decode(chunk, &self.shape, values) {
            true => Ok(()),
            false => Err(io::ErrorKind::InvalidData.into()),
        }
    }
}
