//! Shards: where the chunks of a volume stand, indexes that are read, and files that are written. Eight neighbouring chunks have one
//! minishard, and MurmurHash3 places them in four minishards of each of two shards. The volumes many and few have one shard.

use crate::layout::Layout;
use std::collections::BTreeMap;
use std::fs::{self, File};
use std::io::{self, Write};
use std::os::unix::fs::FileExt;
use std::path::{Path, PathBuf};

const PRESHIFT: u32 = 3;
pub const MINISHARD_BITS: u32 = 2;
pub const BASE: u64 = 16 << MINISHARD_BITS;

pub fn shard_bits(layout: &Layout) -> u32 {
    if layout.chunk == 32 {
        0
    } else {
        1
    }
}

/// What the scale's info has beside the members of an unsharded one.
pub fn members(layout: &Layout) -> String {
    let shard_bits = shard_bits(layout);
    format!(
        "\"sharding\":{{\"@type\":\"neuroglancer_uint64_sharded_v1\",\"preshift_bits\":{PRESHIFT},\
         \"hash\":\"murmurhash3_x86_128\",\"minishard_bits\":{MINISHARD_BITS},\"shard_bits\":{shard_bits}}},"
    )
}

/// The compressed Morton code of a cell of a cube of cells.
pub fn code(count: usize, cell: [usize; 3]) -> u64 {
    let mut code = 0;
    let mut place = 0;
    for bit in 0..usize::BITS {
        if 1usize.checked_shl(bit).is_none_or(|step| step >= count) {
            break;
        }
        for number in cell {
            code |= ((number >> bit & 1) as u64) << place;
            place += 1;
        }
    }
    code
}

fn finalize(h: u32) -> u32 {
    let h = (h ^ h >> 16).wrapping_mul(0x85ebca6b);
    let h = (h ^ h >> 13).wrapping_mul(0xc2b2ae35);
    h ^ h >> 16
}

fn stir(h: [u32; 4]) -> [u32; 4] {
    let sum = h[0].wrapping_add(h[1]).wrapping_add(h[2]).wrapping_add(h[3]);
    [sum, h[1].wrapping_add(sum), h[2].wrapping_add(sum), h[3].wrapping_add(sum)]
}

/// The low eight bytes of MurmurHash3_x86_128 of a number's eight bytes.
fn hash(value: u64) -> u64 {
    let low = (value as u32).wrapping_mul(0x239b961b).rotate_left(15).wrapping_mul(0xab0e9789);
    let high =
        ((value >> 32) as u32).wrapping_mul(0xab0e9789).rotate_left(16).wrapping_mul(0x38b34ae5);
    let h = stir(stir([low ^ 8, high ^ 8, 8, 8]).map(finalize));
    h[0] as u64 | (h[1] as u64) << 32
}

/// The shard and the minishard of an id.
pub fn place(shard_bits: u32, id: u64) -> (u64, u64) {
    let hash = hash(id >> PRESHIFT);
    (hash >> MINISHARD_BITS & ((1 << shard_bits) - 1), hash & ((1 << MINISHARD_BITS) - 1))
}

fn number_at(bytes: &[u8], place: usize) -> u64 {
    u64::from_le_bytes(bytes[8 * place..8 * place + 8].try_into().unwrap())
}

/// The chunks of a minishard, by their ids: where they begin in the object, and their lengths.
pub type Index = Vec<(u64, u64, u64)>;

pub fn read_index(file: &File, minishard: u64) -> io::Result<Index> {
    let mut entry = [0; 16];
    file.read_exact_at(&mut entry, 16 * minishard)?;
    let (start, end) = (number_at(&entry, 0), number_at(&entry, 1));
    let mut bytes = vec![0; (end - start) as usize];
    file.read_exact_at(&mut bytes, BASE + start)?;
    let rows = bytes.len() / 24;
    let (mut id, mut place) = (0, 0);
    let mut index = Vec::with_capacity(rows);
    for row in 0..rows {
        id += number_at(&bytes, row);
        place += number_at(&bytes, rows + row);
        let len = number_at(&bytes, 2 * rows + row);
        index.push((id, BASE + place, len));
        place += len;
    }
    Ok(index)
}

/// Reads the chunks of a scale, and keeps the shard and the index that were read last.
pub struct Reader {
    folder: PathBuf,
    shard_bits: u32,
    shard: Option<(u64, File)>,
    index: Option<((u64, u64), Index)>,
}

impl Reader {
    pub fn new(folder: &Path, shard_bits: u32) -> Reader {
        Reader { folder: folder.to_path_buf(), shard_bits, shard: None, index: None }
    }

    /// Reads the chunk of an id, or answers false where there is none.
    pub fn read(&mut self, id: u64, chunk: &mut Vec<u8>) -> io::Result<bool> {
        let (shard, minishard) = place(self.shard_bits, id);
        if self.shard.as_ref().is_none_or(|(kept, _)| *kept != shard) {
            let file = File::open(self.folder.join(format!("{shard:x}.shard")))?;
            self.shard = Some((shard, file));
        }
        let (_, file) = self.shard.as_ref().unwrap();
        if self.index.as_ref().is_none_or(|(kept, _)| *kept != (shard, minishard)) {
            self.index = Some(((shard, minishard), read_index(file, minishard)?));
        }
        let (_, index) = self.index.as_ref().unwrap();
        let Ok(found) = index.binary_search_by_key(&id, |row| row.0) else {
            return Ok(false);
        };
        let (_, start, len) = index[found];
        chunk.resize(len as usize, 0);
        file.read_exact_at(chunk, start)?;
        Ok(true)
    }
}

/// The bytes of the index of a minishard whose chunks begin at a place behind the entries, and the lengths of its chunks by
/// ids.
fn index_of(begin: u64, rows: &[(u64, u64)]) -> Vec<u8> {
    let mut bytes = Vec::with_capacity(24 * rows.len());
    let mut last = 0;
    for (id, _) in rows {
        bytes.extend((id - last).to_le_bytes());
        last = *id;
    }
    for row in 0..rows.len() {
        bytes.extend((if row == 0 { begin } else { 0 }).to_le_bytes());
    }
    rows.iter().for_each(|(_, len)| bytes.extend(len.to_le_bytes()));
    bytes
}

/// A shard that is being written, minishard by minishard.
pub struct ShardFile {
    file: File,
    entries: Vec<u8>,
    pub end: u64,
}

impl ShardFile {
    fn begin(path: &Path) -> io::Result<ShardFile> {
        let mut file = File::create(path)?;
        let entries = vec![0; BASE as usize];
        file.write_all(&entries)?;
        Ok(ShardFile { file, entries, end: 0 })
    }

    pub fn append(&mut self, bytes: &[u8]) -> io::Result<()> {
        self.file.write_all(bytes)?;
        self.end += bytes.len() as u64;
        Ok(())
    }

    fn end_minishard(&mut self, minishard: u64, begin: u64, rows: &[(u64, u64)]) -> io::Result<()> {
        let start = self.end;
        self.append(&index_of(begin, rows))?;
        let entry = 16 * minishard as usize;
        self.entries[entry..entry + 8].copy_from_slice(&start.to_le_bytes());
        self.entries[entry + 8..entry + 16].copy_from_slice(&self.end.to_le_bytes());
        Ok(())
    }

    fn finish(self) -> io::Result<()> {
        self.file.write_all_at(&self.entries, 0)
    }
}

/// Something for each chunk of a shard, by minishard and id.
pub type Placed<T> = BTreeMap<(u64, u64), T>;

/// Writes a shard; `append` appends the bytes of a chunk.
pub fn write_shard<T>(
    folder: &Path,
    shard: u64,
    chunks: &Placed<T>,
    mut append: impl FnMut(&mut ShardFile, &T) -> io::Result<()>,
) -> io::Result<()> {
    let path = folder.join(format!("{shard:x}.shard"));
    let part = path.with_extension("part");
    let mut file = ShardFile::begin(&part)?;
    for minishard in 0..1 << MINISHARD_BITS {
        let begin = file.end;
        let mut rows = Vec::new();
        for ((_, id), made_of) in chunks.range((minishard, 0)..(minishard + 1, 0)) {
            let start = file.end;
            append(&mut file, made_of)?;
            rows.push((*id, file.end - start));
        }
        if !rows.is_empty() {
            file.end_minishard(minishard, begin, &rows)?;
        }
    }
    file.finish()?;
    fs::rename(part, path)
}
