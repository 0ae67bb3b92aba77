// The same chunks as crates/bench, written and read by the same steps in plain Rust, with the same words.

mod segment_codec;

use segment_codec::{decode, encode, reserve, Shape};
use std::env;

fn mix(n: u64) -> u64 {
    let n = (n ^ n >> 30).wrapping_mul(0xbf58476d1ce4e5b9);
    let n = (n ^ n >> 27).wrapping_mul(0x94d049bb133111eb);
    n ^ n >> 31
}

// The label of the box that a voxel lies in, of nine; or 0.
fn box_at(voxel: [u64; 3]) -> u64 {
    let inside = |place: u64| {
        let apart = |axis: usize| voxel[axis].wrapping_sub((place >> (16 * axis)) % 57);
        (0..3).all(|axis| apart(axis) < 8)
    };
    (0..9).map(|i| mix(i + 77)).find(|place| inside(*place)).map_or(0, |place| mix(place) >> 1)
}

// The label of the nearest of forty seeds in a cube of 128 whose middle is the chunk.
fn cell_at(voxel: [u64; 3]) -> u64 {
    let far = |place: u64| -> u64 {
        let apart = |axis: usize| (voxel[axis] + 32).abs_diff((place >> (16 * axis)) % 128);
        (0..3).map(|axis| apart(axis).pow(2)).sum()
    };
    let nearest = (0..40).map(|i| mix(i + 99)).min_by_key(|place| far(*place)).unwrap();
    mix(nearest) >> 1
}

fn value_at(kind: &str, n: u64) -> u64 {
    let [x, y, z] = [n % 64, n / 64 % 64, n / 4096];
    if kind.ends_with("boxes") {
        box_at([x, y, z])
    } else if kind.ends_with("cells") {
        cell_at([x, y, z])
    } else if kind.ends_with("labels") {
        1000 + (x / 19 + y / 19 * 4 + z / 19 * 16) % 40
    } else if kind.ends_with("noise") {
        5000 + mix(n) % (2 + (x / 8 + y / 8 * 8 + z / 8 * 64) % 29)
    } else if kind.ends_with("again") {
        mix(n) % (if kind.starts_with("short") { 1 << 16 } else { 1 << 20 })
    } else {
        mix(n) % (1 << 24)
    }
}

fn sum_bytes(bytes: &[u8]) -> u64 {
    bytes
        .iter()
        .fold(0u64, |sum, &b| sum.wrapping_mul(31).wrapping_add(b as u64))
}

fn main() {
    let mut words = env::args().skip(1);
    while let Some(kind) = words.next() {
        let count: u64 = words.next().and_then(|word| word.parse().ok()).unwrap_or(1);
        let shape = match kind.as_str() {
            "short" | "short-labels" | "short-again" => Shape { size: [65536, 1, 1], block: [1; 3] },
            "long" | "long-labels" | "long-again" => Shape { size: [1048576, 1, 1], block: [1; 3] },
            _ => Shape { size: [64; 3], block: [8; 3] },
        };
        let voxels: usize = shape.size.iter().product();
        let raw: Vec<u8> = (0..voxels as u64)
            .flat_map(|n| value_at(&kind, n).to_le_bytes())
            .collect();
        let mut out = vec![0; 4 + 16 * voxels];
        let mut scratch = reserve(&shape);
        let mut len = 0;
        let writes = if kind.starts_with("decode") { 1 } else { count };
        for _ in 0..writes {
            len = encode(&raw, &shape, &mut scratch, &mut out);
        }
        let sum = if kind.starts_with("decode") {
            let mut read = vec![0; raw.len()];
            let sound = (0..count)
                .filter(|_| decode(&out[..len], &shape, &mut read))
                .count();
            sum_bytes(&read).wrapping_add(sound as u64)
        } else {
            sum_bytes(&out[..len])
        };
        println!("{kind} {count} {sum}");
    }
}
