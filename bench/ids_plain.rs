// The same sums of ids as crates/bench, in plain Rust and with the same words.

use std::env;

// Bit by bit over the axes, up to the highest bit that counts.
fn code(size: [u64; 3], cell: [u64; 3]) -> u64 {
    let largest = size.into_iter().max().unwrap_or(1);
    let top = u64::BITS - (largest - 1).leading_zeros();
    let mut code = 0;
    let mut place = 0;
    for bit in 0..top {
        for axis in 0..3 {
            if 1 << bit < size[axis] {
                code |= (cell[axis] >> bit & 1) << place;
                place += 1;
            }
        }
    }
    code
}

fn finalize(h: u32) -> u32 {
    let h = (h ^ h >> 16).wrapping_mul(0x85ebca6b);
    let h = (h ^ h >> 13).wrapping_mul(0xc2b2ae35);
    h ^ h >> 16
}

fn stir(h: [u32; 4]) -> [u32; 4] {
    let sum = h[0].wrapping_add(h[1]).wrapping_add(h[2]).wrapping_add(h[3]);
    [
        sum,
        h[1].wrapping_add(sum),
        h[2].wrapping_add(sum),
        h[3].wrapping_add(sum),
    ]
}

fn hash8(value: u64) -> u64 {
    let low = (value as u32)
        .wrapping_mul(0x239b961b)
        .rotate_left(15)
        .wrapping_mul(0xab0e9789);
    let high = ((value >> 32) as u32)
        .wrapping_mul(0xab0e9789)
        .rotate_left(16)
        .wrapping_mul(0x38b34ae5);
    let h = stir(stir([low ^ 8, high ^ 8, 8, 8]).map(finalize));
    h[0] as u64 | (h[1] as u64) << 32
}

fn sum_codes([x, y, z]: [u64; 3], count: u64) -> u64 {
    let mut sum = 0u64;
    for n in 0..count {
        sum = sum.wrapping_add(code([x, y, z], [n % x, n / x % y, n / x / y % z]));
    }
    sum
}

fn sum_hashes(count: u64) -> u64 {
    let mut sum = 0u64;
    for n in 0..count {
        sum = sum.wrapping_add(hash8(n));
    }
    sum
}

fn main() {
    let mut words = env::args().skip(1);
    while let Some(kind) = words.next() {
        let mut number = || words.next().and_then(|word| word.parse().ok()).unwrap_or(1);
        let count = number();
        let sum = match kind.as_str() {
            "codes" => sum_codes([number(), number(), number()], count),
            _ => sum_hashes(count),
        };
        println!("{kind} {count} {sum}");
    }
}
