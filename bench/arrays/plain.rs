//! The same in plain Rust: values, packed bits of validity, offsets and bytes.
#[path = "../bits.rs"]
mod bits;

use bits::Bits;
use std::hint::black_box;

const TEXTS: [&str; 4] = ["", "u1", "u22", "longer"];

/// Every fourth is null.
fn valid_of(count: usize) -> Bits {
    let booleans: Vec<bool> = (0..count).map(|i| i % 4 != 1).collect();
    let mut valid = Bits::default();
    for boolean in booleans {
        valid.push(boolean);
    }
    valid
}

fn longs(count: usize, times: u64) -> i64 {
    let values: Vec<i64> = (0..count).map(|i| (i as i64).wrapping_mul(37)).collect();
    let valid = valid_of(count);
    let mut found = 0;
    for _ in 0..times {
        let (values, valid) = black_box((&values, &valid));
        found = 0i64;
        for i in 0..values.len() {
            if valid.get(i) {
                found = found.wrapping_add(values[i]);
            }
        }
    }
    found
}

fn texts(count: usize, times: u64) -> i64 {
    let mut offsets = Vec::with_capacity(count + 1);
    let mut bytes = Vec::new();
    offsets.push(0i32);
    for i in 0..count {
        bytes.extend_from_slice(TEXTS[i % 4].as_bytes());
        offsets.push(i32::try_from(bytes.len()).unwrap());
    }
    let text = std::str::from_utf8(&bytes).unwrap();
    for pair in offsets.windows(2) {
        assert!(pair[0] <= pair[1] && text.is_char_boundary(pair[1] as usize));
    }
    let valid = valid_of(count);
    let mut found = 0;
    for _ in 0..times {
        let (offsets, text, valid) = black_box((&offsets, text, &valid));
        found = 0i64;
        for i in 0..offsets.len() - 1 {
            if valid.get(i) {
                found = found.wrapping_add(text[offsets[i] as usize..offsets[i + 1] as usize].len() as i64);
            }
        }
    }
    found
}

fn main() {
    let words: Vec<String> = std::env::args().skip(1).collect();
    let (count, times) = (words[1].parse().unwrap(), words[2].parse().unwrap());
    println!("{}", if words[0] == "long" { longs(count, times) } else { texts(count, times) });
}
