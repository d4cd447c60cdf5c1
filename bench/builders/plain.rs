//! The same in plain Rust: values, packed bits of validity, offsets and bytes, each in a vector that grows by pushes.
#[path = "../bits.rs"]
mod bits;

use bits::Bits;
use std::hint::black_box;

const STRINGS: [&str; 4] = ["", "u1", "u22", "longer"];

#[derive(Default)]
struct Longs {
    values: Vec<i64>,
    valid: Bits,
}

impl Longs {
    fn push(&mut self, value: Option<i64>) {
        self.values.push(value.unwrap_or(0));
        self.valid.push(value.is_some());
    }
}

fn longs(count: usize, times: u64) -> i64 {
    let mut builder = Longs::default();
    for _ in 0..times {
        let builder = black_box(&mut builder);
        builder.values.clear();
        builder.valid.clear();
        for i in 0..count {
            builder.push(if i % 4 == 1 { None } else { Some((i as i64).wrapping_mul(37)) });
        }
    }
    (0..builder.values.len() / 61).map(|k| k * 61).filter(|&i| builder.valid.get(i)).fold(0, |sum: i64, i| sum.wrapping_add(builder.values[i]))
}

struct Strings {
    offsets: Vec<i32>,
    bytes: Vec<u8>,
    valid: Bits,
}

impl Strings {
    fn push(&mut self, text: Option<&str>) {
        self.bytes.extend_from_slice(text.unwrap_or("").as_bytes());
        self.offsets.push(i32::try_from(self.bytes.len()).unwrap());
        self.valid.push(text.is_some());
    }
}

fn strings(count: usize, times: u64) -> i64 {
    let mut builder = Strings { offsets: vec![0], bytes: Vec::new(), valid: Bits::default() };
    for _ in 0..times {
        let builder = black_box(&mut builder);
        builder.offsets.truncate(1);
        builder.bytes.clear();
        builder.valid.clear();
        for i in 0..count {
            builder.push(if i % 4 == 1 { None } else { Some(STRINGS[i % 4]) });
        }
    }
    let length = |i: usize| i64::from(builder.offsets[i + 1] - builder.offsets[i]);
    (0..builder.valid.count / 61).map(|k| k * 61).filter(|&i| builder.valid.get(i)).map(length).sum()
}

#[derive(Default)]
struct Booleans {
    values: Bits,
    valid: Bits,
}

impl Booleans {
    fn push(&mut self, value: Option<bool>) {
        self.values.push(value.unwrap_or(false));
        self.valid.push(value.is_some());
    }
}

fn booleans(count: usize, times: u64) -> i64 {
    let mut builder = Booleans::default();
    for _ in 0..times {
        let builder = black_box(&mut builder);
        builder.values.clear();
        builder.valid.clear();
        for i in 0..count {
            builder.push(if i % 4 == 1 { None } else { Some(i % 3 == 0) });
        }
    }
    (0..builder.valid.count / 61).map(|k| k * 61).filter(|&i| builder.valid.get(i) && builder.values.get(i)).count() as i64
}

fn main() {
    let words: Vec<String> = std::env::args().skip(1).collect();
    let (count, times) = (words[1].parse().unwrap(), words[2].parse().unwrap());
    let found = match words[0].as_str() {
        "long" => longs(count, times),
        "string" => strings(count, times),
        _ => booleans(count, times),
    };
    println!("{found}");
}
