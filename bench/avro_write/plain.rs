//! The same in plain Rust over the same layout: one buffer that is kept, one match a value.
use std::env;

enum Column {
    Long(Vec<i64>),
    Text { offsets: Vec<i32>, bytes: Vec<u8>, valid: Vec<u64> },
    Boolean(Vec<u64>),
    List { offsets: Vec<i32>, items: std::boxed::Box<Column> },
    Record(Vec<Column>),
}

fn bit(words: &[u64], i: usize) -> bool {
    (words[i / 64] >> (i % 64)) & 1 == 1
}

fn bits(count: usize, f: impl Fn(usize) -> bool) -> Vec<u64> {
    let mut words = vec![0u64; count / 64 + 1];
    for i in 0..count {
        if f(i) {
            words[i / 64] |= 1 << (i % 64);
        }
    }
    words
}

fn push_number(out: &mut Vec<u8>, value: i64) {
    let mut rest = ((value << 1) ^ (value >> 63)) as u64;
    while rest >= 128 {
        out.push(rest as u8 | 128);
        rest >>= 7;
    }
    out.push(rest as u8);
}

fn push_slot(out: &mut Vec<u8>, column: &Column, i: usize) {
    match column {
        Column::Long(values) => push_number(out, values[i]),
        Column::Text { offsets, bytes, valid } => {
            if bit(valid, i) {
                out.push(2);
                let string = &bytes[offsets[i] as usize..offsets[i + 1] as usize];
                push_number(out, string.len() as i64);
                out.extend_from_slice(string);
            } else {
                out.push(0);
            }
        }
        Column::Boolean(values) => out.push(bit(values, i) as u8),
        Column::List { offsets, items } => {
            let (start, end) = (offsets[i] as usize, offsets[i + 1] as usize);
            if end > start {
                push_number(out, (end - start) as i64);
                for k in start..end {
                    push_slot(out, items, k);
                }
            }
            out.push(0);
        }
        Column::Record(children) => {
            for child in children {
                push_slot(out, child, i);
            }
        }
    }
}

fn longs(count: usize, by: i64) -> Column {
    Column::Long((0..count).map(|i| (i as i64).wrapping_mul(by)).collect())
}

fn texts(count: usize) -> Column {
    let given: [&[u8]; 4] = [b"", b"u1", b"another name", b"what is longer than sixteen bytes"];
    let (mut offsets, mut bytes) = (vec![0i32], vec![]);
    for i in 0..count {
        bytes.extend_from_slice(given[i % 4]);
        offsets.push(bytes.len() as i32);
    }
    Column::Text { offsets, bytes, valid: bits(count, |i| i % 3 != 1) }
}

fn main() {
    let words: Vec<String> = env::args().collect();
    let (count, times): (usize, u64) = (words[2].parse().unwrap(), words[3].parse().unwrap());
    let booleans = || Column::Boolean(bits(count, |i| i % 2 == 0));
    let columns = if words[1] == "flat" {
        vec![longs(count, 7919), texts(count), booleans()]
    } else {
        let mut offsets = vec![0i32];
        for i in 0..count {
            offsets.push(offsets[i] + (i % 4) as i32);
        }
        let items = std::boxed::Box::new(longs(offsets[count] as usize, 7919));
        vec![Column::List { offsets, items }, Column::Record(vec![longs(count, 31), booleans()])]
    };
    let mut block = Vec::new();
    for _ in 0..times {
        block.clear();
        for i in 0..count {
            for column in &columns {
                push_slot(&mut block, column, i);
            }
        }
    }
    let sum = block.iter().fold(0u64, |sum, byte| sum.wrapping_mul(31).wrapping_add(*byte as u64));
    println!("{} {sum}", block.len());
}
