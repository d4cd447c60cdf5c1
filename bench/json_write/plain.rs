//! The same in plain Rust over the same layout: one buffer that is emptied before each row, keys made once, one match a value.
use std::env;
use std::io::Write;

enum Column {
    Long(Vec<i64>),
    Text { offsets: Vec<i32>, bytes: Vec<u8>, valid: Vec<u64> },
    Boolean(Vec<u64>),
    List { offsets: Vec<i32>, items: std::boxed::Box<Column> },
    Record { names: Vec<&'static str>, children: Vec<Column> },
}

fn bit(words: &[u64], i: usize) -> bool {
    (words[i / 64] >> (i % 64)) & 1 == 1
}

fn bits(count: usize, f: impl Fn(usize) -> bool) -> Vec<u64> {
    let mut words = vec![0u64; count / 64 + 1];
    for i in 0..count {
        if f(i) {
            words[i / 64] |= 1 << (i % 64);
        }
    }
    words
}

static PLAIN: [bool; 256] = {
    let mut plain = [true; 256];
    let mut i = 0;
    while i < 32 {
        plain[i] = false;
        i += 1;
    }
    plain[34] = false;
    plain[92] = false;
    plain
};

fn push_string(out: &mut Vec<u8>, string: &[u8]) {
    out.push(b'"');
    let mut rest = string;
    loop {
        let n = rest.iter().position(|byte| !PLAIN[*byte as usize]).unwrap_or(rest.len());
        out.extend_from_slice(&rest[..n]);
        if n == rest.len() {
            break;
        }
        match rest[n] {
            b'"' => out.extend_from_slice(b"\\\""),
            b'\\' => out.extend_from_slice(b"\\\\"),
            b'\n' => out.extend_from_slice(b"\\n"),
            b'\r' => out.extend_from_slice(b"\\r"),
            b'\t' => out.extend_from_slice(b"\\t"),
            8 => out.extend_from_slice(b"\\b"),
            12 => out.extend_from_slice(b"\\f"),
            byte => write!(out, "\\u{byte:04x}").unwrap(),
        }
        rest = &rest[n + 1..];
    }
    out.push(b'"');
}

// The way of the crate itoa, by hand: two digits at a time into a buffer on the stack.
fn push_long(out: &mut Vec<u8>, n: i64) {
    let mut buffer = [0u8; 20];
    let mut at = 20;
    let mut rest = n.unsigned_abs();
    while rest >= 100 {
        let two = (rest % 100) as usize;
        rest /= 100;
        at -= 2;
        buffer[at] = b'0' + (two / 10) as u8;
        buffer[at + 1] = b'0' + (two % 10) as u8;
    }
    if rest >= 10 {
        at -= 2;
        buffer[at] = b'0' + (rest / 10) as u8;
        buffer[at + 1] = b'0' + (rest % 10) as u8;
    } else {
        at -= 1;
        buffer[at] = b'0' + rest as u8;
    }
    if n < 0 {
        at -= 1;
        buffer[at] = b'-';
    }
    out.extend_from_slice(&buffer[at..]);
}

fn push_slot(out: &mut Vec<u8>, column: &Column, i: usize) {
    match column {
        Column::Long(values) => push_long(out, values[i]),
        Column::Text { offsets, bytes, valid } => {
            if bit(valid, i) {
                push_string(out, &bytes[offsets[i] as usize..offsets[i + 1] as usize]);
            } else {
                out.extend_from_slice(b"null");
            }
        }
        Column::Boolean(values) => out.extend_from_slice(if bit(values, i) { b"true" } else { b"false" }),
        Column::List { offsets, items } => {
            out.push(b'[');
            for k in offsets[i] as usize..offsets[i + 1] as usize {
                if k > offsets[i] as usize {
                    out.push(b',');
                }
                push_slot(out, items, k);
            }
            out.push(b']');
        }
        Column::Record { names, children } => {
            out.push(b'{');
            for (k, child) in children.iter().enumerate() {
                if k > 0 {
                    out.push(b',');
                }
                push_string(out, names[k].as_bytes());
                out.push(b':');
                push_slot(out, child, i);
            }
            out.push(b'}');
        }
    }
}

fn longs(count: usize, by: i64) -> Column {
    Column::Long((0..count).map(|i| (i as i64).wrapping_mul(by)).collect())
}

fn texts(count: usize) -> Column {
    let given: [&[u8]; 4] = [b"", b"u1", b"another name", b"what is longer than sixteen bytes"];
    let (mut offsets, mut bytes) = (vec![0i32], vec![]);
    for i in 0..count {
        bytes.extend_from_slice(given[i % 4]);
        offsets.push(bytes.len() as i32);
    }
    Column::Text { offsets, bytes, valid: bits(count, |i| i % 3 != 1) }
}

fn main() {
    let words: Vec<String> = env::args().collect();
    let (count, times): (usize, u64) = (words[2].parse().unwrap(), words[3].parse().unwrap());
    let booleans = || Column::Boolean(bits(count, |i| i % 2 == 0));
    let columns = if words[1] == "flat" {
        vec![longs(count, 7919), texts(count), booleans()]
    } else {
        let mut offsets = vec![0i32];
        for i in 0..count {
            offsets.push(offsets[i] + (i % 4) as i32);
        }
        let items = std::boxed::Box::new(longs(offsets[count] as usize, 7919));
        vec![Column::List { offsets, items }, Column::Record { names: vec!["long", "flag"], children: vec![longs(count, 31), booleans()] }]
    };
    let keys: Vec<Vec<u8>> = ["first", "second", "third"].iter().enumerate().map(|(k, name)| {
        let mut key = if k == 0 { vec![] } else { vec![b','] };
        push_string(&mut key, name.as_bytes());
        key.push(b':');
        key
    }).collect();
    let mut row = Vec::new();
    let (mut size, mut sum) = (0u64, 0u64);
    for _ in 0..times {
        (size, sum) = (0, 0);
        for i in 0..count {
            row.clear();
            row.push(b'{');
            for (k, column) in columns.iter().enumerate() {
                row.extend_from_slice(&keys[k]);
                push_slot(&mut row, column, i);
            }
            row.push(b'}');
            size += row.len() as u64;
            sum = sum.wrapping_mul(31).wrapping_add(row[row.len() / 2] as u64);
        }
    }
    println!("{size} {sum}");
}
