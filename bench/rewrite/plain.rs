//! A plain Rust program for three schemas of Avro files, those of `bench/ndjson`. `KIND` writes such a file again under another
//! name and sync marker, each value as it is read, in its shortest encoding, with the tests that the proved program makes:
//! numbers of at most ten bytes and their ranges, booleans of 0 or 1, union indices, UTF-8, sizes of blocks and of arrays, sync
//! markers. It looks at no schema: it is written for each of the three files by itself.
use std::env;
use std::io::{self, BufRead, Read, Write};

const MARKER: &[u8; 16] = &[1; 16];

const FLAT: &str = r#"{"type":"record","name":"row","fields":[{"name":"id","type":"long"},{"name":"time","type":{"type":"long","logicalType":"timestamp-micros"}},{"name":"user","type":"string"},{"name":"country","type":"string"},{"name":"path","type":"string"},{"name":"status","type":"int"},{"name":"duration","type":["null","int"]},{"name":"referrer","type":["null","string"]},{"name":"is_bot","type":"boolean"},{"name":"amount","type":["null","long"]}]}"#;
const NESTED: &str = r#"{"type":"record","name":"row","fields":[{"name":"id","type":"long"},{"name":"tags","type":{"type":"array","items":"string"}},{"name":"items","type":{"type":"array","items":{"type":"record","name":"r1","fields":[{"name":"sku","type":"string"},{"name":"count","type":"int"},{"name":"prices","type":{"type":"array","items":"long"}}]}}},{"name":"address","type":["null",{"type":"record","name":"r2","fields":[{"name":"city","type":"string"},{"name":"geo","type":{"type":"record","name":"r3","fields":[{"name":"lat","type":"long"},{"name":"lon","type":"long"}]}}]}]}]}"#;

fn forty_schema() -> String {
    let kinds = [r#""long""#, r#""string""#, r#""boolean""#, r#"["null","long"]"#];
    let fields: Vec<_> = (0..40).map(|i| format!(r#"{{"name":"c{i}","type":{}}}"#, kinds[i % 4])).collect();
    format!(r#"{{"type":"record","name":"row","fields":[{}]}}"#, fields.join(","))
}

type Bytes<'a> = &'a [u8];

// ---- values read

#[inline(always)]
fn long(b: &mut Bytes) -> Option<i64> {
    let (mut value, mut shift) = (0u64, 0);
    loop {
        let (&byte, rest) = b.split_first()?;
        *b = rest;
        if shift == 63 && byte > 1 {
            return None;
        }
        value |= ((byte & 127) as u64) << shift;
        if byte < 128 {
            return Some((value >> 1) as i64 ^ -((value & 1) as i64));
        }
        shift += 7;
    }
}

#[inline(always)]
fn take<'a>(b: &mut Bytes<'a>, n: usize) -> Option<&'a [u8]> {
    let (taken, rest) = b.split_at_checked(n)?;
    *b = rest;
    Some(taken)
}

// ---- values written again

#[inline(always)]
fn put_long(out: &mut Vec<u8>, value: i64) {
    let mut rest = ((value << 1) ^ (value >> 63)) as u64;
    while rest >= 128 {
        out.push(rest as u8 | 128);
        rest >>= 7;
    }
    out.push(rest as u8);
}

#[inline(always)]
fn again_long(b: &mut Bytes, out: &mut Vec<u8>) -> Option<()> {
    put_long(out, long(b)?);
    Some(())
}

#[inline(always)]
fn again_int(b: &mut Bytes, out: &mut Vec<u8>) -> Option<()> {
    put_long(out, i32::try_from(long(b)?).ok()? as i64);
    Some(())
}

#[inline(always)]
fn again_string(b: &mut Bytes, out: &mut Vec<u8>) -> Option<()> {
    let n = usize::try_from(long(b)?).ok()?;
    let text = std::str::from_utf8(take(b, n)?).ok()?;
    put_long(out, n as i64);
    out.extend_from_slice(text.as_bytes());
    Some(())
}

#[inline(always)]
fn again_boolean(b: &mut Bytes, out: &mut Vec<u8>) -> Option<()> {
    let byte = take(b, 1)?[0];
    out.push(byte);
    (byte < 2).then_some(())
}

/// A union whose null is first.
#[inline(always)]
fn again_some(b: &mut Bytes, out: &mut Vec<u8>, value: impl FnOnce(&mut Bytes, &mut Vec<u8>) -> Option<()>) -> Option<()> {
    match long(b)? {
        0 => out.push(0),
        1 => {
            out.push(2);
            value(b, out)?;
        }
        _ => return None,
    }
    Some(())
}

/// An array in one block. Where the count takes more than a byte, the items are moved.
#[inline(always)]
fn again_items(b: &mut Bytes, out: &mut Vec<u8>, mut item: impl FnMut(&mut Bytes, &mut Vec<u8>) -> Option<()>) -> Option<()> {
    let (at, mut items) = (out.len(), 0);
    out.push(0);
    loop {
        let count = long(b)?;
        if count == 0 {
            break;
        }
        let mut ends = None;
        if count < 0 {
            ends = Some(b.len().checked_sub(usize::try_from(long(b)?).ok()?)?);
        }
        for _ in 0..count.unsigned_abs() {
            item(b, out)?;
        }
        if ends.is_some_and(|left| left != b.len()) {
            return None;
        }
        items += count.unsigned_abs() as i64;
    }
    if items > 0 {
        let mut head = vec![];
        if items < 64 {
            out[at] = 2 * items as u8;
        } else {
            put_long(&mut head, items);
            out.splice(at..at + 1, head);
        }
        out.push(0);
    }
    Some(())
}

fn flat(b: &mut Bytes, out: &mut Vec<u8>) -> Option<()> {
    again_long(b, out)?;
    again_long(b, out)?;
    again_string(b, out)?;
    again_string(b, out)?;
    again_string(b, out)?;
    again_int(b, out)?;
    again_some(b, out, again_int)?;
    again_some(b, out, again_string)?;
    again_boolean(b, out)?;
    again_some(b, out, again_long)
}

fn forty(b: &mut Bytes, out: &mut Vec<u8>) -> Option<()> {
    for _ in 0..10 {
        again_long(b, out)?;
        again_string(b, out)?;
        again_boolean(b, out)?;
        again_some(b, out, again_long)?;
    }
    Some(())
}

fn nested(b: &mut Bytes, out: &mut Vec<u8>) -> Option<()> {
    again_long(b, out)?;
    again_items(b, out, again_string)?;
    again_items(b, out, |b, out| {
        again_string(b, out)?;
        again_int(b, out)?;
        again_items(b, out, again_long)
    })?;
    again_some(b, out, |b, out| {
        again_string(b, out)?;
        again_long(b, out)?;
        again_long(b, out)
    })
}

// ---- files

fn read_long(source: &mut impl Read) -> Option<i64> {
    let mut bytes = [0u8; 10];
    for i in 0..10 {
        source.read_exact(&mut bytes[i..i + 1]).ok()?;
        if bytes[i] < 128 {
            return long(&mut &bytes[..=i]);
        }
    }
    None
}

fn read_bytes(source: &mut impl Read, bytes: &mut Vec<u8>) -> Option<()> {
    let n = u64::try_from(read_long(source)?).ok()?;
    bytes.clear();
    source.take(n).read_to_end(bytes).ok()?;
    (bytes.len() as u64 == n).then_some(())
}

fn read_header(source: &mut impl Read) -> Option<[u8; 16]> {
    let (mut magic, mut bytes, mut marker) = ([0; 4], vec![], [0; 16]);
    source.read_exact(&mut magic).ok()?;
    loop {
        let count = read_long(source)?;
        if count == 0 {
            break;
        }
        for _ in 0..2 * count {
            read_bytes(source, &mut bytes)?;
        }
    }
    source.read_exact(&mut marker).ok()?;
    Some(marker)
}

fn header(kind: &str) -> Vec<u8> {
    let schema = match kind {
        "flat" => FLAT.to_string(),
        "forty" => forty_schema(),
        _ => NESTED.to_string(),
    };
    let mut out = b"Obj\x01\x02\x16avro.schema".to_vec();
    put_long(&mut out, schema.len() as i64);
    out.extend_from_slice(schema.as_bytes());
    out.push(0);
    out.extend_from_slice(MARKER);
    out
}

fn rewrite(kind: &str) -> Option<u64> {
    let mut source = io::BufReader::with_capacity(1 << 18, io::stdin().lock());
    let mut sink = io::stdout().lock();
    let marker = read_header(&mut source)?;
    sink.write_all(&header(kind)).ok()?;
    let (mut bytes, mut rows, mut block, mut out, mut found) = (vec![], 0, vec![], vec![], [0; 16]);
    while !source.fill_buf().ok()?.is_empty() {
        let count = u64::try_from(read_long(&mut source)?).ok()?;
        read_bytes(&mut source, &mut bytes)?;
        source.read_exact(&mut found).ok()?;
        if found != marker {
            return None;
        }
        block.clear();
        let mut b = bytes.as_slice();
        for _ in 0..count {
            match kind {
                "flat" => flat(&mut b, &mut block)?,
                "forty" => forty(&mut b, &mut block)?,
                _ => nested(&mut b, &mut block)?,
            }
        }
        if !b.is_empty() {
            return None;
        }
        out.clear();
        put_long(&mut out, count as i64);
        put_long(&mut out, block.len() as i64);
        sink.write_all(&out).ok()?;
        sink.write_all(&block).ok()?;
        sink.write_all(MARKER).ok()?;
        rows += count;
    }
    Some(rows)
}

fn main() {
    let kind = env::args().nth(1).expect("the word: flat, forty or nested");
    assert!(rewrite(&kind).is_some());
}
