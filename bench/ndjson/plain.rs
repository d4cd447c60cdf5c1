//! A plain Rust program for three schemas of Avro files. `make KIND ROWS` writes a file in blocks of 64 KiB, and `KIND` turns
//! such a file into JSON lines, each value as it is read, with the tests that the proved program makes: numbers of at most ten
//! bytes and their ranges, booleans of 0 or 1, union indices, UTF-8, sizes of blocks and of arrays, sync markers. `KIND one`
//! keeps one field of forty and skips the others. It looks at no schema: it is written for each of the three files by itself.
use std::env;
use std::io::{self, Read, Write};

const MARKER: &[u8; 16] = b"0123456789abcdef";
const BLOCK: usize = 65_536;

const FLAT: &str = r#"{"type":"record","name":"Event","fields":[{"name":"id","type":"long"},{"name":"time","type":{"type":"long","logicalType":"timestamp-micros"}},{"name":"user","type":"string"},{"name":"country","type":"string"},{"name":"path","type":"string"},{"name":"status","type":"int"},{"name":"duration","type":["null","int"]},{"name":"referrer","type":["null","string"]},{"name":"is_bot","type":"boolean"},{"name":"amount","type":["null","long"]}]}"#;
const NESTED: &str = r#"{"type":"record","name":"Order","fields":[{"name":"id","type":"long"},{"name":"tags","type":{"type":"array","items":"string"}},{"name":"items","type":{"type":"array","items":{"type":"record","name":"Item","fields":[{"name":"sku","type":"string"},{"name":"count","type":"int"},{"name":"prices","type":{"type":"array","items":"long"}}]}}},{"name":"address","type":["null",{"type":"record","name":"Address","fields":[{"name":"city","type":"string"},{"name":"geo","type":{"type":"record","name":"Geo","fields":[{"name":"lat","type":"long"},{"name":"lon","type":"long"}]}}]}]}]}"#;

fn forty_schema() -> String {
    let mut text = String::from(r#"{"type":"record","name":"Forty","fields":["#);
    for i in 0..40 {
        if i > 0 {
            text.push(',');
        }
        let kind = [r#""long""#, r#""string""#, r#""boolean""#, r#"["null","long"]"#][i % 4];
        text += &format!(r#"{{"name":"c{i}","type":{kind}}}"#);
    }
    text + "]}"
}

// ---- a file made

struct Random(u64);

impl Random {
    fn next(&mut self) -> u64 {
        self.0 ^= self.0 << 13;
        self.0 ^= self.0 >> 7;
        self.0 ^= self.0 << 17;
        self.0
    }

    fn below(&mut self, n: u64) -> u64 {
        self.next() % n
    }
}

fn put_long(out: &mut Vec<u8>, value: i64) {
    let mut rest = ((value << 1) ^ (value >> 63)) as u64;
    while rest >= 128 {
        out.push(rest as u8 | 128);
        rest >>= 7;
    }
    out.push(rest as u8);
}

fn put_string(out: &mut Vec<u8>, text: &str) {
    put_long(out, text.len() as i64);
    out.extend_from_slice(text.as_bytes());
}

fn put_flat(out: &mut Vec<u8>, r: &mut Random, id: i64) {
    put_long(out, id);
    put_long(out, 1_700_000_000_000_000 + id * 1_000_003 + r.below(1000) as i64);
    put_string(out, &format!("user{}", r.below(100_000)));
    put_string(out, ["de", "fr", "us", "jp", "br"][r.below(5) as usize]);
    put_string(out, ["/", "/index.html", "/a/long/path/to/some/page", "/café?q=1&r=2", "/say \"hi\""][r.below(5) as usize]);
    put_long(out, [200, 200, 200, 304, 404, 500][r.below(6) as usize]);
    if r.below(4) == 0 {
        put_long(out, 0);
    } else {
        put_long(out, 1);
        put_long(out, r.below(5000) as i64);
    }
    if r.below(2) == 0 {
        put_long(out, 0);
    } else {
        put_long(out, 1);
        put_string(out, ["https://example.com/", "https://example.org/search?q=arrow"][r.below(2) as usize]);
    }
    out.push(r.below(2) as u8);
    if r.below(3) == 0 {
        put_long(out, 0);
    } else {
        put_long(out, 1);
        put_long(out, r.next() as i64 >> 20);
    }
}

fn put_forty(out: &mut Vec<u8>, r: &mut Random) {
    for i in 0..40 {
        match i % 4 {
            0 => put_long(out, r.next() as i64 >> 40),
            1 => put_string(out, ["a", "some", "strings"][r.below(3) as usize]),
            2 => out.push(r.below(2) as u8),
            _ if r.below(2) == 0 => put_long(out, 0),
            _ => {
                put_long(out, 1);
                put_long(out, r.below(100_000) as i64);
            }
        }
    }
}

fn put_nested(out: &mut Vec<u8>, r: &mut Random, id: i64) {
    put_long(out, id);
    let tags = r.below(4) as usize;
    if tags > 0 {
        put_long(out, tags as i64);
        for _ in 0..tags {
            put_string(out, ["new", "sale", "gift wrapped", "ü"][r.below(4) as usize]);
        }
    }
    put_long(out, 0);
    let items = r.below(5) as usize;
    if items > 0 {
        put_long(out, items as i64);
        for _ in 0..items {
            put_string(out, &format!("sku-{}", r.below(1_000_000)));
            put_long(out, 1 + r.below(9) as i64);
            let prices = r.below(4) as usize;
            if prices > 0 {
                put_long(out, prices as i64);
                for _ in 0..prices {
                    put_long(out, r.below(100_000) as i64);
                }
            }
            put_long(out, 0);
        }
    }
    put_long(out, 0);
    if r.below(3) == 0 {
        put_long(out, 0);
    } else {
        put_long(out, 1);
        put_string(out, ["Berlin", "São Paulo", "Kyoto"][r.below(3) as usize]);
        put_long(out, r.below(180_000_000) as i64 - 90_000_000);
        put_long(out, r.below(360_000_000) as i64 - 180_000_000);
    }
}

fn make(kind: &str, rows: i64) {
    let mut sink = io::BufWriter::with_capacity(1 << 20, io::stdout().lock());
    let schema = match kind {
        "flat" => FLAT.to_string(),
        "forty" => forty_schema(),
        _ => NESTED.to_string(),
    };
    let mut out = b"Obj\x01\x04".to_vec();
    put_string(&mut out, "avro.codec");
    put_string(&mut out, "null");
    put_string(&mut out, "avro.schema");
    put_string(&mut out, &schema);
    out.push(0);
    out.extend_from_slice(MARKER);
    sink.write_all(&out).unwrap();
    let (mut r, mut block, mut count) = (Random(88172645463325252), Vec::new(), 0);
    for id in 0..rows {
        match kind {
            "flat" => put_flat(&mut block, &mut r, id),
            "forty" => put_forty(&mut block, &mut r),
            _ => put_nested(&mut block, &mut r, id),
        }
        count += 1;
        if block.len() >= BLOCK || id + 1 == rows {
            let mut head = Vec::new();
            put_long(&mut head, count);
            put_long(&mut head, block.len() as i64);
            sink.write_all(&head).unwrap();
            sink.write_all(&block).unwrap();
            sink.write_all(MARKER).unwrap();
            block.clear();
            count = 0;
        }
    }
    sink.flush().unwrap();
}

// ---- a file read

type Bytes<'a> = &'a [u8];

#[inline(always)]
fn long(b: &mut Bytes) -> Option<i64> {
    let (mut value, mut shift) = (0u64, 0);
    loop {
        let (&byte, rest) = b.split_first()?;
        *b = rest;
        if shift == 63 && byte > 1 {
            return None;
        }
        value |= ((byte & 127) as u64) << shift;
        if byte < 128 {
            return Some((value >> 1) as i64 ^ -((value & 1) as i64));
        }
        shift += 7;
    }
}

#[inline(always)]
fn int(b: &mut Bytes) -> Option<i32> {
    i32::try_from(long(b)?).ok()
}

#[inline(always)]
fn take<'a>(b: &mut Bytes<'a>, n: usize) -> Option<&'a [u8]> {
    let (taken, rest) = b.split_at_checked(n)?;
    *b = rest;
    Some(taken)
}

#[inline(always)]
fn string<'a>(b: &mut Bytes<'a>) -> Option<&'a str> {
    let n = usize::try_from(long(b)?).ok()?;
    std::str::from_utf8(take(b, n)?).ok()
}

#[inline(always)]
fn boolean(b: &mut Bytes) -> Option<bool> {
    match take(b, 1)?[0] {
        0 => Some(false),
        1 => Some(true),
        _ => None,
    }
}

/// Whether a value stands there, of a union whose null is first.
#[inline(always)]
fn some(b: &mut Bytes) -> Option<bool> {
    match long(b)? {
        0 => Some(false),
        1 => Some(true),
        _ => None,
    }
}

static PLAIN: [bool; 256] = {
    let mut plain = [true; 256];
    let mut i = 0;
    while i < 32 {
        plain[i] = false;
        i += 1;
    }
    plain[34] = false;
    plain[92] = false;
    plain
};

#[inline(always)]
fn push_string(out: &mut Vec<u8>, text: &str) {
    out.push(b'"');
    let mut rest = text.as_bytes();
    loop {
        let n = rest.iter().position(|byte| !PLAIN[*byte as usize]).unwrap_or(rest.len());
        out.extend_from_slice(&rest[..n]);
        if n == rest.len() {
            break;
        }
        match rest[n] {
            b'"' => out.extend_from_slice(b"\\\""),
            b'\\' => out.extend_from_slice(b"\\\\"),
            b'\n' => out.extend_from_slice(b"\\n"),
            b'\r' => out.extend_from_slice(b"\\r"),
            b'\t' => out.extend_from_slice(b"\\t"),
            8 => out.extend_from_slice(b"\\b"),
            12 => out.extend_from_slice(b"\\f"),
            byte => write!(out, "\\u{byte:04x}").unwrap(),
        }
        rest = &rest[n + 1..];
    }
    out.push(b'"');
}

static PAIRS: [[u8; 2]; 100] = {
    let mut pairs = [[0; 2]; 100];
    let mut i = 0;
    while i < 100 {
        pairs[i] = [b'0' + (i / 10) as u8, b'0' + (i % 10) as u8];
        i += 1;
    }
    pairs
};

// The way of the crate itoa, by hand: two digits at a time into a buffer on the stack.
#[inline(always)]
fn push_long(out: &mut Vec<u8>, n: i64) {
    let mut buffer = [0u8; 20];
    let mut at = 20;
    let mut rest = n.unsigned_abs();
    while rest >= 100 {
        at -= 2;
        buffer[at..at + 2].copy_from_slice(&PAIRS[(rest % 100) as usize]);
        rest /= 100;
    }
    if rest >= 10 {
        at -= 2;
        buffer[at..at + 2].copy_from_slice(&PAIRS[rest as usize]);
    } else {
        at -= 1;
        buffer[at] = b'0' + rest as u8;
    }
    if n < 0 {
        at -= 1;
        buffer[at] = b'-';
    }
    out.extend_from_slice(&buffer[at..]);
}

// Days since the epoch as a date, by the arithmetic of eras.
fn push_time(out: &mut Vec<u8>, micros: i64) -> Option<()> {
    let (seconds, fraction) = (micros.div_euclid(1_000_000), micros.rem_euclid(1_000_000));
    let (days, second) = (seconds.div_euclid(86_400), seconds.rem_euclid(86_400) as usize);
    let z = days + 719_468;
    let (era, of_era) = (z.div_euclid(146_097), z.rem_euclid(146_097));
    let year_of_era = (of_era - of_era / 1460 + of_era / 36_524 - of_era / 146_096) / 365;
    let of_year = of_era - (365 * year_of_era + year_of_era / 4 - year_of_era / 100);
    let shifted = (5 * of_year + 2) / 153;
    let day = (of_year - (153 * shifted + 2) / 5 + 1) as usize;
    let month = if shifted < 10 { shifted + 3 } else { shifted - 9 } as usize;
    let year = year_of_era + era * 400 + (month <= 2) as i64;
    if !(0..=9999).contains(&year) {
        return None;
    }
    let year = year as usize;
    let mut text = *b"\"0000-00-00T00:00:00";
    for (at, number) in [(1, year / 100), (3, year % 100), (6, month), (9, day), (12, second / 3600), (15, second / 60 % 60), (18, second % 60)] {
        text[at..at + 2].copy_from_slice(&PAIRS[number]);
    }
    out.extend_from_slice(&text);
    if fraction != 0 {
        let (digits, number) = if fraction % 1000 == 0 { (3, fraction / 1000) } else { (6, fraction) };
        write!(out, ".{number:0digits$}").unwrap();
    }
    out.extend_from_slice(b"+00:00\"");
    Some(())
}

macro_rules! put {
    ($out:expr, $text:literal) => {
        $out.extend_from_slice($text.as_bytes())
    };
}

fn flat(b: &mut Bytes, out: &mut Vec<u8>) -> Option<()> {
    put!(out, "{\"id\":");
    push_long(out, long(b)?);
    put!(out, ",\"time\":");
    push_time(out, long(b)?)?;
    put!(out, ",\"user\":");
    push_string(out, string(b)?);
    put!(out, ",\"country\":");
    push_string(out, string(b)?);
    put!(out, ",\"path\":");
    push_string(out, string(b)?);
    put!(out, ",\"status\":");
    push_long(out, int(b)? as i64);
    put!(out, ",\"duration\":");
    if some(b)? {
        push_long(out, int(b)? as i64);
    } else {
        put!(out, "null");
    }
    put!(out, ",\"referrer\":");
    if some(b)? {
        push_string(out, string(b)?);
    } else {
        put!(out, "null");
    }
    put!(out, ",\"is_bot\":");
    out.extend_from_slice(if boolean(b)? { b"true" } else { b"false" });
    put!(out, ",\"amount\":");
    if some(b)? {
        push_long(out, long(b)?);
    } else {
        put!(out, "null");
    }
    put!(out, "}\n");
    Some(())
}

fn forty(b: &mut Bytes, out: &mut Vec<u8>, names: &[String]) -> Option<()> {
    for i in 0..10 {
        out.extend_from_slice(names[4 * i].as_bytes());
        push_long(out, long(b)?);
        out.extend_from_slice(names[4 * i + 1].as_bytes());
        push_string(out, string(b)?);
        out.extend_from_slice(names[4 * i + 2].as_bytes());
        out.extend_from_slice(if boolean(b)? { b"true" } else { b"false" });
        out.extend_from_slice(names[4 * i + 3].as_bytes());
        if some(b)? {
            push_long(out, long(b)?);
        } else {
            put!(out, "null");
        }
    }
    put!(out, "}\n");
    Some(())
}

fn one_of_forty(b: &mut Bytes, out: &mut Vec<u8>) -> Option<()> {
    for i in 0..10 {
        if i == 5 {
            put!(out, "{\"c20\":");
            push_long(out, long(b)?);
            put!(out, "}\n");
        } else {
            long(b)?;
        }
        let n = usize::try_from(long(b)?).ok()?;
        take(b, n)?;
        take(b, 1)?;
        if some(b)? {
            long(b)?;
        }
    }
    Some(())
}

/// The items of an array, with commas between them.
#[inline(always)]
fn items<'a>(b: &mut Bytes<'a>, out: &mut Vec<u8>, mut item: impl FnMut(&mut Bytes<'a>, &mut Vec<u8>) -> Option<()>) -> Option<()> {
    out.push(b'[');
    let mut first = true;
    loop {
        let count = long(b)?;
        if count == 0 {
            break;
        }
        let mut ends = None;
        if count < 0 {
            ends = Some(b.len().checked_sub(usize::try_from(long(b)?).ok()?)?);
        }
        for _ in 0..count.unsigned_abs() {
            if !first {
                out.push(b',');
            }
            first = false;
            item(b, out)?;
        }
        if ends.is_some_and(|left| left != b.len()) {
            return None;
        }
    }
    out.push(b']');
    Some(())
}

fn nested(b: &mut Bytes, out: &mut Vec<u8>) -> Option<()> {
    put!(out, "{\"id\":");
    push_long(out, long(b)?);
    put!(out, ",\"tags\":");
    items(b, out, |b, out| {
        push_string(out, string(b)?);
        Some(())
    })?;
    put!(out, ",\"items\":");
    items(b, out, |b, out| {
        put!(out, "{\"sku\":");
        push_string(out, string(b)?);
        put!(out, ",\"count\":");
        push_long(out, int(b)? as i64);
        put!(out, ",\"prices\":");
        items(b, out, |b, out| {
            push_long(out, long(b)?);
            Some(())
        })?;
        out.push(b'}');
        Some(())
    })?;
    put!(out, ",\"address\":");
    if some(b)? {
        put!(out, "{\"city\":");
        push_string(out, string(b)?);
        put!(out, ",\"geo\":{\"lat\":");
        push_long(out, long(b)?);
        put!(out, ",\"lon\":");
        push_long(out, long(b)?);
        put!(out, "}}");
    } else {
        put!(out, "null");
    }
    put!(out, "}\n");
    Some(())
}

fn read_long(source: &mut impl Read) -> Option<i64> {
    let mut bytes = [0u8; 10];
    for i in 0..10 {
        source.read_exact(&mut bytes[i..i + 1]).ok()?;
        if bytes[i] < 128 {
            return long(&mut &bytes[..=i]);
        }
    }
    None
}

fn read_bytes(source: &mut impl Read, bytes: &mut Vec<u8>) -> Option<()> {
    let n = u64::try_from(read_long(source)?).ok()?;
    bytes.clear();
    source.take(n).read_to_end(bytes).ok()?;
    (bytes.len() as u64 == n).then_some(())
}

fn lines(kind: &str, one: bool) -> Option<u64> {
    let mut source = io::BufReader::with_capacity(1 << 18, io::stdin().lock());
    let mut sink = io::stdout().lock();
    let names: Vec<String> = (0..40).map(|i| format!("{}\"c{i}\":", if i == 0 { "{" } else { "," })).collect();
    let mut magic = [0; 4];
    source.read_exact(&mut magic).ok()?;
    let mut bytes = Vec::new();
    loop {
        let count = read_long(&mut source)?;
        if count == 0 {
            break;
        }
        for _ in 0..2 * count {
            read_bytes(&mut source, &mut bytes)?;
        }
    }
    let (mut marker, mut found) = ([0; 16], [0; 16]);
    source.read_exact(&mut marker).ok()?;
    let (mut out, mut rows) = (Vec::new(), 0);
    while !io::BufRead::fill_buf(&mut source).ok()?.is_empty() {
        let count = u64::try_from(read_long(&mut source)?).ok()?;
        read_bytes(&mut source, &mut bytes)?;
        source.read_exact(&mut found).ok()?;
        if found != marker {
            return None;
        }
        out.clear();
        let mut b = bytes.as_slice();
        for _ in 0..count {
            match kind {
                "flat" => flat(&mut b, &mut out)?,
                "forty" if one => one_of_forty(&mut b, &mut out)?,
                "forty" => forty(&mut b, &mut out, &names)?,
                _ => nested(&mut b, &mut out)?,
            }
        }
        if !b.is_empty() {
            return None;
        }
        sink.write_all(&out).ok()?;
        rows += count;
    }
    Some(rows)
}

fn main() {
    let words: Vec<String> = env::args().skip(1).collect();
    match words.iter().map(String::as_str).collect::<Vec<_>>().as_slice() {
        ["make", kind, rows] => make(kind, rows.parse().unwrap()),
        [kind] => assert!(lines(kind, false).is_some()),
        [kind, "one"] => assert!(lines(kind, true).is_some()),
        _ => panic!("words: make KIND ROWS, KIND, KIND one"),
    }
}
