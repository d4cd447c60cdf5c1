//! The same in plain Rust. With `make` and a number of rows it writes a block; with `show` it writes the lines of the columns.
#[path = "../bits.rs"]
mod bits;

use bits::Bits;
use std::fmt::Write as _;
use std::io::{Read, Write};

fn put(out: &mut Vec<u8>, value: i64) {
    let mut rest = ((value << 1) ^ (value >> 63)) as u64;
    while rest >= 128 {
        out.push(rest as u8 | 128);
        rest >>= 7;
    }
    out.push(rest as u8);
}

fn put_text(out: &mut Vec<u8>, text: &str) {
    put(out, text.len() as i64);
    out.extend_from_slice(text.as_bytes());
}

/// An integer of a row or an item, of one to three bytes.
fn integer(row: i64) -> i64 {
    row * 37 % 1_000_003
}

/// A long, a string or null, a boolean. The string is made of the row's number.
fn make_three(out: &mut Vec<u8>, row: i64, text: impl Fn(i64) -> String) {
    put(out, integer(row));
    if row % 4 == 0 {
        put(out, 0);
    } else {
        put(out, 1);
        put_text(out, &text(row));
    }
    out.push((row % 2) as u8);
}

/// Two to four characters of ASCII.
fn ascii(row: i64) -> String {
    format!("u{}", row % 1000)
}

/// Two to four characters, of which in all a half have one byte, a quarter two and a quarter three.
fn letters(row: i64) -> String {
    let letter = |place: i64| {
        let (first, count) = match (row / 4 + place) % 4 {
            1 => ('\u{e0}', 500),
            3 => ('\u{4e00}', 5000),
            _ => ('a', 26),
        };
        char::from_u32(first as u32 + (row % count) as u32).unwrap()
    };
    (0..2 + row % 3).map(letter).collect()
}

/// A long, none to three strings, and a record of an int and none to four longs, or null.
fn make_nested(out: &mut Vec<u8>, row: i64) {
    put(out, integer(row));
    if row % 4 > 0 {
        put(out, row % 4);
        for tag in 0..row % 4 {
            put_text(out, &format!("t{}", (row + tag) % 1000));
        }
    }
    put(out, 0);
    if row % 3 == 0 {
        put(out, 0);
    } else {
        put(out, 1);
        put(out, row % 100_000);
        put_list(out, row, row % 5);
    }
}

/// So many longs in one block, or none.
fn put_list(out: &mut Vec<u8>, row: i64, count: i64) {
    if count > 0 {
        put(out, count);
        for item in 0..count {
            put(out, integer(row + item));
        }
    }
    put(out, 0);
}

/// None to twenty longs, ten a row in all.
fn make_lists(out: &mut Vec<u8>, row: i64) {
    put_list(out, row, row % 21);
}

/// Forty fields: ten times a long, a string, a boolean, and a long or null.
fn make_forty(out: &mut Vec<u8>, row: i64) {
    for field in 0..10 {
        put(out, integer(row + field));
        put_text(out, &format!("u{}", (row + field) % 1000));
        out.push((row % 2) as u8);
        if (row + field) % 4 == 0 {
            put(out, 0);
        } else {
            put(out, 1);
            put(out, integer(row - field));
        }
    }
}

fn make(kind: &str, rows: i64) -> Vec<u8> {
    let mut out = Vec::new();
    for row in 0..rows {
        match kind {
            "long" => put(&mut out, integer(row)),
            "three" => make_three(&mut out, row, ascii),
            "letters" => make_three(&mut out, row, letters),
            "nested" => make_nested(&mut out, row),
            "lists" => make_lists(&mut out, row),
            _ => make_forty(&mut out, row),
        }
    }
    out
}

struct Cursor<'a> {
    bytes: &'a [u8],
    at: usize,
}

impl<'a> Cursor<'a> {
    fn number(&mut self) -> Option<i64> {
        let mut value = 0u64;
        for index in 0..10 {
            let byte = *self.bytes.get(self.at)?;
            self.at += 1;
            if index == 9 && byte > 1 {
                return None;
            }
            value |= u64::from(byte & 127) << (7 * index);
            if byte < 128 {
                return Some((value >> 1) as i64 ^ -((value & 1) as i64));
            }
        }
        None
    }

    fn take(&mut self, length: usize) -> Option<&'a [u8]> {
        let taken = self.bytes.get(self.at..self.at.checked_add(length)?)?;
        self.at += length;
        Some(taken)
    }

    fn text(&mut self) -> Option<&'a str> {
        let length = usize::try_from(self.number()?).ok()?;
        std::str::from_utf8(self.take(length)?).ok()
    }

    fn boolean(&mut self) -> Option<bool> {
        match self.take(1)? {
            [0] => Some(false),
            [1] => Some(true),
            _ => None,
        }
    }

    /// Whether the value of a union with null stands there.
    fn is_valid(&mut self) -> Option<bool> {
        match self.number()? {
            0 => Some(false),
            1 => Some(true),
            _ => None,
        }
    }

    /// Reads the items of an array one by one, and tests the size of a block that states it.
    #[inline(always)]
    fn array(&mut self, mut item: impl FnMut(&mut Self) -> Option<()>) -> Option<()> {
        loop {
            let count = self.number()?;
            if count == 0 {
                return Some(());
            }
            let size = if count < 0 { Some(self.number()?) } else { None };
            let start = self.at;
            for _ in 0..count.checked_abs()? {
                item(self)?;
            }
            if size.is_some_and(|size| usize::try_from(size) != Ok(self.at - start)) {
                return None;
            }
        }
    }
}

/// Strings: the offset at which each ends, and all bytes.
#[derive(Default)]
struct Texts {
    ends: Vec<i32>,
    bytes: String,
}

impl Texts {
    fn push(&mut self, text: &str) -> Option<()> {
        self.bytes.push_str(text);
        self.end()
    }

    fn end(&mut self) -> Option<()> {
        self.ends.push(i32::try_from(self.bytes.len()).ok()?);
        Some(())
    }

    fn get(&self, i: usize) -> &str {
        let start = if i == 0 { 0 } else { self.ends[i - 1] };
        &self.bytes[start as usize..self.ends[i] as usize]
    }
}

#[derive(Default)]
struct Columns {
    longs: Vec<i64>,
    texts: Texts,
    valid: Bits,
    booleans: Bits,
    list_ends: Vec<i32>,
    ints: Vec<i32>,
    item_ends: Vec<i32>,
    items: Vec<i64>,
}

fn decode_three(cursor: &mut Cursor, columns: &mut Columns) -> Option<()> {
    columns.longs.push(cursor.number()?);
    if cursor.is_valid()? {
        columns.texts.push(cursor.text()?)?;
        columns.valid.push(true);
    } else {
        columns.texts.end()?;
        columns.valid.push(false);
    }
    columns.booleans.push(cursor.boolean()?);
    Some(())
}

fn decode_longs(cursor: &mut Cursor, items: &mut Vec<i64>, ends: &mut Vec<i32>) -> Option<()> {
    cursor.array(|cursor| {
        items.push(cursor.number()?);
        Some(())
    })?;
    ends.push(i32::try_from(items.len()).ok()?);
    Some(())
}

fn decode_nested(cursor: &mut Cursor, columns: &mut Columns) -> Option<()> {
    columns.longs.push(cursor.number()?);
    let texts = &mut columns.texts;
    cursor.array(|cursor| texts.push(cursor.text()?))?;
    columns.list_ends.push(i32::try_from(texts.ends.len()).ok()?);
    let is_valid = cursor.is_valid()?;
    columns.valid.push(is_valid);
    if is_valid {
        columns.ints.push(i32::try_from(cursor.number()?).ok()?);
        decode_longs(cursor, &mut columns.items, &mut columns.item_ends)
    } else {
        columns.ints.push(0);
        columns.item_ends.push(i32::try_from(columns.items.len()).ok()?);
        Some(())
    }
}

/// Keeps the long of the fifth group of fields, and skips all others.
fn decode_forty(cursor: &mut Cursor, columns: &mut Columns) -> Option<()> {
    for field in 0..10 {
        let long = cursor.number()?;
        if field == 5 {
            columns.longs.push(long);
        }
        let length = usize::try_from(cursor.number()?).ok()?;
        cursor.take(length)?;
        cursor.take(1)?;
        if cursor.is_valid()? {
            cursor.number()?;
        }
    }
    Some(())
}

fn decode(kind: &str, rows: usize, bytes: &[u8]) -> Option<Columns> {
    let mut columns = Columns::default();
    let mut cursor = Cursor { bytes, at: 0 };
    let all = |cursor: &mut Cursor, columns: &mut Columns| -> Option<()> {
        match kind {
            "long" => {
                for _ in 0..rows {
                    columns.longs.push(cursor.number()?);
                }
            }
            "three" | "letters" => {
                for _ in 0..rows {
                    decode_three(cursor, columns)?;
                }
            }
            "nested" => {
                for _ in 0..rows {
                    decode_nested(cursor, columns)?;
                }
            }
            "lists" => {
                for _ in 0..rows {
                    decode_longs(cursor, &mut columns.items, &mut columns.item_ends)?;
                }
            }
            _ => {
                for _ in 0..rows {
                    decode_forty(cursor, columns)?;
                }
            }
        }
        Some(())
    };
    all(&mut cursor, &mut columns)?;
    (cursor.at == bytes.len()).then_some(columns)
}

/// Writes so many slots between brackets, each by `slot`.
fn list(out: &mut String, range: std::ops::Range<usize>, mut slot: impl FnMut(&mut String, usize)) {
    out.push('[');
    for i in range.clone() {
        if i > range.start {
            out.push(',');
        }
        slot(out, i);
    }
    out.push(']');
}

fn column(out: &mut String, name: &str, rows: usize, slot: impl FnMut(&mut String, usize)) {
    out.push_str(name);
    out.push(':');
    list(out, 0..rows, slot);
    out.push('\n');
}

fn range(ends: &[i32], i: usize) -> std::ops::Range<usize> {
    let start = if i == 0 { 0 } else { ends[i - 1] };
    start as usize..ends[i] as usize
}

fn show(columns: &Columns, kind: &str, rows: usize) -> String {
    let mut text = String::new();
    let out = &mut text;
    let long = |out: &mut String, i: usize| write!(out, "{}", columns.longs[i]).unwrap();
    let item = |out: &mut String, i: usize| write!(out, "{}", columns.items[i]).unwrap();
    let quoted = |out: &mut String, i: usize| {
        out.push('"');
        out.push_str(columns.texts.get(i));
        out.push('"');
    };
    match kind {
        "long" => column(out, "a", rows, long),
        "three" | "letters" => {
            column(out, "a", rows, long);
            column(out, "b", rows, |out, i| {
                if columns.valid.get(i) {
                    quoted(out, i);
                } else {
                    out.push_str("null");
                }
            });
            column(out, "c", rows, |out, i| {
                out.push_str(if columns.booleans.get(i) { "true" } else { "false" });
            });
        }
        "nested" => {
            column(out, "id", rows, long);
            column(out, "tags", rows, |out, i| list(out, range(&columns.list_ends, i), quoted));
            column(out, "r", rows, |out, i| {
                if columns.valid.get(i) {
                    write!(out, "{{{},", columns.ints[i]).unwrap();
                    list(out, range(&columns.item_ends, i), item);
                    out.push('}');
                } else {
                    out.push_str("null");
                }
            });
        }
        "lists" => column(out, "a", rows, |out, i| list(out, range(&columns.item_ends, i), item)),
        _ => column(out, "f20", rows, long),
    }
    text
}

fn main() {
    let words: Vec<String> = std::env::args().skip(1).collect();
    let (kind, rows) = (words[0].as_str(), words[1].parse().unwrap());
    let mut out = std::io::stdout().lock();
    if words[2] == "make" {
        out.write_all(&make(kind, rows as i64)).unwrap();
        return;
    }
    let mut bytes = Vec::new();
    std::io::stdin().lock().read_to_end(&mut bytes).unwrap();
    if words[2] == "show" {
        out.write_all(show(&decode(kind, rows, &bytes).unwrap(), kind, rows).as_bytes()).unwrap();
        return;
    }
    // The program counts the slots of each kept field.
    let fields = match kind {
        "three" | "letters" | "nested" => 3,
        _ => 1,
    };
    let mut slots = 0;
    for _ in 0..words[2].parse().unwrap() {
        std::hint::black_box(decode(kind, rows, std::hint::black_box(&bytes)).unwrap());
        slots += fields * rows;
    }
    writeln!(out, "{slots}").unwrap();
}
