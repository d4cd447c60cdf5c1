//! The same in plain Rust. By `hand` a reader without a tree makes the same checks: the grammar of JSON whole, brackets nested at
//! most 128 deep, escapes, numbers cut exactly towards zero, names in any order and the last of several. By `value` each line is
//! read into serde_json's `Value`.
use serde_json::Value;
use std::io::{self, Read};

const PER_BATCH: usize = 1000;
const DEPTH: usize = 128;
const NAMES: [&str; 10] = ["id", "time", "user", "country", "path", "status", "duration", "referrer", "is_bot", "amount"];

#[derive(Default)]
struct Bits {
    words: Vec<u64>,
    len: usize,
}

impl Bits {
    fn push(&mut self, bit: bool) {
        if self.len % 64 == 0 {
            self.words.push(0);
        }
        self.words[self.len / 64] |= u64::from(bit) << (self.len % 64);
        self.len += 1;
    }

    fn pop(&mut self) {
        self.len -= 1;
        self.words[self.len / 64] &= !(1 << (self.len % 64));
        if self.len % 64 == 0 {
            self.words.pop();
        }
    }

    fn get(&self, i: usize) -> bool {
        self.words[i / 64] >> (i % 64) & 1 == 1
    }

    fn clear(&mut self) {
        self.words.clear();
        self.len = 0;
    }
}

enum Slots {
    Longs(Vec<i64>),
    Texts { offsets: Vec<i32>, bytes: Vec<u8> },
    Booleans(Bits),
}

struct Column {
    slots: Slots,
    validity: Bits,
}

impl Column {
    fn new(name: &str) -> Column {
        let slots = match name {
            "user" | "country" | "path" | "referrer" => Slots::Texts { offsets: vec![0], bytes: vec![] },
            "is_bot" => Slots::Booleans(Bits::default()),
            _ => Slots::Longs(vec![]),
        };
        Column { slots, validity: Bits::default() }
    }

    fn clear(&mut self) {
        match &mut self.slots {
            Slots::Longs(longs) => longs.clear(),
            Slots::Texts { offsets, bytes } => {
                offsets.truncate(1);
                bytes.clear();
            }
            Slots::Booleans(bits) => bits.clear(),
        }
        self.validity.clear();
    }

    /// The array of the slots, in memory of its own, as the library hands it out.
    fn boxed(&self) -> Column {
        let slots = match &self.slots {
            Slots::Longs(longs) => Slots::Longs(longs.clone()),
            Slots::Texts { offsets, bytes } => Slots::Texts { offsets: offsets.clone(), bytes: bytes.clone() },
            Slots::Booleans(bits) => Slots::Booleans(Bits { words: bits.words.clone(), len: bits.len }),
        };
        Column { slots, validity: Bits { words: self.validity.words.clone(), len: self.validity.len } }
    }

    fn push_null(&mut self) {
        match &mut self.slots {
            Slots::Longs(longs) => longs.push(0),
            Slots::Texts { offsets, bytes } => offsets.push(bytes.len() as i32),
            Slots::Booleans(bits) => bits.push(false),
        }
        self.validity.push(false);
    }

    fn push_long(&mut self, long: i64) {
        if let Slots::Longs(longs) = &mut self.slots {
            longs.push(long);
            self.validity.push(true);
        }
    }

    fn push_text(&mut self, text: &[u8]) -> Option<()> {
        if let Slots::Texts { offsets, bytes } = &mut self.slots {
            bytes.extend_from_slice(text);
            offsets.push(i32::try_from(bytes.len()).ok()?);
            self.validity.push(true);
        }
        Some(())
    }

    fn push_boolean(&mut self, boolean: bool) -> Option<()> {
        match &mut self.slots {
            Slots::Longs(_) => self.push_long(i64::from(boolean)),
            Slots::Texts { .. } => self.push_text(if boolean { b"true" } else { b"false" })?,
            Slots::Booleans(bits) => {
                bits.push(boolean);
                self.validity.push(true);
            }
        }
        Some(())
    }

    fn pop(&mut self) {
        match &mut self.slots {
            Slots::Longs(longs) => {
                longs.pop();
            }
            Slots::Texts { offsets, bytes } => {
                offsets.pop();
                bytes.truncate(offsets[offsets.len() - 1] as usize);
            }
            Slots::Booleans(bits) => bits.pop(),
        }
        self.validity.pop();
    }

    fn sum(&self) -> i64 {
        let null = if matches!(self.slots, Slots::Booleans(_)) { 2 } else { 1 };
        let slot = |i| match &self.slots {
            _ if !self.validity.get(i) => null,
            Slots::Longs(longs) => longs[i],
            Slots::Texts { offsets, .. } => i64::from(offsets[i + 1] - offsets[i]),
            Slots::Booleans(bits) => i64::from(bits.get(i)),
        };
        (0..self.validity.len).map(slot).fold(0, i64::wrapping_add)
    }
}

struct Reader<'a> {
    bytes: &'a [u8],
    at: usize,
}

/// A number: the texts of its mantissa and of its exponent.
struct Number<'a> {
    mantissa: &'a [u8],
    exponent: &'a [u8],
}

impl<'a> Reader<'a> {
    fn peek(&self) -> u8 {
        // No JSON text has a zero byte outside of a string, and in a string it is refused.
        self.bytes.get(self.at).copied().unwrap_or(0)
    }

    fn skip_spaces(&mut self) {
        while matches!(self.peek(), b' ' | b'\t' | b'\n' | b'\r') {
            self.at += 1;
        }
    }

    fn take(&mut self, byte: u8) -> Option<()> {
        if self.peek() != byte {
            return None;
        }
        self.at += 1;
        Some(())
    }

    fn literal(&mut self, text: &[u8]) -> Option<()> {
        if !self.bytes[self.at..].starts_with(text) {
            return None;
        }
        self.at += text.len();
        Some(())
    }

    /// What stands between two quotes, and whether it has escapes. They are looked at only where the text is wanted or passed.
    fn string(&mut self, unescaped: &mut Vec<u8>) -> Option<(&'a [u8], bool)> {
        self.take(b'"')?;
        let start = self.at;
        loop {
            match self.peek() {
                b'"' => {
                    self.at += 1;
                    return Some((&self.bytes[start..self.at - 1], false));
                }
                b'\\' => break,
                0..=0x1f => return None,
                _ => self.at += 1,
            }
        }
        unescaped.clear();
        unescaped.extend_from_slice(&self.bytes[start..self.at]);
        loop {
            match self.peek() {
                b'"' => {
                    self.at += 1;
                    return Some((&[], true));
                }
                b'\\' => self.escape(unescaped)?,
                0..=0x1f => return None,
                byte => {
                    unescaped.push(byte);
                    self.at += 1;
                }
            }
        }
    }

    fn escape(&mut self, unescaped: &mut Vec<u8>) -> Option<()> {
        let byte = match *self.bytes.get(self.at + 1)? {
            b'u' => {
                let point = self.point()?;
                let mut buffer = [0; 4];
                unescaped.extend_from_slice(point.encode_utf8(&mut buffer).as_bytes());
                return Some(());
            }
            byte @ (b'"' | b'\\' | b'/') => byte,
            b'b' => 8,
            b'f' => 12,
            b'n' => b'\n',
            b'r' => b'\r',
            b't' => b'\t',
            _ => return None,
        };
        unescaped.push(byte);
        self.at += 2;
        Some(())
    }

    fn point(&mut self) -> Option<char> {
        let first = self.four_digits()?;
        if !(0xd800..0xdc00).contains(&first) {
            return char::from_u32(first);
        }
        let second = self.four_digits()?;
        if !(0xdc00..0xe000).contains(&second) {
            return None;
        }
        char::from_u32(0x10000 + ((first - 0xd800) << 10) + (second - 0xdc00))
    }

    fn four_digits(&mut self) -> Option<u32> {
        self.literal(b"\\u")?;
        let digits = self.bytes.get(self.at..self.at + 4)?;
        if !digits.iter().all(u8::is_ascii_hexdigit) {
            return None;
        }
        self.at += 4;
        u32::from_str_radix(std::str::from_utf8(digits).ok()?, 16).ok()
    }

    fn digits(&mut self) -> Option<()> {
        let start = self.at;
        while self.peek().is_ascii_digit() {
            self.at += 1;
        }
        (self.at > start).then_some(())
    }

    fn number(&mut self) -> Option<Number<'a>> {
        let start = self.at;
        if self.peek() == b'-' {
            self.at += 1;
        }
        if self.peek() == b'0' {
            self.at += 1;
        } else {
            self.digits()?;
        }
        if self.peek() == b'.' {
            self.at += 1;
            self.digits()?;
        }
        let mantissa = &self.bytes[start..self.at];
        let mut exponent = &self.bytes[self.at..self.at];
        if matches!(self.peek(), b'e' | b'E') {
            self.at += 1;
            let start = self.at;
            if matches!(self.peek(), b'+' | b'-') {
                self.at += 1;
            }
            self.digits()?;
            exponent = &self.bytes[start..self.at];
        }
        Some(Number { mantissa, exponent })
    }

    /// Reads the value that comes, in which at most `depth` brackets are open at once.
    fn skip(&mut self, depth: usize, unescaped: &mut Vec<u8>) -> Option<()> {
        match self.peek() {
            b'"' => self.string(unescaped).map(|_| ()),
            b't' => self.literal(b"true"),
            b'f' => self.literal(b"false"),
            b'n' => self.literal(b"null"),
            b'[' => self.skip_listed(depth.checked_sub(1)?, b']', unescaped),
            b'{' => self.skip_listed(depth.checked_sub(1)?, b'}', unescaped),
            _ => self.number().map(|_| ()),
        }
    }

    fn skip_listed(&mut self, depth: usize, end: u8, unescaped: &mut Vec<u8>) -> Option<()> {
        self.at += 1;
        self.skip_spaces();
        if self.peek() == end {
            self.at += 1;
            return Some(());
        }
        loop {
            self.skip_spaces();
            if end == b'}' {
                self.string(unescaped)?;
                self.skip_spaces();
                self.take(b':')?;
                self.skip_spaces();
            }
            self.skip(depth, unescaped)?;
            self.skip_spaces();
            if self.peek() == end {
                self.at += 1;
                return Some(());
            }
            self.take(b',')?;
        }
    }
}

/// The value of a number cut towards zero, where it fits.
fn whole(number: &Number) -> Option<i64> {
    let negative = number.mantissa[0] == b'-';
    let unsigned = &number.mantissa[usize::from(negative)..];
    let mut magnitude: u64 = 0;
    if number.exponent.is_empty() && !unsigned.contains(&b'.') {
        for digit in unsigned {
            magnitude = magnitude.checked_mul(10)?.checked_add(u64::from(digit - b'0'))?;
        }
    } else {
        magnitude = scaled(unsigned, number.exponent)?;
    }
    if negative {
        0i64.checked_sub_unsigned(magnitude)
    } else {
        i64::try_from(magnitude).ok()
    }
}

fn scaled(unsigned: &[u8], exponent: &[u8]) -> Option<u64> {
    let mut parts = unsigned.split(|byte| *byte == b'.');
    let (integer, fraction) = (parts.next()?, parts.next().unwrap_or(&[]));
    let is_back = exponent.first() == Some(&b'-');
    let power = exponent.iter().filter(|byte| byte.is_ascii_digit());
    let power = power.fold(0u64, |power, digit| power.saturating_mul(10).saturating_add(u64::from(digit - b'0')));
    let power = i64::try_from(power).unwrap_or(i64::MAX / 2).min(i64::MAX / 2);
    let places = integer.len() as i64 + if is_back { -power } else { power };
    let mut digits = integer.iter().chain(fraction);
    let mut magnitude: u64 = 0;
    for _ in 0..places.max(0) {
        let Some(digit) = digits.next() else {
            if magnitude == 0 {
                return Some(0);
            }
            magnitude = magnitude.checked_mul(10)?;
            continue;
        };
        magnitude = magnitude.checked_mul(10)?.checked_add(u64::from(digit - b'0'))?;
    }
    Some(magnitude)
}

/// Pushes what a number means, whose text is put together where it isn't at hand.
fn push_number(column: &mut Column, number: &Number) -> Option<()> {
    match column.slots {
        Slots::Longs(_) => column.push_long(whole(number)?),
        Slots::Texts { .. } if number.exponent.is_empty() => column.push_text(number.mantissa)?,
        Slots::Texts { .. } => column.push_text(&[number.mantissa, b"e", number.exponent].concat())?,
        Slots::Booleans(_) => column.push_null(),
    }
    Some(())
}

fn push_value(reader: &mut Reader, column: &mut Column, unescaped: &mut Vec<u8>) -> Option<()> {
    match reader.peek() {
        b'"' => {
            let (plain, is_escaped) = reader.string(unescaped)?;
            if matches!(column.slots, Slots::Texts { .. }) {
                column.push_text(if is_escaped { unescaped } else { plain })?;
            } else {
                column.push_null();
            }
        }
        b't' => {
            reader.literal(b"true")?;
            column.push_boolean(true)?;
        }
        b'f' => {
            reader.literal(b"false")?;
            column.push_boolean(false)?;
        }
        b'-' | b'0'..=b'9' => {
            let number = reader.number()?;
            push_number(column, &number)?;
        }
        _ => {
            reader.skip(DEPTH - 1, unescaped)?;
            column.push_null();
        }
    }
    Some(())
}

/// The index of a name, which mostly is the next one.
fn named(name: &[u8], next: usize) -> Option<usize> {
    if next < NAMES.len() && NAMES[next].as_bytes() == name {
        return Some(next);
    }
    NAMES.iter().position(|other| other.as_bytes() == name)
}

fn push_line(line: &str, columns: &mut [Column], row: usize, unescaped: &mut Vec<u8>) -> Option<()> {
    let mut reader = Reader { bytes: line.as_bytes(), at: 0 };
    reader.skip_spaces();
    reader.take(b'{')?;
    reader.skip_spaces();
    let mut next = 0;
    let mut goes_on = reader.peek() != b'}';
    if !goes_on {
        reader.at += 1;
    }
    while goes_on {
        reader.skip_spaces();
        let (plain, is_escaped) = reader.string(unescaped)?;
        let index = named(if is_escaped { unescaped } else { plain }, next);
        reader.skip_spaces();
        reader.take(b':')?;
        reader.skip_spaces();
        match index {
            Some(index) => {
                let column = &mut columns[index];
                if column.validity.len > row {
                    column.pop();
                }
                push_value(&mut reader, column, unescaped)?;
                next = index + 1;
            }
            None => reader.skip(DEPTH - 1, unescaped)?,
        }
        reader.skip_spaces();
        goes_on = reader.peek() == b',';
        if goes_on {
            reader.at += 1;
        } else {
            reader.take(b'}')?;
        }
    }
    reader.skip_spaces();
    for column in columns {
        if column.validity.len == row {
            column.push_null();
        }
    }
    (reader.at == line.len()).then_some(())
}

fn push_tree(line: &str, columns: &mut [Column]) -> Option<()> {
    let Value::Object(members) = serde_json::from_str(line).ok()? else { return None };
    for (name, column) in NAMES.iter().zip(columns) {
        match (members.get(*name), &column.slots) {
            (Some(Value::Bool(boolean)), _) => column.push_boolean(*boolean)?,
            (Some(Value::Number(number)), Slots::Longs(_)) => column.push_long(number.as_i64()?),
            (Some(Value::Number(number)), Slots::Texts { .. }) => column.push_text(number.to_string().as_bytes())?,
            (Some(Value::String(text)), Slots::Texts { .. }) => column.push_text(text.as_bytes())?,
            _ => column.push_null(),
        }
    }
    Some(())
}

fn read_batch(lines: &[String], columns: &mut [Column], by_hand: bool) -> Option<i64> {
    columns.iter_mut().for_each(Column::clear);
    let mut unescaped = vec![];
    for (row, line) in lines.iter().enumerate() {
        if by_hand {
            push_line(line, columns, row, &mut unescaped)?;
        } else {
            push_tree(line, columns)?;
        }
    }
    let arrays: Vec<Column> = columns.iter().map(Column::boxed).collect();
    Some(arrays.iter().fold(0, |sum: i64, array| sum.wrapping_mul(31).wrapping_add(array.sum())))
}

fn main() {
    let words: Vec<String> = std::env::args().collect();
    let times: u64 = words[2].parse().unwrap();
    let mut input = vec![];
    io::stdin().read_to_end(&mut input).unwrap();
    let parts = input.split(|byte| *byte == b'\n').filter(|line| !line.is_empty());
    let lines: Vec<String> = parts.map(|line| std::str::from_utf8(line).unwrap().to_owned()).collect();
    let mut columns: Vec<Column> = NAMES.iter().map(|name| Column::new(name)).collect();
    let mut sum: i64 = 0;
    for _ in 0..times {
        let batches = lines.chunks(PER_BATCH).map(|batch| read_batch(batch, &mut columns, words[1] == "hand").unwrap());
        sum = batches.fold(0, i64::wrapping_add);
    }
    println!("{sum}");
}
