//! The same in plain Rust: each line into serde_json's `Value`, and its members into the bytes of a row, by the types of the
//! fields. The words are those of `avrocat avro` after its first, of the few types that the measured lines have.
use serde_json::Value;
use std::env;
use std::io::{self, BufRead, BufReader, Write};

enum Type {
    Boolean,
    Int,
    Long,
    TimestampMicros,
    Text,
    Optional(Box<Type>),
    List(Box<Type>),
    Record(Vec<(String, Type)>),
}

// ---- types by their words

struct Word<'a>(&'a str);

impl Word<'_> {
    fn takes(&mut self, mark: char) -> bool {
        match self.0.strip_prefix(mark) {
            Some(rest) => self.0 = rest,
            None => return false,
        }
        true
    }

    fn name(&mut self) -> String {
        let n = self.0.find(|c: char| !c.is_ascii_alphanumeric() && !"_-.".contains(c)).unwrap_or(self.0.len());
        let (name, rest) = self.0.split_at(n);
        self.0 = rest;
        name.to_string()
    }

    fn field(&mut self) -> (String, Type) {
        let name = self.name();
        assert!(self.takes('='));
        (name, self.one())
    }

    fn one(&mut self) -> Type {
        let base = if self.takes('[') {
            let item = self.one();
            assert!(self.takes(']'));
            Type::List(Box::new(item))
        } else if self.takes('{') {
            let mut fields = vec![self.field()];
            while self.takes(';') {
                fields.push(self.field());
            }
            assert!(self.takes('}'));
            Type::Record(fields)
        } else {
            match self.name().as_str() {
                "boolean" => Type::Boolean,
                "int" => Type::Int,
                "long" => Type::Long,
                "timestamp-micros" => Type::TimestampMicros,
                "string" => Type::Text,
                name => panic!("no type of the measured lines: {name}"),
            }
        };
        if self.takes('?') { Type::Optional(Box::new(base)) } else { base }
    }
}

fn schema_text(one: &Type, records: &mut usize) -> String {
    match one {
        Type::Boolean => r#""boolean""#.to_string(),
        Type::Int => r#""int""#.to_string(),
        Type::Long => r#""long""#.to_string(),
        Type::TimestampMicros => r#"{"type":"long","logicalType":"timestamp-micros"}"#.to_string(),
        Type::Text => r#""string""#.to_string(),
        Type::Optional(other) => format!(r#"["null",{}]"#, schema_text(other, records)),
        Type::List(item) => format!(r#"{{"type":"array","items":{}}}"#, schema_text(item, records)),
        Type::Record(fields) => {
            *records += 1;
            record_text(&format!("r{records}"), fields, records)
        }
    }
}

fn record_text(name: &str, fields: &[(String, Type)], records: &mut usize) -> String {
    let shown: Vec<_> = fields.iter().map(|(name, one)| format!(r#"{{"name":"{name}","type":{}}}"#, schema_text(one, records))).collect();
    format!(r#"{{"type":"record","name":"{name}","fields":[{}]}}"#, shown.join(","))
}

// ---- values

fn put_long(out: &mut Vec<u8>, value: i64) {
    let mut rest = ((value << 1) ^ (value >> 63)) as u64;
    while rest >= 128 {
        out.push(rest as u8 | 128);
        rest >>= 7;
    }
    out.push(rest as u8);
}

fn put_bytes(out: &mut Vec<u8>, bytes: &[u8]) {
    put_long(out, bytes.len() as i64);
    out.extend_from_slice(bytes);
}

fn put(out: &mut Vec<u8>, one: &Type, value: &Value) -> Option<()> {
    match one {
        Type::Boolean => out.push(value.as_bool()? as u8),
        Type::Int => put_long(out, i32::try_from(value.as_i64()?).ok()? as i64),
        Type::Long | Type::TimestampMicros => put_long(out, value.as_i64()?),
        Type::Text => put_bytes(out, value.as_str()?.as_bytes()),
        Type::Optional(_) if value.is_null() => out.push(0),
        Type::Optional(other) => {
            out.push(2);
            put(out, other, value)?;
        }
        Type::List(item) => {
            let items = value.as_array()?;
            if !items.is_empty() {
                put_long(out, items.len() as i64);
            }
            for it in items {
                put(out, item, it)?;
            }
            out.push(0);
        }
        Type::Record(fields) => {
            let members = value.as_object()?;
            for (name, field) in fields {
                put(out, field, members.get(name).unwrap_or(&Value::Null))?;
            }
        }
    }
    Some(())
}

fn put_block(sink: &mut impl Write, rows: i64, bytes: &[u8], marker: &[u8]) -> io::Result<()> {
    let mut head = vec![];
    put_long(&mut head, rows);
    put_long(&mut head, bytes.len() as i64);
    sink.write_all(&head)?;
    sink.write_all(bytes)?;
    sink.write_all(marker)
}

fn main() {
    let words: Vec<String> = env::args().skip(1).collect();
    let [name, per_block, marker, fields @ ..] = words.as_slice() else { panic!("words: NAME PER_BLOCK MARKER FIELD..") };
    let per_block: i64 = per_block.parse().unwrap();
    let marker: Vec<u8> = (0..16).map(|i| u8::from_str_radix(&marker[2 * i..2 * i + 2], 16).unwrap()).collect();
    let fields: Vec<_> = fields.iter().map(|field| Word(field).field()).collect();
    let mut out = b"Obj\x01\x02\x16avro.schema".to_vec();
    put_bytes(&mut out, record_text(name, &fields, &mut 0).as_bytes());
    out.push(0);
    out.extend_from_slice(&marker);
    let mut sink = io::stdout().lock();
    sink.write_all(&out).unwrap();
    let record = Type::Record(fields);
    let mut source = BufReader::with_capacity(1 << 16, io::stdin());
    let (mut line, mut block, mut rows) = (vec![], vec![], 0);
    while source.read_until(b'\n', &mut line).unwrap() > 0 {
        if !line.trim_ascii().is_empty() {
            put(&mut block, &record, &serde_json::from_slice(&line).unwrap()).unwrap();
            rows += 1;
        }
        if rows == per_block {
            put_block(&mut sink, rows, &block, &marker).unwrap();
            block.clear();
            rows = 0;
        }
        line.clear();
    }
    if rows > 0 {
        put_block(&mut sink, rows, &block, &marker).unwrap();
    }
}
