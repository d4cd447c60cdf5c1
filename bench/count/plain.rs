//! Counts the rows and blocks of an Avro file on standard input, in plain Rust: each block is read into a buffer, and its marker
//! compared. It takes the file of `measure.py` alone, and panics on any other.

use std::fs::File;
use std::io::{BufRead, BufReader, Read};
use std::os::fd::FromRawFd;

fn number(input: &mut impl Read) -> u64 {
    let (mut value, mut shift) = (0, 0);
    loop {
        let mut byte = [0];
        input.read_exact(&mut byte).unwrap();
        value |= u64::from(byte[0] & 127) << shift;
        if byte[0] < 128 {
            assert_eq!(value & 1, 0);
            return value >> 1;
        }
        shift += 7;
    }
}

fn take(input: &mut impl Read, buffer: &mut Vec<u8>, size: usize) {
    buffer.resize(size, 0);
    input.read_exact(buffer).unwrap();
}

fn main() {
    let file = unsafe { File::from_raw_fd(0) };
    let mut input = BufReader::with_capacity(65_536, file);
    let mut buffer = Vec::new();
    take(&mut input, &mut buffer, 4);
    assert_eq!(buffer, b"Obj\x01");
    loop {
        let entries = number(&mut input);
        if entries == 0 {
            break;
        }
        for _ in 0..2 * entries {
            let size = number(&mut input) as usize;
            take(&mut input, &mut buffer, size);
        }
    }
    let mut marker = Vec::new();
    take(&mut input, &mut marker, 16);
    let (mut rows, mut blocks) = (0u128, 0u64);
    while !input.fill_buf().unwrap().is_empty() {
        rows += u128::from(number(&mut input));
        let size = number(&mut input) as usize;
        take(&mut input, &mut buffer, size + 16);
        assert_eq!(&buffer[size..], &marker[..]);
        blocks += 1;
    }
    println!("rows {rows}\nblocks {blocks}");
}
