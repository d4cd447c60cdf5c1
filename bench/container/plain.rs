//! The same in plain Rust. With `make`, a number of blocks and the size of each it writes them.
use std::io::{self, BufRead, BufReader, Read, Write};

const MARKER: &[u8; 16] = b"0123456789abcdef";

fn put(out: &mut Vec<u8>, value: i64) {
    let mut rest = ((value << 1) ^ (value >> 63)) as u64;
    while rest >= 128 {
        out.push(rest as u8 | 128);
        rest >>= 7;
    }
    out.push(rest as u8);
}

fn make(blocks: usize, size: usize) {
    let mut block = Vec::new();
    put(&mut block, size as i64);
    put(&mut block, size as i64);
    block.extend((0..size).map(|at| (at % 251) as u8));
    block.extend_from_slice(MARKER);
    let mut out = io::stdout().lock();
    for _ in 0..blocks {
        out.write_all(&block).unwrap();
    }
}

fn number<R: Read>(source: &mut R) -> io::Result<i64> {
    let mut value = 0u64;
    for index in 0..10 {
        let mut byte = [0u8];
        source.read_exact(&mut byte)?;
        if index == 9 && byte[0] > 1 {
            break;
        }
        value |= ((byte[0] & 127) as u64) << (7 * index);
        if byte[0] < 128 {
            return Ok((value >> 1) as i64 ^ -((value & 1) as i64));
        }
    }
    Err(io::ErrorKind::InvalidData.into())
}

fn total<R: BufRead>(mut source: R) -> io::Result<u64> {
    let (mut block, mut marker, mut total) = (Vec::new(), [0; 16], 0);
    while !source.fill_buf()?.is_empty() {
        let _rows = number(&mut source)?;
        let size = number(&mut source)?;
        block.clear();
        (&mut source).take(size as u64).read_to_end(&mut block)?;
        source.read_exact(&mut marker)?;
        if &marker != MARKER || block.len() as i64 != size {
            return Err(io::ErrorKind::InvalidData.into());
        }
        total += block.len() as u64;
    }
    Ok(total)
}

fn main() {
    let words: Vec<String> = std::env::args().collect();
    if words[1] == "make" {
        return make(words[2].parse().unwrap(), words[3].parse().unwrap());
    }
    let times: u64 = words[1].parse().unwrap();
    let mut sum = 0;
    if times == 0 {
        sum = total(BufReader::new(io::stdin().lock())).unwrap();
    } else {
        let mut bytes = Vec::new();
        io::stdin().lock().read_to_end(&mut bytes).unwrap();
        for _ in 0..times {
            sum += total(bytes.as_slice()).unwrap();
        }
    }
    println!("{sum}");
}
