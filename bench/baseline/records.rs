//! Reads a file of BSON records twice, in pieces of 65,536 bytes and one record at a time: first all of it strictly,
//! then again, writing the records whose field is a text. What mongopipe does with one shard and one match, by std alone.

#[path = "decode.rs"]
#[allow(dead_code)]
pub mod decode;

use decode::Value;
use std::fs::File;
use std::io::{self, BufWriter, Read, Write};

const PIECE: usize = 65_536;

/// The records of a file, one at a time.
pub struct Records {
    file: File,
    held: Vec<u8>,
    from: usize,
    at: usize,
}

impl Records {
    pub fn open(name: &str) -> io::Result<Records> {
        Ok(Records { file: File::open(name)?, held: Vec::new(), from: 0, at: 0 })
    }

    /// Reads on until so many bytes are held, or the file ends.
    fn need(&mut self, count: usize) -> io::Result<bool> {
        while self.held.len() - self.from < count {
            self.held.drain(..self.from);
            self.from = 0;
            let len = self.held.len();
            self.held.resize(len + PIECE, 0);
            let got = self.file.read(&mut self.held[len..])?;
            self.held.truncate(len + got);
            if got == 0 {
                return Ok(false);
            }
        }
        Ok(true)
    }

    /// The next record's fields and bytes.
    pub fn next(&mut self) -> io::Result<Option<(Vec<(String, Value)>, &[u8])>> {
        if !self.need(1)? {
            return Ok(None);
        }
        assert!(self.need(4)?, "bad at {}", self.at);
        let head = self.held[self.from..self.from + 4].try_into().unwrap();
        let len = i32::from_le_bytes(head).max(0) as usize;
        assert!(self.need(len)?, "bad at {}", self.at);
        let bytes = &self.held[self.from..self.from + len];
        let (pairs, _) = decode::doc(99, true, self.at, bytes).expect("a record");
        self.from += len;
        self.at += len;
        Ok(Some((pairs, bytes)))
    }
}

fn passes(pairs: &[(String, Value)], field: &str, text: &str) -> bool {
    let equals = |value: &Value| matches!(value, Value::Text(found) if found == text);
    match pairs.iter().find(|pair| pair.0 == field) {
        Some((_, Value::List(values))) => values.iter().any(equals),
        Some((_, value)) => equals(value),
        None => false,
    }
}

fn main() -> io::Result<()> {
    let words: Vec<String> = std::env::args().collect();
    let [_, file, field, text] = words.as_slice() else {
        panic!("usage: records FILE FIELD TEXT");
    };
    let mut survey = Records::open(file)?;
    while survey.next()?.is_some() {}
    let mut out = BufWriter::new(io::stdout());
    let mut records = Records::open(file)?;
    while let Some((pairs, bytes)) = records.next()? {
        if passes(&pairs, field, text) {
            out.write_all(bytes)?;
        }
    }
    out.flush()
}
