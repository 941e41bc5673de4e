//! Reads the BSON documents of a file into owned trees, with the checks that bson_codec makes, by std alone.
//! Prints how many documents and fields there were, or the place of the first fault.

use std::collections::HashSet;

#[allow(dead_code)]
#[derive(Clone)]
pub enum Value {
    Least,
    Null,
    Int(i32),
    Long(i64),
    Text(String),
    Doc(Vec<(String, Value)>),
    List(Vec<Value>),
    Bin(u8, Vec<u8>),
    Id([u8; 12]),
    Flag(bool),
    Date(i64),
    Stamp(u64),
    Greatest,
}

/// The names behind so many are kept in a set.
const FEW: usize = 16;

type Read<'a, T> = Result<(T, &'a [u8]), usize>;

fn front(at: usize, len: usize, bytes: &[u8]) -> Read<'_, &[u8]> {
    if bytes.len() < len {
        return Err(at);
    }
    Ok(bytes.split_at(len))
}

fn number<const N: usize>(at: usize, bytes: &[u8]) -> Read<'_, [u8; N]> {
    let (front, rest) = front(at, N, bytes)?;
    Ok((front.try_into().unwrap(), rest))
}

fn length(at: usize, bytes: &[u8]) -> Read<'_, usize> {
    let (bytes, rest) = number::<4>(at, bytes)?;
    let len = i32::from_le_bytes(bytes);
    if len < 0 {
        return Err(at);
    }
    Ok((len as usize, rest))
}

fn text(at: usize, bytes: &[u8]) -> Result<String, usize> {
    Ok(std::str::from_utf8(bytes).map_err(|_| at)?.to_owned())
}

fn scalar(kind: u8, at: usize, bytes: &[u8]) -> Read<'_, Value> {
    match kind {
        0x02 => {
            let (len, rest) = length(at, bytes)?;
            if len == 0 {
                return Err(at);
            }
            let (front, rest) = front(at, len, rest)?;
            if front[len - 1] != 0 {
                return Err(at);
            }
            Ok((Value::Text(text(at, &front[..len - 1])?), rest))
        }
        0x05 => {
            let (len, rest) = length(at, bytes)?;
            let (kind, rest) = number::<1>(at, rest)?;
            let (front, rest) = front(at, len, rest)?;
            Ok((Value::Bin(kind[0], front.to_vec()), rest))
        }
        0x07 => number::<12>(at, bytes).map(|(id, rest)| (Value::Id(id), rest)),
        0x08 => match number::<1>(at, bytes)? {
            ([0], rest) => Ok((Value::Flag(false), rest)),
            ([1], rest) => Ok((Value::Flag(true), rest)),
            _ => Err(at),
        },
        0x09 => number::<8>(at, bytes).map(|(n, rest)| (Value::Date(i64::from_le_bytes(n)), rest)),
        0x0A => Ok((Value::Null, bytes)),
        0x10 => number::<4>(at, bytes).map(|(n, rest)| (Value::Int(i32::from_le_bytes(n)), rest)),
        0x11 => number::<8>(at, bytes).map(|(n, rest)| (Value::Stamp(u64::from_le_bytes(n)), rest)),
        0x12 => number::<8>(at, bytes).map(|(n, rest)| (Value::Long(i64::from_le_bytes(n)), rest)),
        0xFF => Ok((Value::Least, bytes)),
        0x7F => Ok((Value::Greatest, bytes)),
        _ => Err(at),
    }
}

fn is_kind(kind: u8) -> bool {
    matches!(kind, 0x02..=0x05 | 0x07..=0x0A | 0x10..=0x12 | 0xFF | 0x7F)
}

/// The type and name at the front.
fn head(at: usize, bytes: &[u8]) -> Result<(u8, &[u8], &[u8]), usize> {
    let kind = bytes[0];
    if !is_kind(kind) {
        return Err(at);
    }
    let rest = &bytes[1..];
    let end = rest.iter().position(|b| *b == 0).ok_or(at + 1)?;
    Ok((kind, &rest[..end], &rest[end + 1..]))
}

fn frame(top: bool, at: usize, bytes: &[u8]) -> Result<(&[u8], &[u8]), usize> {
    let (len, rest) = length(at, bytes)?;
    if len < 5 || (top && len > 16_777_216) || rest.len() < len - 4 {
        return Err(at);
    }
    Ok((&rest[..len - 4], &rest[len - 4..]))
}

fn value(depth: u32, kind: u8, at: usize, bytes: &[u8]) -> Read<'_, Value> {
    match kind {
        0x03 | 0x04 if depth == 0 => Err(at),
        0x03 => doc(depth - 1, false, at, bytes).map(|(doc, rest)| (Value::Doc(doc), rest)),
        0x04 => list(depth - 1, at, bytes).map(|(list, rest)| (Value::List(list), rest)),
        _ => scalar(kind, at, bytes),
    }
}

pub fn doc(depth: u32, top: bool, at: usize, bytes: &[u8]) -> Read<'_, Vec<(String, Value)>> {
    let (body, after) = frame(top, at, bytes)?;
    let (last, body) = body.split_last().unwrap();
    let mut pairs: Vec<(String, Value)> = Vec::new();
    let mut later = HashSet::new();
    let (mut at, mut rest) = (at + 4, body);
    while !rest.is_empty() {
        let (kind, spelled, tail) = head(at, rest)?;
        let name = text(at + 1, spelled)?;
        let few = &pairs[..pairs.len().min(FEW)];
        if few.iter().any(|pair| pair.0.as_bytes() == spelled) {
            return Err(at + 1);
        }
        if pairs.len() >= FEW && !later.insert(spelled) {
            return Err(at + 1);
        }
        let (value, tail) = value(depth, kind, at + 2 + spelled.len(), tail)?;
        pairs.push((name, value));
        at += rest.len() - tail.len();
        rest = tail;
    }
    if *last != 0 {
        return Err(at);
    }
    Ok((pairs, after))
}

fn list(depth: u32, at: usize, bytes: &[u8]) -> Read<'_, Vec<Value>> {
    let (body, after) = frame(false, at, bytes)?;
    let (last, body) = body.split_last().unwrap();
    let mut values = Vec::new();
    let (mut at, mut rest) = (at + 4, body);
    while !rest.is_empty() {
        let (kind, spelled, tail) = head(at, rest)?;
        if std::str::from_utf8(spelled).ok() != Some(values.len().to_string().as_str()) {
            return Err(at + 1);
        }
        let (value, tail) = value(depth, kind, at + 2 + spelled.len(), tail)?;
        values.push(value);
        at += rest.len() - tail.len();
        rest = tail;
    }
    if *last != 0 {
        return Err(at);
    }
    Ok((values, after))
}

fn main() {
    let file = std::env::args().nth(1).expect("usage: decode FILE");
    let bytes = std::fs::read(file).expect("a file");
    let (mut at, mut docs, mut fields) = (0, 0u64, 0u64);
    while at < bytes.len() {
        match doc(99, true, at, &bytes[at..]) {
            Ok((pairs, rest)) => {
                docs += 1;
                fields += pairs.len() as u64;
                at = bytes.len() - rest.len();
            }
            Err(place) => {
                println!("bad at {place}");
                return;
            }
        }
    }
    println!("{docs} documents, {fields} fields");
}
