//! What mongopipe does with one shard of orders and the pipeline match, project, unwind, limit, by std alone: it reads the
//! file twice, in pieces of 65,536 bytes and one record at a time; first all of it strictly, then again through the stages,
//! gathering what is written.

#[path = "records.rs"]
#[allow(dead_code)]
mod records;

use records::decode::Value;
use records::Records;
use std::io::{self, Write};

type Doc = Vec<(String, Value)>;

fn find<'a>(doc: &'a Doc, name: &str) -> Option<&'a Value> {
    doc.iter().find(|pair| pair.0 == name).map(|pair| &pair.1)
}

/// `$match`: the status is `shipped`, or an array with it.
fn matches(doc: &Doc) -> bool {
    let equals = |value: &Value| matches!(value, Value::Text(found) if found == "shipped");
    match find(doc, "status") {
        Some(Value::List(values)) => values.iter().any(equals),
        Some(value) => equals(value),
        None => false,
    }
}

/// `$project`: `_id`, the customer and the items stay.
fn project(doc: Doc) -> Doc {
    doc.into_iter().filter(|pair| ["_id", "customer", "items"].contains(&pair.0.as_str())).collect()
}

fn copy_value(value: &Value) -> Value {
    match value {
        Value::Least => Value::Least,
        Value::Null => Value::Null,
        Value::Int(n) => Value::Int(*n),
        Value::Long(n) => Value::Long(*n),
        Value::Text(text) => Value::Text(text.clone()),
        Value::Doc(doc) => Value::Doc(copy(doc)),
        Value::List(values) => Value::List(values.iter().map(copy_value).collect()),
        Value::Bin(kind, bytes) => Value::Bin(*kind, bytes.clone()),
        Value::Id(id) => Value::Id(*id),
        Value::Flag(flag) => Value::Flag(*flag),
        Value::Date(n) => Value::Date(*n),
        Value::Stamp(n) => Value::Stamp(*n),
        Value::Greatest => Value::Greatest,
    }
}

fn copy(doc: &Doc) -> Doc {
    doc.iter().map(|(name, value)| (name.clone(), copy_value(value))).collect()
}

/// `$unwind`: a document for each item, which stands in the place of the items.
fn unwind(mut doc: Doc) -> Vec<Doc> {
    let Some(at) = doc.iter().position(|pair| pair.0 == "items") else {
        return Vec::new();
    };
    match std::mem::replace(&mut doc[at].1, Value::Null) {
        Value::Null => Vec::new(),
        Value::List(items) => {
            let with = |item| {
                let mut made = copy(&doc);
                made[at].1 = item;
                made
            };
            items.into_iter().map(with).collect()
        }
        value => {
            doc[at].1 = value;
            vec![doc]
        }
    }
}

fn put_element(out: &mut Vec<u8>, name: &str, value: &Value) {
    let kind = out.len();
    out.push(0);
    out.extend_from_slice(name.as_bytes());
    out.push(0);
    out[kind] = put_value(out, value);
}

/// Appends a value and tells its type byte.
fn put_value(out: &mut Vec<u8>, value: &Value) -> u8 {
    match value {
        Value::Least => 0xFF,
        Value::Null => 0x0A,
        Value::Int(n) => {
            out.extend_from_slice(&n.to_le_bytes());
            0x10
        }
        Value::Long(n) => {
            out.extend_from_slice(&n.to_le_bytes());
            0x12
        }
        Value::Text(text) => {
            out.extend_from_slice(&(text.len() as i32 + 1).to_le_bytes());
            out.extend_from_slice(text.as_bytes());
            out.push(0);
            0x02
        }
        Value::Doc(doc) => {
            put_doc(out, doc);
            0x03
        }
        Value::List(values) => {
            let start = out.len();
            out.extend_from_slice(&[0; 4]);
            for (i, item) in values.iter().enumerate() {
                put_element(out, &i.to_string(), item);
            }
            close(out, start);
            0x04
        }
        Value::Bin(kind, bytes) => {
            out.extend_from_slice(&(bytes.len() as i32).to_le_bytes());
            out.push(*kind);
            out.extend_from_slice(bytes);
            0x05
        }
        Value::Id(id) => {
            out.extend_from_slice(id);
            0x07
        }
        Value::Flag(flag) => {
            out.push(u8::from(*flag));
            0x08
        }
        Value::Date(n) => {
            out.extend_from_slice(&n.to_le_bytes());
            0x09
        }
        Value::Stamp(n) => {
            out.extend_from_slice(&n.to_le_bytes());
            0x11
        }
        Value::Greatest => 0x7F,
    }
}

/// The byte 0 at the end, and the length at the start.
fn close(out: &mut Vec<u8>, start: usize) {
    out.push(0);
    let len = (out.len() - start) as i32;
    out[start..start + 4].copy_from_slice(&len.to_le_bytes());
}

fn put_doc(out: &mut Vec<u8>, doc: &Doc) {
    let start = out.len();
    out.extend_from_slice(&[0; 4]);
    for (name, value) in doc {
        put_element(out, name, value);
    }
    close(out, start);
}

fn main() -> io::Result<()> {
    let words: Vec<String> = std::env::args().collect();
    let [_, file, limit] = words.as_slice() else {
        panic!("usage: pipeline FILE LIMIT");
    };
    let mut left: u64 = limit.parse().expect("a number");
    let mut survey = Records::open(file)?;
    while survey.next()?.is_some() {}
    let mut out = Vec::new();
    let mut records = Records::open(file)?;
    while let Some((doc, _)) = records.next()? {
        if !matches(&doc) {
            continue;
        }
        for doc in unwind(project(doc)) {
            if left > 0 {
                left -= 1;
                put_doc(&mut out, &doc);
            }
        }
    }
    io::stdout().write_all(&out)
}
