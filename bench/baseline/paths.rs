//! One field of a wide document set again and again, and the fields of many paths kept, over owned trees.

use std::collections::BTreeMap;
use std::env;

#[derive(Clone)]
#[allow(dead_code)]
enum Value {
    Int(i32),
    Flag(bool),
    Text(String),
    Doc(Vec<(String, Value)>),
    List(Vec<Value>),
}

type Doc = Vec<(String, Value)>;

fn name(place: u32) -> String {
    format!("f{place:07}")
}

fn wide(fields: u32) -> Doc {
    (0..fields).map(|place| (name(place), Value::Int(place as i32))).collect()
}

fn sum_of(doc: &Doc) -> u64 {
    let mut sum = 0u64;
    for (_, value) in doc {
        if let Value::Int(n) = value {
            sum = sum.wrapping_mul(31).wrapping_add(u64::from(n.unsigned_abs()));
        }
    }
    sum
}

fn set(doc: Doc, path: &[String], value: Value) -> Doc {
    let mut doc = doc;
    let (step, rest) = path.split_first().unwrap();
    let place = doc.iter().position(|(name, _)| name == step);
    let value = if rest.is_empty() {
        value
    } else {
        let inner = match place.map(|at| std::mem::replace(&mut doc[at].1, Value::Flag(false))) {
            Some(Value::Doc(inner)) => inner,
            _ => Vec::new(),
        };
        Value::Doc(set(inner, rest, value))
    };
    match place {
        Some(at) => doc[at] = (step.clone(), value),
        None => doc.push((step.clone(), value)),
    }
    doc
}

fn keep(doc: Doc, paths: &[&[String]]) -> Doc {
    let mut groups: BTreeMap<&str, Vec<&[String]>> = BTreeMap::new();
    for path in paths {
        if let [step, rest @ ..] = path {
            groups.entry(step).or_default().push(rest);
        }
    }
    let mut kept = Vec::new();
    for (name, value) in doc {
        let Some(rests) = groups.get(name.as_str()) else { continue };
        if rests.iter().any(|rest| rest.is_empty()) {
            kept.push((name, value));
        } else if let Value::Doc(inner) = value {
            kept.push((name, Value::Doc(keep(inner, rests))));
        }
    }
    kept
}

fn main() {
    let words: Vec<String> = env::args().collect();
    let fields: u32 = words[2].parse().unwrap();
    let rounds: u32 = words[3].parse().unwrap();
    let place = |round: u32| round.wrapping_mul(7919) % fields;
    if words[1] == "set" {
        let mut doc = wide(fields);
        for round in 0..rounds {
            doc = set(doc, &[name(place(round))], Value::Flag(true));
        }
        println!("{}", sum_of(&doc));
    } else {
        let doc = wide(fields);
        let paths: Vec<Vec<String>> = (0..fields).map(|round| vec![name(place(round))]).collect();
        let paths: Vec<&[String]> = paths.iter().map(|path| path.as_slice()).collect();
        let mut sum = 0u64;
        for _ in 0..rounds {
            sum = sum.wrapping_mul(31).wrapping_add(sum_of(&keep(doc.clone(), &paths)));
        }
        println!("{sum}");
    }
}
