//! Sets of two arrays of numbers in plain Rust: members are looked up by their numbers in std's hash set.

use std::collections::HashSet;
use std::convert::TryFrom;
use std::env;

#[allow(dead_code)]
#[derive(Clone)]
enum Value {
    Null,
    Int(i32),
    Long(i64),
    Text(String),
    List(Vec<Value>),
}

fn key_of(value: &Value) -> i64 {
    match value {
        Value::Int(number) => i64::from(*number),
        Value::Long(number) => *number,
        _ => 0,
    }
}

fn numbers(count: u32, first: u64) -> Vec<Value> {
    let mut state = first;
    let range = u64::from(count) * 2 + 1;
    let mut list = Vec::new();
    for place in 0..count {
        state = state
            .wrapping_mul(6364136223846793005)
            .wrapping_add(1442695040888963407);
        let number = ((state >> 33) % range) as i64;
        list.push(match i32::try_from(number) {
            Ok(int) if place % 2 == 0 => Value::Int(int),
            _ => Value::Long(number),
        });
    }
    list
}

fn union(a: &[Value], b: &[Value]) -> Vec<Value> {
    let mut seen = HashSet::new();
    let mut out = Vec::new();
    for value in a.iter().chain(b) {
        if seen.insert(key_of(value)) {
            out.push(value.clone());
        }
    }
    out
}

fn filtered(a: &[Value], b: &[Value], shared: bool) -> Vec<Value> {
    let others: HashSet<i64> = b.iter().map(key_of).collect();
    let mut seen = HashSet::new();
    let mut out = Vec::new();
    for value in a {
        let key = key_of(value);
        if seen.insert(key) && others.contains(&key) == shared {
            out.push(value.clone());
        }
    }
    out
}

fn main() {
    let words: Vec<String> = env::args().collect();
    let count: u32 = words[2].parse().unwrap();
    let rounds: u32 = words[3].parse().unwrap();
    let a = numbers(count, 7);
    let b = numbers(count, 11);
    let mut last = (0, 0u64);
    for _ in 0..rounds {
        let set: Vec<Value> = match words[1].as_str() {
            "union" => union(&a, &b),
            "intersection" => filtered(&a, &b, true),
            _ => filtered(&a, &b, false),
        };
        let sum = set.iter().fold(0u64, |sum: u64, value| {
            sum.wrapping_mul(31).wrapping_add(key_of(value) as u64)
        });
        last = (set.len(), sum);
    }
    println!("{} {}", last.0, last.1);
}
