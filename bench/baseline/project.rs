//! Ten computed fields of each document of a file, by a small evaluator over trees of its own and std alone: what
//! engine_bench's case `project` does. Prints how many documents there were and how many bytes the made ones have.

#[path = "decode.rs"]
#[allow(dead_code)]
mod decode;

use decode::Value;
use std::cmp::Ordering;

type Doc = Vec<(String, Value)>;

enum Expr {
    Literal(Value),
    Field(Vec<String>),
    Var(String),
    Make(Vec<(String, Expr)>),
    Add(Vec<Expr>),
    Multiply(Vec<Expr>),
    Subtract(Box<Expr>, Box<Expr>),
    Concat(Vec<Expr>),
    Cond(Box<Expr>, Box<Expr>, Box<Expr>),
    Greater(Box<Expr>, Box<Expr>),
    Equal(Box<Expr>, Box<Expr>),
    Size(Box<Expr>),
    At(Box<Expr>, Box<Expr>),
    Filter(Box<Expr>, String, Box<Expr>),
    IfNull(Vec<Expr>),
}

type Names<'a> = Vec<(&'a str, Value)>;
type Outcome = Result<Option<Value>, u8>;

fn whole(value: &Option<Value>) -> Result<Option<(bool, i64)>, u8> {
    match value {
        None | Some(Value::Null) => Ok(None),
        Some(Value::Int(n)) => Ok(Some((true, i64::from(*n)))),
        Some(Value::Long(n)) => Ok(Some((false, *n))),
        _ => Err(1),
    }
}

fn typed(narrow: bool, n: i64) -> Option<Value> {
    Some(match i32::try_from(n) {
        Ok(int) if narrow => Value::Int(int),
        _ => Value::Long(n),
    })
}

fn counts(value: &Option<Value>) -> bool {
    !matches!(value, None | Some(Value::Null | Value::Flag(false) | Value::Int(0) | Value::Long(0)))
}

fn order(a: &Option<Value>, b: &Option<Value>) -> Ordering {
    match (a, b) {
        (Some(Value::Int(a)), Some(Value::Int(b))) => a.cmp(b),
        (Some(Value::Text(a)), Some(Value::Text(b))) => a.cmp(b),
        (None, None) => Ordering::Equal,
        (None, _) => Ordering::Less,
        (_, None) => Ordering::Greater,
        _ => Ordering::Less,
    }
}

fn reach(doc: &Doc, path: &[String]) -> Option<Value> {
    let value = &doc.iter().find(|pair| pair.0 == path[0])?.1;
    if path.len() == 1 {
        return Some(value.clone());
    }
    match value {
        Value::Doc(inner) => reach(inner, &path[1..]),
        Value::List(items) => Some(Value::List(
            items
                .iter()
                .filter_map(|item| match item {
                    Value::Doc(inner) => reach(inner, &path[1..]),
                    _ => None,
                })
                .collect(),
        )),
        _ => None,
    }
}

fn numbers<'a>(exprs: &'a [Expr], root: &Doc, names: &mut Names<'a>) -> Result<Option<Vec<(bool, i64)>>, u8> {
    let values = exprs.iter().map(|e| eval(e, root, names)).collect::<Result<Vec<_>, _>>()?;
    values.iter().map(whole).collect()
}

fn eval<'a>(expr: &'a Expr, root: &Doc, names: &mut Names<'a>) -> Outcome {
    match expr {
        Expr::Literal(value) => Ok(Some(value.clone())),
        Expr::Field(path) => Ok(reach(root, path)),
        Expr::Var(name) => Ok(names.iter().rev().find(|n| n.0 == name).map(|n| n.1.clone())),
        Expr::Make(fields) => {
            let mut made: Doc = Vec::new();
            for (name, part) in fields {
                if let Some(value) = eval(part, root, names)? {
                    match made.iter_mut().find(|pair| pair.0 == *name) {
                        Some(pair) => pair.1 = value,
                        None => made.push((name.clone(), value)),
                    }
                }
            }
            Ok(Some(Value::Doc(made)))
        }
        Expr::Add(exprs) => Ok(match numbers(exprs, root, names)? {
            None => Some(Value::Null),
            Some(ns) => {
                let sum: i128 = ns.iter().map(|n| i128::from(n.1)).sum();
                typed(ns.iter().all(|n| n.0), i64::try_from(sum).map_err(|_| 2)?)
            }
        }),
        Expr::Multiply(exprs) => Ok(match numbers(exprs, root, names)? {
            None => Some(Value::Null),
            Some(ns) => {
                let product = ns.iter().try_fold(1i64, |p, n| p.checked_mul(n.1)).ok_or(2)?;
                typed(ns.iter().all(|n| n.0), product)
            }
        }),
        Expr::Subtract(a, b) => {
            let (a, b) = (eval(a, root, names)?, eval(b, root, names)?);
            Ok(match (whole(&a)?, whole(&b)?) {
                (Some(a), Some(b)) => typed(a.0 && b.0, a.1.checked_sub(b.1).ok_or(2)?),
                _ => Some(Value::Null),
            })
        }
        Expr::Concat(exprs) => {
            let mut text = String::new();
            let mut null = false;
            for expr in exprs {
                match eval(expr, root, names)? {
                    Some(Value::Text(piece)) => text.push_str(&piece),
                    None | Some(Value::Null) => null = true,
                    _ => return Err(1),
                }
            }
            Ok(Some(if null { Value::Null } else { Value::Text(text) }))
        }
        Expr::Cond(test, yes, no) => {
            let chosen = if counts(&eval(test, root, names)?) { yes } else { no };
            eval(chosen, root, names)
        }
        Expr::Greater(a, b) => {
            let (a, b) = (eval(a, root, names)?, eval(b, root, names)?);
            Ok(Some(Value::Flag(order(&a, &b) == Ordering::Greater)))
        }
        Expr::Equal(a, b) => {
            let (a, b) = (eval(a, root, names)?, eval(b, root, names)?);
            Ok(Some(Value::Flag(order(&a, &b) == Ordering::Equal)))
        }
        Expr::Size(list) => match eval(list, root, names)? {
            Some(Value::List(items)) => Ok(Some(Value::Int(items.len() as i32))),
            _ => Err(4),
        },
        Expr::At(list, place) => match (eval(list, root, names)?, eval(place, root, names)?) {
            (Some(Value::List(items)), Some(Value::Int(place))) => {
                let at = if place < 0 { items.len() as i64 + i64::from(place) } else { i64::from(place) };
                Ok(usize::try_from(at).ok().and_then(|at| items.into_iter().nth(at)))
            }
            _ => Err(4),
        },
        Expr::Filter(input, name, test) => match eval(input, root, names)? {
            Some(Value::List(items)) => {
                let mut kept = Vec::new();
                for item in items {
                    names.push((name, item));
                    let keep = counts(&eval(test, root, names)?);
                    let (_, item) = names.pop().unwrap();
                    if keep {
                        kept.push(item);
                    }
                }
                Ok(Some(Value::List(kept)))
            }
            None | Some(Value::Null) => Ok(Some(Value::Null)),
            _ => Err(4),
        },
        Expr::IfNull(exprs) => {
            let mut last = Some(Value::Null);
            for expr in exprs {
                last = eval(expr, root, names)?;
                if !matches!(last, None | Some(Value::Null)) {
                    break;
                }
            }
            Ok(last)
        }
    }
}

/// How many bytes the document's spelling has.
fn spelled_len(doc: &Doc) -> u64 {
    5 + doc.iter().map(|(name, value)| 2 + name.len() as u64 + value_len(value)).sum::<u64>()
}

fn value_len(value: &Value) -> u64 {
    match value {
        Value::Least | Value::Null | Value::Greatest => 0,
        Value::Flag(_) => 1,
        Value::Int(_) => 4,
        Value::Long(_) | Value::Date(_) | Value::Stamp(_) => 8,
        Value::Id(_) => 12,
        Value::Text(text) => 5 + text.len() as u64,
        Value::Bin(_, bytes) => 5 + bytes.len() as u64,
        Value::Doc(doc) => spelled_len(doc),
        Value::List(items) => {
            let places = (0..items.len()).map(|i| i.to_string().len() as u64);
            5 + items.iter().zip(places).map(|(item, place)| 2 + place + value_len(item)).sum::<u64>()
        }
    }
}

fn field(path: &str) -> Expr {
    Expr::Field(path.split('.').map(str::to_owned).collect())
}

fn boxed(path: &str) -> Box<Expr> {
    Box::new(field(path))
}

fn int(n: i32) -> Expr {
    Expr::Literal(Value::Int(n))
}

fn text(words: &str) -> Expr {
    Expr::Literal(Value::Text(words.to_owned()))
}

fn projection() -> Expr {
    let above = |e: Expr, n: i32| Expr::Greater(Box::new(e), Box::new(int(n)));
    let fields = [
        ("a", Expr::Add(vec![field("n"), int(1)])),
        ("b", Expr::Multiply(vec![field("n"), field("m")])),
        ("c", Expr::Subtract(boxed("n"), boxed("m"))),
        ("d", Expr::Concat(vec![field("s"), text("-"), field("t")])),
        ("e", Expr::Cond(Box::new(above(field("n"), 50)), boxed("s"), boxed("t"))),
        ("f", Expr::Size(boxed("xs"))),
        ("g", Expr::At(boxed("xs"), Box::new(int(-1)))),
        ("h", Expr::Filter(boxed("xs"), "x".to_owned(), Box::new(above(Expr::Var("x".to_owned()), 5)))),
        ("i", Expr::IfNull(vec![field("none"), text("none")])),
        ("j", Expr::Equal(boxed("d.k"), Box::new(int(3)))),
    ];
    Expr::Make(fields.map(|(name, part)| (name.to_owned(), part)).into())
}

fn main() {
    let file = std::env::args().nth(1).expect("usage: project FILE");
    let bytes = std::fs::read(file).expect("a file");
    let expr = projection();
    let (mut at, mut docs, mut made) = (0, 0u64, 0u64);
    while at < bytes.len() {
        let (doc, rest) = decode::doc(99, true, at, &bytes[at..]).expect("a document");
        at = bytes.len() - rest.len();
        docs += 1;
        match eval(&expr, &doc, &mut Vec::new()) {
            Ok(Some(Value::Doc(doc))) => made += spelled_len(&doc),
            _ => panic!("not made"),
        }
    }
    println!("{docs} documents, {made} bytes");
}
