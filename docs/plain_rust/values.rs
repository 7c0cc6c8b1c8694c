//! The loops of `benches` (values) in plain Rust: values behind `Rc`, changed in place by `Rc::make_mut`. Nothing is measured of how long
//! a text would be, and nothing is refused.
//!
//! `rustc -O -o /tmp/values values.rs && /tmp/values`
use std::collections::HashMap;
use std::hint::black_box;
use std::rc::Rc;
use std::time::Instant;

const INCREMENTS: u32 = 10_000_000;
const CHANGES: u32 = 1_000_000;
const PARTS: usize = 1000;

#[derive(Clone)]
enum Value {
    Number(i64),
    Text(Rc<String>),
    List(Rc<Vec<Value>>),
    Dict(Rc<Dict>),
}

#[derive(Clone, Default)]
struct Dict {
    places: HashMap<Rc<String>, usize>,
    keys: Vec<Rc<String>>,
    values: Vec<Value>,
}

impl Value {
    fn text(text: &str) -> Value {
        Value::Text(Rc::new(text.to_string()))
    }

    fn key(&self) -> Rc<String> {
        match self {
            Value::Number(n) => Rc::new(n.to_string()),
            Value::Text(text) => Rc::clone(text),
            Value::List(_) | Value::Dict(_) => Rc::new(String::new()),
        }
    }

    fn append(&mut self, more: &str) {
        if let Value::Text(text) = self {
            Rc::make_mut(text).push_str(more);
        }
    }

    fn push(&mut self, value: Value) {
        if let Value::List(list) = self {
            Rc::make_mut(list).push(value);
        }
    }

    fn set_at(&mut self, index: usize, value: Value) {
        if let Value::List(list) = self {
            if let Some(place) = Rc::make_mut(list).get_mut(index) {
                *place = value;
            }
        }
    }

    fn set_key(&mut self, key: &Value, value: Value) {
        let key = key.key();
        if let Value::Dict(dict) = self {
            let dict = Rc::make_mut(dict);
            match dict.places.get(&key) {
                Some(place) => dict.values[*place] = value,
                None => {
                    dict.places.insert(Rc::clone(&key), dict.keys.len());
                    dict.keys.push(key);
                    dict.values.push(value);
                }
            }
        }
    }

    fn remove_key(&mut self, key: &Value) {
        let key = key.key();
        if let Value::Dict(dict) = self {
            let Dict { places, keys, values } = Rc::make_mut(dict);
            if let Some(place) = places.remove(&key) {
                keys.remove(place);
                values.remove(place);
                for later in &keys[place..] {
                    if let Some(at) = places.get_mut(later) {
                        *at -= 1;
                    }
                }
            }
        }
    }

    fn value_of(&mut self, key: &Value) -> Option<&mut Value> {
        let key = key.key();
        if let Value::Dict(dict) = self {
            let dict = Rc::make_mut(dict);
            let place = *dict.places.get(&key)?;
            return dict.values.get_mut(place);
        }
        None
    }

    fn len(&self) -> usize {
        match self {
            Value::Number(_) => 1,
            Value::Text(text) => text.len(),
            Value::List(list) => list.len(),
            Value::Dict(dict) => dict.keys.len(),
        }
    }
}

fn increments(times: u32) -> i64 {
    let mut value = Value::Number(0);
    for _ in 0..times {
        if let Value::Number(n) = black_box(&value) {
            value = Value::Number(n.wrapping_add(1));
        }
    }
    match value {
        Value::Number(n) => n,
        _ => 0,
    }
}

fn appends(times: u32) -> usize {
    let mut value = Value::text("");
    for _ in 0..times {
        black_box(&mut value).append("abcd");
    }
    value.len()
}

fn pushes(times: u32) -> usize {
    let mut value = Value::List(Rc::new(Vec::new()));
    for i in 0..times {
        black_box(&mut value).push(Value::Number(i64::from(i)));
    }
    value.len()
}

fn sets(times: u32) -> usize {
    let mut value = Value::List(Rc::new(Vec::new()));
    for _ in 0..PARTS {
        value.push(Value::text(""));
    }
    for i in 0..times {
        black_box(&mut value).set_at(i as usize % PARTS, Value::Number(i64::from(i)));
    }
    value.len()
}

fn inner_sets(parts: usize, times: u32) -> usize {
    let inner = Value::List(Rc::new((0..parts).map(|_| Value::Number(0)).collect()));
    let mut value = Value::List(Rc::new(vec![inner, Value::text("")]));
    for i in 0..times {
        if let Value::List(list) = black_box(&mut value) {
            Rc::make_mut(list)[0].set_at(i as usize % 1000, Value::Number(i64::from(i)));
        }
    }
    value.len()
}

/// A dict of one key, whose value is this one.
fn one_key(inner: Value) -> Value {
    let mut value = Value::Dict(Rc::new(Dict::default()));
    value.set_key(&Value::Number(0), inner);
    value
}

/// A dict of a dict of so many numbers as keys, whose values are 0.
fn inner_dict(parts: usize) -> Value {
    let mut inner = Value::Dict(Rc::new(Dict::default()));
    for i in 0..parts {
        inner.set_key(&Value::Number(i as i64), Value::Number(0));
    }
    one_key(inner)
}

fn inner_entries(parts: usize, times: u32) -> usize {
    let mut value = inner_dict(parts);
    for i in 0..times {
        if let Some(inner) = black_box(&mut value).value_of(&Value::Number(0)) {
            inner.set_key(&Value::Number(i64::from(i % 1000)), Value::Number(i64::from(i)));
        }
    }
    value.len()
}

fn inner_removals(parts: usize, times: u32) -> usize {
    let mut value = inner_dict(parts);
    for _ in 0..times {
        let key = Value::Number(parts as i64);
        if let Some(inner) = black_box(&mut value).value_of(&Value::Number(0)) {
            inner.set_key(&key, Value::Number(0));
        }
        if let Some(inner) = black_box(&mut value).value_of(&Value::Number(0)) {
            inner.remove_key(&key);
        }
    }
    value.len()
}

fn inner_appends(times: u32) -> usize {
    let key = Value::Number(0);
    let mut value = one_key(Value::text(""));
    for _ in 0..times {
        let more = "abcd".to_string();
        if let Some(inner) = black_box(&mut value).value_of(&key) {
            inner.append(&more);
        }
    }
    value.value_of(&key).map_or(0, |inner| inner.len())
}

fn inner_pushes(times: u32) -> usize {
    let key = Value::Number(0);
    let mut value = one_key(Value::List(Rc::new(vec![Value::Number(0), Value::Number(0)])));
    for i in 0..times {
        if let Some(inner) = black_box(&mut value).value_of(&key) {
            inner.push(Value::Number(i64::from(i)));
        }
    }
    value.value_of(&key).map_or(0, |inner| inner.len())
}

fn entries(keys: &[Value], times: u32) -> usize {
    let mut value = Value::Dict(Rc::new(Dict::default()));
    for i in 0..times {
        black_box(&mut value).set_key(&keys[i as usize % PARTS], Value::Number(i64::from(i)));
    }
    value.len()
}

fn keys_added(times: u32) -> usize {
    let mut value = Value::Dict(Rc::new(Dict::default()));
    for i in 0..times {
        black_box(&mut value).set_key(&Value::Number(i64::from(i)), Value::text(""));
    }
    value.len()
}

fn reads(literal: &Value, times: u32) -> usize {
    let mut count = 0usize;
    for _ in 0..times {
        if let Value::List(list) = black_box(literal) {
            let list = Rc::clone(list);
            count = count.wrapping_add(list.len());
        }
    }
    count
}

fn timed<T: std::fmt::Display>(name: &str, work: impl FnOnce() -> T) {
    let start = Instant::now();
    let came = work();
    let time = start.elapsed();
    println!("{name}: {came}");
    eprintln!("{name}: {time:?}");
}

fn main() {
    timed("10,000,000 increments", || increments(INCREMENTS));
    timed("100,000 appends to a text", || appends(CHANGES / 10));
    timed("1,000,000 appends to a text", || appends(CHANGES));
    timed("100,000 appends to a list", || pushes(CHANGES / 10));
    timed("1,000,000 appends to a list", || pushes(CHANGES));
    timed("100,000 changes of an element", || sets(CHANGES / 10));
    timed("1,000,000 changes of an element", || sets(CHANGES));
    timed("10,000 changes in an inner list of 1,000", || inner_sets(PARTS, CHANGES / 100));
    timed("10,000 changes in an inner list of 10,000", || inner_sets(10 * PARTS, CHANGES / 100));
    timed("10,000 changes in an inner dict of 1,000", || inner_entries(PARTS, CHANGES / 100));
    timed("10,000 changes in an inner dict of 10,000", || inner_entries(10 * PARTS, CHANGES / 100));
    timed("10,000 removals from an inner dict of 1,000", || inner_removals(PARTS, CHANGES / 100));
    timed("10,000 removals from an inner dict of 10,000", || inner_removals(10 * PARTS, CHANGES / 100));
    timed("100,000 appends to the text of a key", || inner_appends(CHANGES / 10));
    timed("1,000,000 appends to the text of a key", || inner_appends(CHANGES));
    timed("100,000 appends to the list of a key", || inner_pushes(CHANGES / 10));
    timed("1,000,000 appends to the list of a key", || inner_pushes(CHANGES));
    timed("100,000 new keys", || keys_added(CHANGES / 10));
    timed("1,000,000 new keys", || keys_added(CHANGES));
    let keys: Vec<Value> = (0..PARTS).map(|i| Value::text(&format!("key{i}"))).collect();
    timed("100,000 changes of an entry", || entries(&keys, CHANGES / 10));
    timed("1,000,000 changes of an entry", || entries(&keys, CHANGES));
    let words = (0..PARTS).map(|i| Value::text(&format!("word {i}"))).collect();
    let literal = Value::List(Rc::new(words));
    timed("1,000,000 readings of a literal's list", || reads(&literal, CHANGES));
}
