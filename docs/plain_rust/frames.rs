//! What `benches` (frames) does, in plain Rust: `rustc -O frames.rs && ./frames`.
//!
//! A frame is a map from names of their own to values, arrays and links, and a value is a number or a shared text. The map is std's, which
//! keeps no order, once with its own hasher and once with a fast one.

use std::collections::HashMap;
use std::hash::{BuildHasher, BuildHasherDefault, Hasher, RandomState};
use std::hint::black_box;
use std::rc::Rc;
use std::time::{Duration, Instant};

const FRAMES: i64 = 1_000_000;

/// A multiplication for each eight bytes.
#[derive(Default)]
struct Fast(u64);

impl Hasher for Fast {
    fn write(&mut self, bytes: &[u8]) {
        for part in bytes.chunks(8) {
            let mut word = [0; 8];
            word[..part.len()].copy_from_slice(part);
            self.write_u64(u64::from_le_bytes(word));
        }
    }

    fn write_u8(&mut self, byte: u8) {
        self.write_u64(u64::from(byte));
    }

    fn write_u64(&mut self, word: u64) {
        self.0 = (self.0.rotate_left(5) ^ word).wrapping_mul(0x517c_c1b7_2722_0a95);
    }

    fn finish(&self) -> u64 {
        self.0
    }
}

enum Value {
    Number(i64),
    #[allow(dead_code)]
    Text(Rc<String>),
}

impl Value {
    /// How many bytes its text has.
    fn text_len(&self) -> usize {
        match self {
            Value::Number(number) => {
                let sign = usize::from(*number < 0);
                sign + number.unsigned_abs().checked_ilog10().unwrap_or(0) as usize + 1
            }
            Value::Text(text) => text.len(),
        }
    }
}

#[allow(dead_code)]
enum Variable<S> {
    Scalar(Value),
    Array(HashMap<String, Value, S>),
    Link { level: usize, name: Rc<String>, key: Option<Rc<String>> },
}

struct Frame<S> {
    #[allow(dead_code)]
    words: Vec<Value>,
    variables: HashMap<String, Variable<S>, S>,
}

/// Whether a name may be that of an element, or of another level.
fn is_plain(name: &str) -> bool {
    !name.ends_with(')') && !name.as_bytes().windows(2).any(|pair| pair == b"::")
}

impl<S: BuildHasher + Default> Frame<S> {
    fn new() -> Self {
        Frame { words: Vec::new(), variables: HashMap::default() }
    }

    fn set(&mut self, name: &str, value: Value) -> Result<(), String> {
        if !is_plain(name) {
            return Err(format!("bad name \"{name}\""));
        }
        match self.variables.get_mut(name) {
            Some(Variable::Scalar(old)) => *old = value,
            Some(_) => return Err(format!("can't set \"{name}\": variable is array")),
            None => {
                self.variables.insert(name.to_string(), Variable::Scalar(value));
            }
        }
        Ok(())
    }

    fn get(&self, name: &str) -> Result<&Value, String> {
        if !is_plain(name) {
            return Err(format!("bad name \"{name}\""));
        }
        match self.variables.get(name) {
            Some(Variable::Scalar(value)) => Ok(value),
            Some(_) => Err(format!("can't read \"{name}\": variable is array")),
            None => Err(format!("can't read \"{name}\": no such variable")),
        }
    }
}

fn turns<S: BuildHasher + Default>() -> Result<(usize, Duration), String> {
    let names = ["n", "total", "index", "result"].map(|name| Rc::new(name.to_string()));
    let start = Instant::now();
    let mut frames: Vec<Frame<S>> = vec![Frame::new()];
    let mut bytes = 0;
    for number in 0..FRAMES {
        frames.push(Frame::new());
        let frame = frames.last_mut().ok_or("no frame")?;
        for name in &names {
            frame.set(black_box(name), Value::Number(number))?;
        }
        for name in &names {
            bytes += frame.get(black_box(name))?.text_len();
        }
        frames.pop();
    }
    Ok((bytes, start.elapsed()))
}

fn main() -> Result<(), String> {
    let (bytes, own) = turns::<RandomState>()?;
    let (same, fast) = turns::<BuildHasherDefault<Fast>>()?;
    println!("{bytes} and {same} bytes of values got");
    eprintln!("{FRAMES} frames, four names set and got in each: {own:?} with std's hasher, {fast:?} with a fast one");
    Ok(())
}
