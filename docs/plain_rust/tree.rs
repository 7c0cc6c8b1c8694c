//! What `benches` (tree) does, in plain Rust: `rustc -O tree.rs && ./tree`.
//!
//! The interpreters stand in a `Vec`, each with its parent's key and its children's keys by their names, in std's map with a fast hasher. A
//! step is counted by two climbs: one that looks for a limit that would be passed, and one that raises the counts.

use std::collections::HashMap;
use std::hash::{BuildHasherDefault, Hasher};
use std::hint::black_box;
use std::rc::Rc;
use std::time::Instant;

const TIMES: u32 = 10_000_000;

/// A multiplication for each eight bytes.
#[derive(Default)]
struct Fast(u64);

impl Hasher for Fast {
    fn write(&mut self, bytes: &[u8]) {
        for part in bytes.chunks(8) {
            let mut word = [0; 8];
            word[..part.len()].copy_from_slice(part);
            self.write_u64(u64::from_le_bytes(word));
        }
    }

    fn write_u8(&mut self, byte: u8) {
        self.write_u64(u64::from(byte));
    }

    fn write_u64(&mut self, word: u64) {
        self.0 = (self.0.rotate_left(5) ^ word).wrapping_mul(0x517c_c1b7_2722_0a95);
    }

    fn finish(&self) -> u64 {
        self.0
    }
}

struct Node {
    parent: Option<usize>,
    children: HashMap<Rc<String>, usize, BuildHasherDefault<Fast>>,
    count: u64,
    limit: Option<u64>,
}

struct Tree {
    nodes: Vec<Node>,
}

impl Tree {
    fn add(&mut self, parent: Option<usize>, name: Rc<String>) -> usize {
        let key = self.nodes.len();
        self.nodes.push(Node {
            parent,
            children: HashMap::default(),
            count: 0,
            limit: None,
        });
        if let Some(parent) = parent {
            self.nodes[parent].children.insert(name, key);
        }
        key
    }

    fn find(&self, path: &[Rc<String>]) -> Option<usize> {
        let mut key = 0;
        for name in path {
            key = *self.nodes.get(key)?.children.get(name)?;
        }
        Some(key)
    }

    #[inline(never)]
    fn charge_at(&mut self, key: usize) -> Result<(), usize> {
        let mut level = 0;
        let mut at = key;
        loop {
            let node = &self.nodes[at];
            if node.count >= node.limit.unwrap_or(i64::MAX as u64) {
                return Err(level);
            }
            let Some(parent) = node.parent else {
                break;
            };
            at = parent;
            level += 1;
        }
        let mut next = Some(key);
        while let Some(at) = next {
            let node = &mut self.nodes[at];
            node.count += 1;
            next = node.parent;
        }
        Ok(())
    }
}

fn grown() -> (Tree, Vec<Rc<String>>, usize) {
    let mut tree = Tree { nodes: Vec::new() };
    let mut key = tree.add(None, Rc::new(String::new()));
    let mut path = Vec::new();
    for name in ["a", "b", "c"] {
        let name = Rc::new(name.to_string());
        key = tree.add(Some(key), name.clone());
        path.push(name);
    }
    (tree, path, key)
}

fn main() {
    let start = Instant::now();
    let (mut tree, _, key) = grown();
    let mut allowed = 0u32;
    for _ in 0..TIMES {
        allowed += u32::from(black_box(&mut tree).charge_at(black_box(key)).is_ok());
    }
    println!("{allowed} steps at four levels by place: {:?}", start.elapsed());
    let start = Instant::now();
    let (mut tree, path, _) = grown();
    let mut allowed = 0u32;
    for _ in 0..TIMES {
        let tree = black_box(&mut tree);
        if let Some(key) = tree.find(black_box(&path)) {
            allowed += u32::from(tree.charge_at(key).is_ok());
        }
    }
    println!("{allowed} steps at four levels by path: {:?}", start.elapsed());
}
