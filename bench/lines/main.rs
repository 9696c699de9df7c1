//! Counts, or sketches, the distinct lines of standard input over the original crate, with the reads and cuts of
//! `distinct`: blocks of 128 KiB, a line over two blocks kept in a buffer, each line hashed as its bytes alone.
use original::theta::{ThetaSketch, ThetaSketchBuilder};
use std::hash::{Hash, Hasher};
use std::io::{Read, Write};

struct Line<'a>(&'a [u8]);

impl Hash for Line<'_> {
    fn hash<H: Hasher>(&self, state: &mut H) {
        state.write(self.0);
    }
}

fn take_in(sketch: &mut ThetaSketch, begun: &mut Vec<u8>, block: &[u8]) {
    let mut rest = block;
    while let Some(end) = rest.iter().position(|byte| *byte == b'\n') {
        if begun.is_empty() {
            sketch.update(Line(&rest[..end]));
        } else {
            begun.extend_from_slice(&rest[..end]);
            sketch.update(Line(begun));
            begun.clear();
        }
        rest = &rest[end + 1..];
    }
    begun.extend_from_slice(rest);
}

fn main() {
    let words: Vec<String> = std::env::args().collect();
    let lg_k = words.get(2).map_or(12, |word| word.parse().unwrap());
    let mut sketch = ThetaSketchBuilder::default().lg_k(lg_k).build().unwrap();
    let mut begun = Vec::new();
    let mut block = vec![0u8; 1 << 17];
    let mut input = std::io::stdin();
    loop {
        let count = input.read(&mut block).unwrap();
        if count == 0 {
            break;
        }
        take_in(&mut sketch, &mut begun, &block[..count]);
    }
    if !begun.is_empty() {
        sketch.update(Line(&begun));
    }
    sketch.trim();
    if words[1] == "count" {
        println!("{:.0}", sketch.estimate());
    } else {
        std::io::stdout()
            .write_all(&sketch.compact(true).serialize())
            .unwrap();
    }
}
