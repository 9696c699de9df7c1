//! Prints the image of the three keys ann, bob and cid, as hexadecimal.

use kaftanclay::hash::value::raw_bytes;
use kaftanclay::theta::ThetaSketchBuilder;

fn main() {
    let mut sketch = ThetaSketchBuilder::default().build().unwrap();
    for name in ["ann", "bob", "cid"] {
        // The bytes of the name alone, as the program `distinct` and other languages hash them.
        sketch.update(raw_bytes::from_str(name));
    }
    let image = sketch.compact(true).serialize();
    println!("{}", image.iter().map(|it| format!("{it:02x}")).collect::<String>());
}
