//! make-infer-large OUT.bin

use independent::large_scripts;
use independent::records::push;

fn main() -> std::io::Result<()> {
    let arguments: Vec<String> = std::env::args().skip(1).collect();
    let [records_path] = &arguments[..] else {
        panic!("make-infer-large OUT.bin");
    };
    let mut records = Vec::new();
    large_scripts::all().iter().for_each(|script| push(&mut records, script));
    std::fs::write(records_path, records)
}
