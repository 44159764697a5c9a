//! refused-at COMMANDS SLICES LINES
//!
//! Records of one slice or of two from standard input, and a file with an answer on each: the numbers, from 1, of those
//! that were refused with 3 at an offset where one of the commands stands, one a line. COMMANDS are bytes in hexadecimal
//! with commas between them.

use independent::records::{refused_at, Records};

fn main() -> std::io::Result<()> {
    let arguments: Vec<String> = std::env::args().skip(1).collect();
    let [commands, slices, lines_path] = &arguments[..] else {
        panic!("refused-at COMMANDS SLICES LINES");
    };
    let command = |text: &str| u8::from_str_radix(text, 16).expect("COMMANDS are hexadecimal");
    let commands: Vec<u8> = commands.split(',').map(command).collect();
    let slices = slices.parse().expect("SLICES is a number");
    let lines = std::fs::read_to_string(lines_path)?;
    for number in refused_at(&commands, &mut Records::from_stdin()?, slices, &lines) {
        println!("{number}");
    }
    Ok(())
}
