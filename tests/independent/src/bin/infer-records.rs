//! infer-records [before-F-5|before-F-6]
//!
//! Job records, each up to its `3F`, from standard input; the smallest covering proposal or the refusal a line.

fn main() -> std::io::Result<()> {
    independent::records::print_inferred()
}
