//! judge-records [before-F-5|before-F-6]
//!
//! Page records from standard input, a verdict a line.

fn main() -> std::io::Result<()> {
    independent::records::print_pages(independent::judge::judge_as)
}
