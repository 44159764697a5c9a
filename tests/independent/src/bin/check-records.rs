//! check-records [before-F-5|before-F-6]
//!
//! Job records from standard input, a verdict a line.

fn main() -> std::io::Result<()> {
    independent::records::print_jobs(independent::check::check_as)
}
