//! run-records [before-F-5|before-F-6]
//!
//! Records of a job and a list of choices from standard input, the pages that the run shows a line.

fn main() -> std::io::Result<()> {
    independent::records::print_runs()
}
