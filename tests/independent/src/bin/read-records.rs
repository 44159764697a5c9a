//! read-records [before-F-5|before-F-6]
//!
//! Job records from standard input, the verdict on reading a line.

fn main() -> std::io::Result<()> {
    independent::records::print_jobs(independent::job::read_job_as)
}
