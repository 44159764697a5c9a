//! job-limits OUT.bin OUT.verdicts

use independent::apart;
use independent::blank::assert_only_moves;
use independent::landed::Landed;
use independent::random::Random;
use independent::records::{line, push};
use independent::{check, job_limits};

fn main() -> std::io::Result<()> {
    let arguments: Vec<String> = std::env::args().skip(1).collect();
    let [records_path, verdicts_path] = &arguments[..] else {
        panic!("job-limits OUT.bin OUT.verdicts");
    };
    let mut records = Vec::new();
    let mut verdicts = String::new();
    let mut random = Random::new(0);
    for job in job_limits::all() {
        push(&mut records, &job);
        let verdict = check(&job);
        assert_only_moves(&job, verdict, check);
        apart::assert_alike(&mut random, &job, Landed::NOW);
        verdicts.push_str(&line(verdict));
    }
    std::fs::write(records_path, records)?;
    std::fs::write(verdicts_path, verdicts)
}
