//! make-jobs SEED COUNT OUT.bin OUT.verdicts [blank|frames|absent|kinds]
//!
//! Each job that reads is checked without its blank text besides, with each of its framed shows taken apart, and each of
//! its shows by the pages of its language. Accepted jobs are run, and every page that they show is judged.

use independent::blank::assert_only_moves;
use independent::check;
use independent::making::{Making, Much};
use independent::random_jobs::job;
use independent::reader::LONGEST;
use independent::records::line;
use independent::trials::Trials;

const USAGE: &str = "make-jobs SEED COUNT OUT.bin OUT.verdicts [blank|frames|absent|kinds]";

fn main() -> std::io::Result<()> {
    let mut making = Making::from_arguments(USAGE, &[Much::Blank, Much::Frames, Much::Absent, Much::Kinds]);
    let mut trials = Trials::default();
    for index in 0..making.count {
        let job = match index {
            100 => vec![making.much.filler(); LONGEST + 1],
            _ => job(&mut making.random, making.much),
        };
        let verdict = check(&job);
        assert_only_moves(&job, verdict, check);
        trials.of_job(&mut making, &job);
        making.add(&[&job], &line(verdict));
    }
    println!("{trials}");
    making.write()
}
