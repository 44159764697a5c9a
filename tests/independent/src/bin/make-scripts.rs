//! make-scripts SEED COUNT OUT.bin OUT.lines [blank|frames|absent]
//!
//! The proposal of each script that reads is worked out without its blank text besides, and with each of its framed
//! shows taken apart.

use independent::apart::Apart;
use independent::blank::without;
use independent::job::Job;
use independent::landed::Landed;
use independent::making::{Making, Much};
use independent::random::Random;
use independent::random_scripts::{of_length, script};
use independent::reader::LONGEST;
use independent::records::Lent;

const USAGE: &str = "make-scripts SEED COUNT OUT.bin OUT.lines [blank|frames|absent]";

fn main() -> std::io::Result<()> {
    let mut making = Making::from_arguments(USAGE, &[Much::Blank, Much::Frames, Much::Absent]);
    let mut lent = Lent::default();
    let mut older = Lent::of(Landed::F4);
    let mut apart = 0;
    for index in 0..making.count {
        // One as long as can be and one too long; more of them would fill the file.
        let script = match index {
            100 | 200 => of_length(LONGEST + index / 200, making.much.filler()),
            _ => script(&mut making.random, making.much),
        };
        let line = lent.line(&script);
        if line.starts_with("ok") {
            assert_eq!(lent.line(&without(&script)), line, "{script:02X?}");
            apart += take_apart(&mut making.trials, &mut lent, Landed::NOW, &script);
        }
        // The choices that follow hang on it.
        if making.much.landed() == Landed::F4 && older.infer(&script).is_ok() {
            take_apart(&mut making.random, &mut older, Landed::F4, &script);
        }
        making.add(&[&script], &line);
    }
    println!("{apart} framed shows taken apart give the same");
    making.write()
}

/// Panics where the proposal, a show or a page differs once a framed show is taken apart. Tells how many there were.
fn take_apart(random: &mut Random, lent: &mut Lent, landed: Landed, script: &[u8]) -> usize {
    let bytes = [script, lent.infer(script).unwrap()].concat();
    // Together they may be too long.
    let Ok(job) = Job::read_as(&bytes, landed) else { return 0 };
    let mut count = 0;
    for point in 0..job.program.points.len() {
        let Some(apart) = Apart::new(&bytes, &job, point) else { continue };
        apart.assert_alike(random, &bytes, &job);
        let (start, proposal) = apart.bytes.split_at(apart.job.program_end);
        assert_eq!(lent.infer(start), Ok(proposal), "point {point} of {script:02X?}");
        count += 1;
    }
    count
}
