//! Pages, jobs and scripts at the limits need little stack.

use independent::records::Lent;
use independent::{check, job_limits, large_scripts, page_limits};
use std::hint::black_box;

#[test]
fn a_mebibyte_is_enough() {
    let limits = || {
        page_limits::all().iter().for_each(|record| _ = black_box(record.verdict()));
        job_limits::all().iter().for_each(|job| _ = black_box(check(job)));
        large_scripts::all().iter().for_each(|script| _ = black_box(Lent::default().infer(script)));
    };
    std::thread::Builder::new().stack_size(1 << 20).spawn(limits).unwrap().join().unwrap();
}
