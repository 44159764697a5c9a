//! The calls of the static library beside the independent program, on the same inputs in one run.

mod jobs;
mod pages;
mod slices;

use independent::infer::WORK;
use std::cell::RefCell;
use std::fmt::Debug;
use std::hint::black_box;
use std::time::{Duration, Instant};

extern "C" {
    fn page_check_job(job: *const u8, job_len: usize, verdict: *mut u64);
    fn page_check_judge(vocabulary: *const u8, vocabulary_len: usize, page: *const u8, page_len: usize, verdict: *mut u64);
    fn page_check_infer(
        job: *const u8,
        job_len: usize,
        work: *mut u64,
        work_len: usize,
        buffer: *mut u8,
        buffer_len: usize,
        place: usize,
        answer: *mut u64,
    );
}

type Verdict = [u32; 4];

/// A verdict and the number of bytes written.
type Answer = [u32; 5];

fn check(job: &Vec<u8>) -> Verdict {
    let mut verdict = [0u64; 4];
    unsafe { page_check_job(job.as_ptr(), job.len(), verdict.as_mut_ptr()) };
    verdict.map(|n| n as u32)
}

fn independent_check(job: &Vec<u8>) -> Verdict {
    independent::check(job)
}

fn judge((vocabulary, page): &pages::Pair) -> Verdict {
    let mut verdict = [0u64; 4];
    unsafe {
        page_check_judge(vocabulary.as_ptr(), vocabulary.len(), page.as_ptr(), page.len(), verdict.as_mut_ptr());
    }
    verdict.map(|n| n as u32)
}

fn independent_judge((vocabulary, page): &pages::Pair) -> Verdict {
    independent::judge(vocabulary, page)
}

/// What working out a proposal is lent: a work area, and a buffer that the largest proposal fits.
struct Lent {
    work: Vec<u64>,
    buffer: Vec<u8>,
}

thread_local! {
    static LENT: RefCell<Lent> = RefCell::new(Lent { work: vec![0; WORK], buffer: vec![0; 4 << 20] });
}

fn infer(script: &Vec<u8>) -> Answer {
    LENT.with_borrow_mut(|Lent { work, buffer }| {
        let mut answer = [0u64; 5];
        let answered = answer.as_mut_ptr();
        unsafe {
            page_check_infer(script.as_ptr(), script.len(), work.as_mut_ptr(), WORK, buffer.as_mut_ptr(), buffer.len(), 0, answered);
        }
        answer.map(|n| n as u32)
    })
}

fn independent_infer(script: &Vec<u8>) -> Answer {
    LENT.with_borrow_mut(|Lent { work, buffer }| {
        let answer = independent::infer::infer(script, work, buffer, 0);
        let [n, a, b, c] = answer.verdict;
        [n, a, b, c, answer.written as u32]
    })
}

/// The bytes that a call wrote last.
fn written(answer: Answer) -> Vec<u8> {
    LENT.with_borrow(|lent| lent.buffer[..answer[4] as usize].to_vec())
}

/// The proved call and the independent one.
struct Calls<T, A> {
    proved: fn(&T) -> A,
    independent: fn(&T) -> A,
}

const CHECKS: Calls<Vec<u8>, Verdict> = Calls { proved: check, independent: independent_check };
const JUDGES: Calls<pages::Pair, Verdict> = Calls { proved: judge, independent: independent_judge };
const INFERS: Calls<Vec<u8>, Answer> = Calls { proved: infer, independent: independent_infer };

/// One pass over all of an input.
fn pass<T, A>(call: fn(&T) -> A, input: &[T]) -> f64 {
    let start = Instant::now();
    for one in input {
        black_box(call(black_box(one)));
    }
    start.elapsed().as_nanos() as f64
}

/// The shortest pass of each: passes alternate, for a second in all.
fn shortest<T, A>(calls: &Calls<T, A>, input: &[T]) -> (f64, f64) {
    let mut best = (f64::MAX, f64::MAX);
    let start = Instant::now();
    while start.elapsed() < Duration::from_millis(1000) {
        best.0 = best.0.min(pass(calls.proved, input));
        best.1 = best.1.min(pass(calls.independent, input));
    }
    best
}

fn compare<T, A: Debug + PartialEq>(calls: &Calls<T, A>, name: &str, input: &[T]) -> f64 {
    for one in input {
        assert_eq!((calls.proved)(one), (calls.independent)(one), "{name}");
    }
    let (ours, theirs) = shortest(calls, input);
    println!("{name:<36} {:>12.1} us {:>12.1} us  ratio {:.2}", ours / 1000.0, theirs / 1000.0, ours / theirs);
    ours
}

fn growing<T>(calls: &Calls<T, Verdict>, name: &str, make: fn(usize) -> T) {
    let quarter = compare(calls, &format!("{name}, quarter"), &[make(1)]);
    let half = compare(calls, &format!("{name}, half"), &[make(2)]);
    let whole = compare(calls, &format!("{name}, whole"), &[make(4)]);
    println!("{:<36} growth {:.2} and {:.2}", "", half / quarter, whole / half);
}

/// Proposals are compared byte for byte before the calls are timed.
fn compare_scripts(name: &str, scripts: &[Vec<u8>]) {
    for script in scripts {
        assert_eq!(written(infer(script)), written(independent_infer(script)), "{name}");
    }
    compare(&INFERS, name, scripts);
}

fn main() {
    let mut paths = std::env::args().skip(1);
    let mut file = || std::fs::read(paths.next().expect("files of page records, of job records and of script records")).expect("records");
    let pages = pages::records(&file());
    let jobs = jobs::records(&file());
    let scripts = jobs::records(&file());
    println!("{:<36} {:>15} {:>15}", "judging a page", "proved", "independent");
    compare(&JUDGES, "vectors, all", &pages);
    for (name, make) in pages::GROWING {
        growing(&JUDGES, name, make);
    }
    println!("{:<36} {:>15} {:>15}", "checking a job", "proved", "independent");
    compare(&CHECKS, "J1", &[jobs::J1.to_vec()]);
    compare(&CHECKS, "vectors, all", &jobs);
    for (i, job) in jobs::large(&jobs).enumerate() {
        compare(&CHECKS, &format!("large vector {}", i + 1), &[job.clone()]);
    }
    for (name, make) in jobs::GROWING {
        growing(&CHECKS, name, make);
    }
    println!("{:<36} {:>15} {:>15}", "working out a proposal", "proved", "independent");
    let [j1, largest, rounds] = independent::large_scripts::all();
    compare_scripts("J1's script", &[j1]);
    compare_scripts("vectors, all", &scripts);
    compare_scripts("largest proposal", &[largest]);
    compare_scripts("31 templates, 32 points in loops", &[rounds]);
}
