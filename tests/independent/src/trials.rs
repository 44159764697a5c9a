//! What is tried out with jobs that are made: framed shows taken apart, shows against the pages of their languages, and
//! runs of accepted jobs. Another answer is a panic.

use crate::apart;
use crate::check::{check_as, shows};
use crate::exhaustive;
use crate::job::Job;
use crate::judge::is_right;
use crate::landed::Landed;
use crate::making::Making;
use crate::random::Random;
use crate::reader::ACCEPTED;
use crate::run::{Choice, Run};
use std::fmt;

/// How many of each there were.
#[derive(Default, Debug)]
pub struct Trials {
    pub shown: usize,
    pub apart: usize,
    /// Shows, those of which all pages were looked at, and these pages.
    pub shows: usize,
    pub complete: usize,
    pub pages: usize,
}

impl Trials {
    /// Records chosen by older verdicts are tried out by those too, since the choices that follow hang on it.
    pub fn of_job(&mut self, making: &mut Making, job: &[u8]) {
        if making.much.landed() == Landed::F4 {
            Trials::default().of_answers(&mut making.random, job, Landed::F4);
        }
        self.of_answers(&mut making.trials, job, Landed::NOW);
        self.of_languages(job);
    }

    fn of_answers(&mut self, random: &mut Random, bytes: &[u8], landed: Landed) {
        self.apart += apart::assert_alike(random, bytes, landed);
        if check_as(bytes, landed) == ACCEPTED {
            self.shown += (0..8).map(|_| run(random, bytes, landed)).sum::<usize>();
        }
    }

    /// Whatever covers or not: a show's verdict hangs on what is held there alone.
    pub fn of_languages(&mut self, bytes: &[u8]) {
        let Ok(job) = Job::read(bytes) else { return };
        for (point, verdict) in shows(&job) {
            let found = exhaustive::found(&job, bytes, point).unwrap();
            assert!(found.allows(verdict), "{verdict:?}, but {:?} by the pages of {bytes:02X?}", found.verdict);
            self.shows += 1;
            self.complete += found.complete as usize;
            self.pages += found.pages;
        }
    }
}

impl fmt::Display for Trials {
    fn fmt(&self, out: &mut fmt::Formatter) -> fmt::Result {
        writeln!(out, "{} pages shown by accepted jobs are right, none wrong", self.shown)?;
        writeln!(out, "{} framed shows taken apart give the same", self.apart)?;
        write!(out, "{} shows judged as their {} pages, {} of them as all pages", self.shows, self.pages, self.complete)
    }
}

/// Runs over choices at random; panics at a page that is not right. Tells how many pages were shown.
fn run(random: &mut Random, bytes: &[u8], landed: Landed) -> usize {
    let job = Job::read_as(bytes, landed).unwrap_or_else(|_| unreachable!());
    let mut run = Run::new(&job, bytes);
    for _ in 0..60 {
        // Values that double at each step would fill the memory.
        if run.values.iter().any(|value| value.len() > 5_000) {
            break;
        }
        run.step(Choice::random(random));
    }
    for page in &run.pages {
        assert!(is_right(&job.vocabulary, page), "page {page:02X?} of accepted job {bytes:02X?}");
    }
    run.pages.len()
}
