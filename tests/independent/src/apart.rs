//! Request F-3 in other words: a framed show taken apart into a template load, a plug and a show, all of a variable that
//! the program leaves free. The same is then held of every other variable, every show gets the same verdict, and runs
//! show the same pages.

use crate::check::shows;
use crate::damage::commands;
use crate::job::Job;
use crate::landed::Landed;
use crate::least::{least, write};
use crate::program::{Statement, VARIABLES};
use crate::proposal::Entries;
use crate::random::Random;
use crate::reader::*;
use crate::run::{Choice, Run};

/// A job with the framed show of one point taken apart. The two points more stand after that one.
pub struct Apart {
    pub bytes: Vec<u8>,
    pub job: Job,
    point: usize,
    variable: u8,
}

impl Apart {
    /// Holds what the job, read from `bytes`, holds, and the least of the variable besides. Nothing where the point has
    /// no framed show, no variable or too few points are free, or the bytes get too many.
    pub fn new(bytes: &[u8], job: &Job, point: usize) -> Option<Apart> {
        let Statement::Framed(..) = job.program.points[point].statement else { return None };
        let variable = (0..VARIABLES).find(|variable| job.program.named >> variable & 1 == 0)?;
        let start = [&bytes[..job.program.points[0].at], &program(bytes, job, point, variable)].concat();
        let held_nothing = Job::read_as(&[&start[..], &[0x4F]].concat(), job.landed).ok()?;
        let entries = least(&held_nothing.program, &held_nothing.templates, entries(job, point, variable));
        let bytes = [start, write(&entries, held_nothing.program.points.len())].concat();
        let job = Job::read_as(&bytes, job.landed).ok()?;
        Some(Apart { bytes, job, point, variable })
    }

    /// Panics where the same does not hold of the job and this one. `bytes` are the job's.
    pub fn assert_alike(&self, random: &mut Random, bytes: &[u8], job: &Job) {
        self.assert_held(bytes, job);
        let moved = |point: usize| if point < self.point { point } else { point + 2 };
        let verdict = |[n, a, b, c]: Verdict| match n {
            0 => ACCEPTED,
            _ => [n, moved(a as usize) as u32, b, c],
        };
        let expected: Vec<_> = shows(job).map(|(point, found)| (moved(point), verdict(found))).collect();
        assert_eq!(shows(&self.job).collect::<Vec<_>>(), expected, "point {} of {bytes:02X?}", self.point);
        self.assert_same_pages(random, bytes, job);
    }

    fn assert_held(&self, bytes: &[u8], job: &Job) {
        let expected = entries(job, self.point, self.variable);
        for point in 0..self.job.program.points.len() {
            for variable in 0..VARIABLES {
                let same = variable == self.variable
                    || self.job.entries.summary(point, variable) == expected.summary(point, variable);
                let strings = self.job.entries.strings(point, variable) == expected.strings(point, variable);
                assert!(same && strings, "variable {variable}, point {} of {bytes:02X?}", self.point);
            }
        }
    }

    /// Over one list of choices; nothing but the pages changes at the framed show.
    fn assert_same_pages(&self, random: &mut Random, bytes: &[u8], job: &Job) {
        let mut run = Run::new(job, bytes);
        let mut apart = Run::new(&self.job, &self.bytes);
        for _ in 0..40 {
            // Values that double at each step would fill the memory.
            if run.values.iter().any(|value| value.len() > 5_000) {
                break;
            }
            let choice = Choice::random(random);
            let steps = if run.point == self.point { 3 } else { 1 };
            run.step(choice);
            (0..steps).for_each(|_| apart.step(choice));
            apart.values[self.variable as usize].clone_from(&run.values[self.variable as usize]);
            assert_eq!((&apart.values, apart.strings), (&run.values, run.strings), "{bytes:02X?}");
        }
        assert_eq!(apart.pages, run.pages, "point {} of {bytes:02X?}", self.point);
    }
}

/// The statements with their next points moved, and three in place of the framed show.
fn program(bytes: &[u8], job: &Job, point: usize, variable: u8) -> Vec<u8> {
    let moved = |next: u8| if next as usize > point { next + 2 } else { next };
    let mut program = Vec::new();
    for (index, command) in commands(&bytes[job.program.points[0].at..job.program_end]).into_iter().enumerate() {
        match *command {
            [0x39, x, template, gap, p, q] if index == point => {
                let [second, third] = [point as u8 + 1, point as u8 + 2];
                program.extend([0x31, variable, template, second, second]);
                program.extend([0x35, variable, variable, gap, x, third, third]);
                program.extend([0x37, variable, moved(p), moved(q)]);
            }
            [ref statement @ .., p, q] => {
                program.extend(statement);
                program.extend([moved(p), moved(q)]);
            }
            _ => program.extend(command),
        }
    }
    program
}

/// What the job holds, at the two points more as at the framed show, and nothing of the variable.
fn entries(job: &Job, point: usize, variable: u8) -> Entries {
    let count = job.program.points.len() + 2;
    let mut entries = Entries::empty(count);
    for now in 0..count {
        let before = if now > point + 2 { now - 2 } else { now.min(point) };
        for other in 0..VARIABLES {
            if other != variable {
                *entries.summary_mut(now, other) = job.entries.summary(before, other).clone();
            }
            *entries.strings_mut(now, other) = job.entries.strings(before, other);
        }
    }
    entries
}

/// Takes each framed show of a job apart by itself, after what the job holds has grown until it covers; panics where
/// something differs. Tells how many there were. Nothing is done where the job doesn't read.
pub fn assert_alike(random: &mut Random, bytes: &[u8], landed: Landed) -> usize {
    let Ok(mut job) = Job::read_as(bytes, landed) else { return 0 };
    job.entries = least(&job.program, &job.templates, job.entries);
    let mut count = 0;
    for point in 0..job.program.points.len() {
        if let Some(apart) = Apart::new(bytes, &job, point) {
            apart.assert_alike(random, bytes, &job);
            count += 1;
        }
    }
    count
}
