//! Records: slices one after another, each behind a 32-bit length, lowest byte first.

use crate::damage::commands;
use crate::infer::{infer_as, WORK};
use crate::job::Job;
use crate::judge::is_right;
use crate::landed::Landed;
use crate::reader::{Verdict, ACCEPTED, NO_ROOM};
use crate::run::{Choice, Run};
use std::fmt::Write as _;
use std::io::{self, BufWriter, Read, Write};

pub struct Records {
    bytes: Vec<u8>,
    at: usize,
}

impl Records {
    pub fn from_stdin() -> io::Result<Records> {
        let mut bytes = Vec::new();
        io::stdin().lock().read_to_end(&mut bytes)?;
        Ok(Records { bytes, at: 0 })
    }

    pub fn new(bytes: Vec<u8>) -> Records {
        Records { bytes, at: 0 }
    }

    /// The range of the next slice. Panics where the records end inside one.
    fn next_range(&mut self) -> Option<std::ops::Range<usize>> {
        if self.at == self.bytes.len() {
            return None;
        }
        let from = self.at + 4;
        let length = u32::from_le_bytes(self.bytes[self.at..from].try_into().unwrap()) as usize;
        assert!(length <= self.bytes.len() - from, "records end inside a slice");
        self.at = from + length;
        Some(from..self.at)
    }

    pub fn slice(&mut self) -> Option<&[u8]> {
        let range = self.next_range()?;
        Some(&self.bytes[range])
    }

    pub fn two_slices(&mut self) -> Option<(&[u8], &[u8])> {
        let first = self.next_range()?;
        let second = self.next_range().expect("records end before a second slice");
        Some((&self.bytes[first], &self.bytes[second]))
    }
}

pub fn push(records: &mut Vec<u8>, slice: &[u8]) {
    records.extend_from_slice(&(slice.len() as u32).to_le_bytes());
    records.extend_from_slice(slice);
}

pub fn line([n, a, b, c]: Verdict) -> String {
    format!("{n} {a} {b} {c}\n")
}

fn print(out: &mut impl Write, [n, a, b, c]: Verdict) -> io::Result<()> {
    writeln!(out, "{n} {a} {b} {c}")
}

/// Prints the verdict on each job of standard input.
pub fn print_jobs(verdict: fn(&[u8], Landed) -> Verdict) -> io::Result<()> {
    let landed = Landed::from_arguments();
    let mut records = Records::from_stdin()?;
    let mut out = BufWriter::new(io::stdout().lock());
    while let Some(job) = records.slice() {
        print(&mut out, verdict(job, landed))?;
    }
    out.flush()
}

/// Prints the verdict on each vocabulary and page of standard input.
pub fn print_pages(verdict: fn(&[u8], &[u8], Landed) -> Verdict) -> io::Result<()> {
    let landed = Landed::from_arguments();
    let mut records = Records::from_stdin()?;
    let mut out = BufWriter::new(io::stdout().lock());
    while let Some((vocabulary, page)) = records.two_slices() {
        print(&mut out, verdict(vocabulary, page, landed))?;
    }
    out.flush()
}

/// What a call of `infer` needs besides the job. The buffer grows as answers need.
pub struct Lent {
    landed: Landed,
    work: Vec<u64>,
    buffer: Vec<u8>,
}

impl Default for Lent {
    fn default() -> Lent {
        Lent::of(Landed::NOW)
    }
}

impl Lent {
    pub fn of(landed: Landed) -> Lent {
        Lent { landed, work: vec![0; WORK], buffer: Vec::new() }
    }

    /// The proposal, or the refusal.
    pub fn infer(&mut self, job: &[u8]) -> Result<&[u8], Verdict> {
        let mut answer = infer_as(job, self.landed, &mut self.work, &mut self.buffer, 0);
        if answer.verdict[0] == NO_ROOM {
            self.buffer.resize(answer.verdict[1] as usize, 0);
            answer = infer_as(job, self.landed, &mut self.work, &mut self.buffer, 0);
        }
        match answer.verdict {
            ACCEPTED => Ok(&self.buffer[..answer.written]),
            refusal => Err(refusal),
        }
    }

    /// `ok LENGTH HEX` or `N A B C`.
    pub fn line(&mut self, job: &[u8]) -> String {
        match self.infer(job) {
            Ok(proposal) => {
                let mut text = format!("ok {} ", proposal.len());
                proposal.iter().for_each(|byte| write!(text, "{byte:02X}").unwrap());
                text.push('\n');
                text
            }
            Err(refusal) => line(refusal),
        }
    }
}

/// Prints a line on each job, up to its `3F`, of standard input.
pub fn print_inferred() -> io::Result<()> {
    let mut records = Records::from_stdin()?;
    let mut out = BufWriter::new(io::stdout().lock());
    let mut lent = Lent::of(Landed::from_arguments());
    while let Some(job) = records.slice() {
        out.write_all(lent.line(job).as_bytes())?;
    }
    out.flush()
}

/// The numbers, from 1, of the records that `lines` refuses with 3 at an offset where one of these commands stands.
/// Lines older than the commands differ on no others.
pub fn refused_at(commands: &[u8], records: &mut Records, slices: usize, lines: &str) -> Vec<usize> {
    let mut refused = Vec::new();
    for (index, line) in lines.lines().enumerate() {
        let ranges: Vec<_> = (0..slices).map(|_| records.next_range().expect("fewer records than lines")).collect();
        let numbers: Vec<usize> = line.split(' ').filter_map(|word| word.parse().ok()).collect();
        let [3, offset, slice, 0] = numbers[..] else { continue };
        if records.bytes[ranges[slice].clone()].get(offset).is_some_and(|command| commands.contains(command)) {
            refused.push(index + 1);
        }
    }
    refused
}

/// Prints a line on each job and list of choices of standard input.
pub fn print_runs() -> io::Result<()> {
    let landed = Landed::from_arguments();
    let mut records = Records::from_stdin()?;
    let mut out = BufWriter::new(io::stdout().lock());
    while let Some((job, choices)) = records.two_slices() {
        out.write_all(run_line(job, choices, landed).as_bytes())?;
    }
    out.flush()
}

/// Most items of a value. Values that double at each step would fill the memory. The papers have no such limit: the
/// supplied lines tell `big` of a value of 286,673 items, and not of one of 152,924.
const BIG: usize = 200_000;

fn is_big(value: &[u8]) -> bool {
    // An item has a byte at least.
    value.len() > BIG && {
        let items = commands(value).iter().filter(|command| matches!(command[0], 0x21..=0x23 | 0x29)).count();
        items > BIG
    }
}

/// `shown COUNT` and for each page `R` if it is right, `W` if it is wrong; `big` where a value outgrows that; `N A B C`
/// for a job that doesn't read. A choice is two bytes: the next point, and the string.
fn run_line(bytes: &[u8], choices: &[u8], landed: Landed) -> String {
    let job = match Job::read_as(bytes, landed) {
        Ok(job) => job,
        Err(fault) => return line(fault.verdict(0)),
    };
    let mut run = Run::new(&job, bytes);
    for choice in choices.chunks_exact(2) {
        run.step(Choice { second: choice[0] == 1, string: choice[1] });
        if run.values.iter().any(|value| is_big(value)) {
            return "big\n".to_string();
        }
    }
    let judged = |page: &Vec<u8>| if is_right(&job.vocabulary, page) { 'R' } else { 'W' };
    let pages: String = run.pages.iter().map(judged).collect();
    format!("{}\n", format!("shown {} {pages}", run.pages.len()).trim_end())
}
