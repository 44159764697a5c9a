//! Runs: the statements of a job over a list of choices, and the pages shown. Values are items as in a template's
//! bytes, with `28` for a string outside 0-63.

use crate::damage::operands;
use crate::job::Job;
use crate::landed::Landed;
use crate::program::Statement;
use crate::random::Random;

/// The next point, and the string for `34`; 64 and above stand for strings outside 0-63.
#[derive(Clone, Copy)]
pub struct Choice {
    pub second: bool,
    pub string: u8,
}

impl Choice {
    pub fn random(random: &mut Random) -> Choice {
        let string = if random.percent(30) { 64 } else { random.below(64) as u8 };
        Choice { second: random.percent(50), string }
    }
}

pub struct Run<'a> {
    job: &'a Job,
    bytes: &'a [u8],
    pub point: usize,
    pub values: [Vec<u8>; 4],
    pub strings: [u8; 4],
    /// Each ended by `27`.
    pub pages: Vec<Vec<u8>>,
}

impl<'a> Run<'a> {
    /// `bytes` are those that `job` was read from.
    pub fn new(job: &'a Job, bytes: &'a [u8]) -> Run<'a> {
        Run { job, bytes, point: 0, values: [const { Vec::new() }; 4], strings: [0; 4], pages: Vec::new() }
    }

    pub fn step(&mut self, choice: Choice) {
        let at = self.job.program.points[self.point];
        match at.statement {
            Statement::Copy(to, from) => self.values[to as usize] = self.values[from as usize].clone(),
            Statement::Template(to, template) => self.values[to as usize] = self.template(template).to_vec(),
            Statement::CopyString(to, from) => self.strings[to as usize] = self.strings[from as usize],
            Statement::String(to, string) => self.strings[to as usize] = string,
            Statement::AnyString(to) => self.strings[to as usize] = choice.string,
            Statement::Plug(to, from, gap, plugged) => {
                self.values[to as usize] = plug(&self.values[from as usize], gap, &self.values[plugged as usize]);
            }
            Statement::PlugString(to, from, gap, plugged) => {
                let string = self.strings[plugged as usize];
                self.values[to as usize] = replace(&self.values[from as usize], |command| match command {
                    [0x25, attribute, h] if *h == gap => Some(attribute_with(*attribute, string)),
                    _ => None,
                });
            }
            Statement::Show(x) => self.pages.push(page(&self.values[x as usize], self.job.landed)),
            Statement::Framed(x, template, gap) => {
                let framed = plug(self.template(template), gap, &self.values[x as usize]);
                self.pages.push(page(&framed, self.job.landed));
            }
            Statement::Stop => return,
        }
        self.point = at.next[choice.second as usize] as usize;
    }

    /// The items of a template.
    fn template(&self, template: u8) -> &'a [u8] {
        &self.bytes[self.job.templates.list[template as usize].bytes.clone()]
    }
}

/// Other items in place of each gap of that number; their own gaps stay open.
fn plug(items: &[u8], gap: u8, plugged: &[u8]) -> Vec<u8> {
    replace(items, |command| match command {
        [0x22, g] if *g == gap => Some(plugged.to_vec()),
        _ => None,
    })
}

fn attribute_with(attribute: u8, string: u8) -> Vec<u8> {
    if string < 64 {
        vec![0x24, attribute, string]
    } else {
        vec![0x28, attribute]
    }
}

/// What is shown: nothing in each open gap, no attribute where its gap is open.
fn page(items: &[u8], landed: Landed) -> Vec<u8> {
    let mut page = replace(items, |command| match command {
        [0x22, _] => Some(Vec::new()),
        [0x25, attribute, _] if landed == Landed::F4 => Some(attribute_with(*attribute, 0)),
        [0x25, ..] => Some(Vec::new()),
        _ => None,
    });
    page.push(0x27);
    page
}

/// Puts other bytes in place of the commands for which there are some.
fn replace(items: &[u8], other: impl Fn(&[u8]) -> Option<Vec<u8>>) -> Vec<u8> {
    let mut result = Vec::with_capacity(items.len());
    let mut at = 0;
    while at < items.len() {
        let command = &items[at..at + 1 + operands(items[at])];
        match other(command) {
            Some(bytes) => result.extend(bytes),
            None => result.extend(command),
        }
        at += command.len();
    }
    result
}
