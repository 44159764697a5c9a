//! Jobs at random: with the least covering proposal or a larger one, damaged, or of commands at random.

use crate::absent_jobs;
use crate::blank::misplace;
use crate::blank_jobs;
use crate::check::check_as;
use crate::damage::{any_command, commands, damage};
use crate::frame_jobs;
use crate::job::Job;
use crate::kind_jobs;
use crate::landed::Landed;
use crate::least::{least, with_least, write};
use crate::making::Much;
use crate::program::Statement;
use crate::random::Random;
use crate::random_vocabulary::*;
use crate::reader::*;

/// Verdict numbers aimed at, with how many jobs of a hundred each shall get.
const AIMS: [(u32, usize); 12] =
    [(0, 36), (12, 18), (11, 6), (10, 9), (9, 4), (2, 4), (3, 6), (4, 4), (5, 4), (6, 3), (7, 2), (8, 4)];

pub const COMMANDS: [u8; 45] = [
    0x01, 0x02, 0x03, 0x04, 0x05, 0x10, 0x11, 0x12, 0x13, 0x14, 0x15, 0x16, 0x17, 0x20, 0x21, 0x22, 0x23, 0x24, 0x25,
    0x26, 0x27, 0x28, 0x29, 0x2F, 0x30, 0x31, 0x32, 0x33, 0x34, 0x35, 0x36, 0x37, 0x38, 0x39, 0x3F, 0x40, 0x41, 0x42,
    0x43, 0x44, 0x45, 0x46, 0x47, 0x48, 0x4F,
];

pub fn job(random: &mut Random, much: Much) -> Vec<u8> {
    if random.percent(2) {
        let count = random.below(30);
        return (0..count).flat_map(|_| any_command(random, &COMMANDS)).collect();
    }
    let number = much.aim(random, &AIMS);
    // Left to chance, most accepted jobs would plug nothing in.
    let plugs = number == 0 && random.percent(60);
    let mixed = much == Much::Kinds && number > NOT_THE_ROOT && random.percent(90);
    let by_pages = mixed && random.percent(50);
    let mut tries = 0;
    loop {
        let job = attempt(random, much, number);
        tries += 1;
        let verdict = check_as(&job, much.landed());
        let fits = verdict[0] == number
            && (!plugs || commands(&job).iter().any(|command| command[0] == 0x42))
            && (!mixed || kind_jobs::is_mixed(&job, verdict[1], by_pages));
        if fits || tries == 300 {
            return job;
        }
    }
}

fn attempt(random: &mut Random, much: Much, number: u32) -> Vec<u8> {
    let mut parts = Parts::random(random, much);
    match number {
        0 => {
            if check_as(&parts.with_proposal(random), much.landed()) == ACCEPTED {
                parts.add_clauses(random);
            }
            parts.with_proposal(random)
        }
        3 if much == Much::Blank && random.percent(60) => {
            let job = parts.with_proposal(random);
            misplace(random, &job)
        }
        2..=4 | 8 if much == Much::Frames && random.percent(60) => {
            let job = parts.with_proposal(random);
            frame_jobs::damaged(random, &job)
        }
        6 if much == Much::Frames && random.percent(60) => {
            parts.program = frame_jobs::one_too_many(random, &parts.program);
            parts.with_proposal(random)
        }
        6 if random.percent(70) => {
            parts.make_too_many(random);
            parts.with_proposal(random)
        }
        7 => {
            let count = parts.draft.rules.len();
            let rule = &mut parts.draft.rules[random.below(count)];
            let clause = much.many_facts(random, rule, 9);
            rule.clauses.push(clause);
            parts.with_proposal(random)
        }
        11..=15 if much == Much::Kinds => parts.with_proposal(random),
        9..=12 if random.percent(50) => {
            parts.add_random_clauses(random);
            let job = parts.with_proposal(random);
            if number < 11 {
                return damaged_proposal(random, &job);
            }
            job
        }
        _ => {
            let mut job = parts.with_proposal(random);
            for _ in 0..random.weighted(&[0, 70, 25, 5]) {
                job = damage(random, &job, &COMMANDS);
            }
            job
        }
    }
}

/// One command or operand of the proposal at fault.
fn damaged_proposal(random: &mut Random, job: &[u8]) -> Vec<u8> {
    let Ok(read) = Job::read_as(job, Landed::F4) else { return job.to_vec() };
    let (start, proposal) = job.split_at(read.program_end);
    [start, &damage(random, proposal, &[0x40, 0x41, 0x42, 0x43, 0x44, 0x45, 0x46, 0x47, 0x48])].concat()
}

struct Parts {
    much: Much,
    draft: Draft,
    templates: Vec<u8>,
    program: Vec<u8>,
}

impl Parts {
    fn random(random: &mut Random, much: Much) -> Parts {
        let (draft, templates, program) = match much {
            Much::Blank if random.percent(40) => blank_jobs::parts(random),
            Much::Frames if random.percent(85) => frame_jobs::parts(random),
            Much::Absent if random.percent(92) => absent_jobs::parts(random),
            Much::Kinds => kind_jobs::parts(random),
            _ => any_parts(random),
        };
        Parts { much, draft, templates: much.scatter(random, &templates), program }
    }

    fn start(&self) -> Vec<u8> {
        [&self.draft.bytes()[..], &self.templates, &self.program].concat()
    }

    /// The whole job. Where its start doesn't read, the proposal is empty.
    fn with_proposal(&self, random: &mut Random) -> Vec<u8> {
        let start = self.start();
        let Ok(mut job) = Job::read_as(&[&start[..], &[0x4F]].concat(), Landed::F4) else {
            return [&start[..], &[0x4F]].concat();
        };
        if random.percent(30) {
            match self.much {
                Much::Absent | Much::Kinds => absent_jobs::enlarge(random, &mut job),
                _ => enlarge(random, &mut job),
            }
        }
        let entries = least(&job.program, &job.templates, job.entries);
        [start, write(&entries, job.program.points.len())].concat()
    }

    /// Adds formulas, or their negations, under which the job stays accepted.
    fn add_clauses(&mut self, random: &mut Random) {
        for _ in 0..random.below(5) {
            let index = random.below(self.draft.rules.len());
            let formula = self.much.formula(random, &self.draft.rules[index]);
            let negation = [vec![0x12], formula.clone()].concat();
            for clause in [formula, negation] {
                self.draft.rules[index].clauses.push(clause);
                let start = self.start();
                if with_least(&start, &[]).is_some_and(|job| check_as(&job, self.much.landed()) == ACCEPTED) {
                    break;
                }
                self.draft.rules[index].clauses.pop();
            }
        }
    }

    fn add_random_clauses(&mut self, random: &mut Random) {
        for _ in 0..random.below(3) {
            let index = random.below(self.draft.rules.len());
            let clause = self.much.formula(random, &self.draft.rules[index]);
            self.draft.rules[index].clauses.push(clause);
        }
    }

    fn make_too_many(&mut self, random: &mut Random) {
        match random.below(4) {
            0 => {
                let depth = random.from_to(16, 18);
                let index = random.below(self.draft.rules.len());
                let clause = [vec![0x12; depth], vec![0x13]].concat();
                self.draft.rules[index].clauses.push(clause);
            }
            1 => {
                let depth = random.from_to(16, 18);
                let element = random.pick(&self.draft.elements());
                let nested = [[0x23, element].repeat(depth), vec![0x26; depth]].concat();
                self.templates = [&[0x20][..], &nested, &[0x27], &self.templates].concat();
            }
            2 => {
                let count = random.from_to(25, 33);
                self.templates = [[0x20, 0x27].repeat(count), self.templates.clone()].concat();
            }
            _ => {
                let count = random.from_to(18, 34);
                self.program = [vec![0x38; count], self.program.clone()].concat();
            }
        }
    }
}

/// Vocabulary, templates, program.
fn any_parts(random: &mut Random) -> (Draft, Vec<u8>, Vec<u8>) {
    let mut draft = Draft::random(random);
    if random.percent(70) {
        allow_more(random, &mut draft);
    }
    let gaps = random.from_to(1, 3);
    let pages = random.from_to(1, 3);
    let fragments = random.from_to(0, 4);
    let mut templates = Vec::new();
    for index in 0..pages + fragments {
        templates.push(0x20);
        template(random, &draft, index < pages, gaps, &mut templates);
        templates.push(0x27);
    }
    templates.push(0x2F);
    let program = program(random, pages as u8, fragments as u8, gaps);
    (draft, templates, program)
}

/// Lets most elements stand in most others, so that plugs of any kind can be right.
pub fn allow_more(random: &mut Random, draft: &mut Draft) {
    let elements = draft.elements();
    for rule in &mut draft.rules {
        rule.contents = elements.iter().copied().filter(|_| random.percent(95)).collect();
        rule.contents.push(0);
        rule.contents.sort_unstable();
    }
}

pub fn template(random: &mut Random, draft: &Draft, page: bool, gaps: usize, bytes: &mut Vec<u8>) {
    let mut budget = random.from_to(1, 6);
    if page {
        return element(random, draft, draft.root, gaps, 0, &mut budget, bytes);
    }
    let elements = draft.elements();
    for _ in 0..random.weighted(&[10, 60, 20, 10]) {
        match random.below(10) {
            0..=1 => bytes.push(0x21),
            2..=3 => bytes.extend([0x22, random.below(gaps) as u8]),
            _ => {
                let name = random.pick(&elements);
                element(random, draft, name, gaps, 0, &mut budget, bytes);
            }
        }
    }
}

fn element(
    random: &mut Random,
    draft: &Draft,
    name: u8,
    gaps: usize,
    depth: usize,
    budget: &mut usize,
    bytes: &mut Vec<u8>,
) {
    let rule = draft.rule(name).unwrap();
    bytes.extend([0x23, name]);
    let mut attributes = rule.attributes.clone();
    random.shuffle(&mut attributes);
    attributes.retain(|_| random.percent(60));
    for attribute in attributes {
        if random.percent(50) {
            bytes.extend([0x24, attribute, string(random)]);
        } else {
            bytes.extend([0x25, attribute, random.below(gaps) as u8]);
        }
    }
    let inner: Vec<u8> = rule.contents.iter().copied().filter(|&c| c == 0 || draft.rule(c).is_some()).collect();
    for _ in 0..random.weighted(&[15, 40, 30, 15]) {
        if *budget == 0 || depth == 15 {
            break;
        }
        *budget -= 1;
        if inner.is_empty() || random.percent(35) {
            bytes.extend([0x22, random.below(gaps) as u8]);
            continue;
        }
        match random.pick(&inner) {
            0 => bytes.push(0x21),
            name => element(random, draft, name, gaps, depth + 1, budget, bytes),
        }
    }
    bytes.push(0x26);
}

/// Variable 0 mostly holds pages, the others fragments; the first statement loads a page.
fn program(random: &mut Random, pages: u8, fragments: u8, gaps: usize) -> Vec<u8> {
    let count = random.from_to(3, 14);
    let mut bytes = Vec::new();
    for point in 0..count {
        let mut statement = match point {
            0 => vec![0x31, 0, 1 + random.below(pages as usize) as u8],
            _ if point + 1 == count => vec![0x38],
            _ if point + 2 == count => vec![0x37, 0],
            1 | 2 if random.percent(70) => vec![0x31, point as u8, a_fragment(random, pages, fragments)],
            _ => statement(random, pages, fragments, gaps),
        };
        if statement[0] != 0x38 {
            for _ in 0..2 {
                // Mostly onward; backward is a loop.
                let next = if random.percent(75) { point + 1 } else { random.below(count) };
                statement.push(next as u8);
            }
        }
        bytes.extend(statement);
    }
    bytes.push(0x3F);
    bytes
}

/// A template that is no page, or any if there is none.
fn a_fragment(random: &mut Random, pages: u8, fragments: u8) -> u8 {
    let from = if fragments > 0 { pages + 1 } else { 0 };
    random.from_to(from as usize, (pages + fragments) as usize) as u8
}

/// A statement without its next points.
fn statement(random: &mut Random, pages: u8, fragments: u8, gaps: usize) -> Vec<u8> {
    let x = |random: &mut Random| random.below(4) as u8;
    let fragment = |random: &mut Random| random.from_to(1, 2) as u8;
    let gap = random.below(gaps) as u8;
    match random.weighted(&[5, 4, 14, 36, 4, 5, 6, 14, 10, 2, 7, 2, 5]) {
        0 => vec![0x30, x(random), x(random)],
        1 => vec![0x31, 0, random.from_to(1, pages as usize) as u8],
        2 => vec![0x31, fragment(random), a_fragment(random, pages, fragments)],
        3 => {
            let to = if random.percent(70) { 0 } else { fragment(random) };
            vec![0x35, to, to, gap, fragment(random)]
        }
        4 => vec![0x32, x(random), x(random)],
        5 => vec![0x33, fragment(random), string(random)],
        6 => vec![0x34, fragment(random)],
        7 => {
            let to = if random.percent(70) { 0 } else { fragment(random) };
            vec![0x36, to, to, gap, fragment(random)]
        }
        8 => vec![0x37, 0],
        9 => vec![0x37, x(random)],
        10 => vec![0x39, fragment(random), random.from_to(1, pages as usize) as u8, gap],
        11 => vec![0x39, x(random), random.below((pages + fragments) as usize + 1) as u8, random.below(8) as u8],
        _ => vec![0x35, x(random), x(random), random.below(8) as u8, x(random)],
    }
}

/// Something held that needs not be; often, if there is a framed show, of its variable about its template and its gap.
fn enlarge(random: &mut Random, job: &mut Job) {
    let templates = job.templates.list.len();
    let points = job.program.points.iter().enumerate();
    let framed = points.filter_map(|(point, at)| match at.statement {
        Statement::Framed(x, template, gap) => Some((point, x, template as usize, gap as usize)),
        _ => None,
    });
    let framed: Vec<_> = framed.collect();
    for _ in 0..random.from_to(1, 3) {
        let m = random.below(templates);
        let (kinds, (point, x, n, gap)) = if framed.is_empty() || random.percent(40) {
            let point = random.below(job.program.points.len());
            ([1; 7], (point, random.below(4) as u8, random.below(templates), random.below(3)))
        } else {
            ([1, 1, 1, 4, 1, 1, 1], random.pick(&framed))
        };
        let summary = job.entries.summary_mut(point, x);
        match random.weighted(&kinds) {
            0 => summary.roots |= 1 << n,
            1 => summary.add_edges(n, gap, 1 << m),
            2 => summary.add_strings(n, gap, 1 << string(random)),
            3 => summary.origins[gap] |= 1 << n,
            4 => summary.attribute_origins[gap] |= 1 << n,
            5 => summary.add_strings(n, gap, crate::summary::ANY_STRING),
            _ => *job.entries.strings_mut(point, x) |= 1 << string(random),
        }
    }
}
