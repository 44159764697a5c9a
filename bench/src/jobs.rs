//! What the checks are timed on. Each maker takes a number of quarters of the full size; the proposal is the least one that covers.

use crate::slices::slice;
use independent::least::with_least;

type Maker = fn(usize) -> Vec<u8>;

pub const GROWING: [(&str, Maker); 9] = [
    ("mostly proposal", proposal),
    ("31 templates, 28 shows", shows),
    ("31 templates, 28 framed shows", framed),
    ("many rounds, by templates", rounds),
    ("8 facts, by clauses", facts),
    ("8 facts, by attribute gaps", attribute_gaps),
    ("thousands of clauses", clauses),
    ("thousands of gaps", gaps),
    ("half blank text", blank),
];

/// Document 01's J1.
pub const J1: [u8; 121] = [
    0x01, 1, 0x02, 0, 0x03, 2, 0x04, 0x16, 2, 2, 0x04, 0x15, 2, 0x01, 2, 0x03, 0, 0x05, 1, // vocabulary
    0x20, 0x23, 1, 0x22, 0, 0x26, 0x27, 0x20, 0x23, 2, 0x21, 0x26, 0x27, 0x2F, // templates
    0x31, 0, 1, 1, 1, 0x31, 1, 2, 2, 2, 0x35, 0, 0, 0, 1, 3, 3, 0x37, 0, 4, 4, 0x38, 0x3F, // program
    0x40, 0, 0, 0x41, 0, 0x40, 0, 1, 0x41, 0, 0x40, 1, 0, 0x41, 1, 0x45, 0, 1, 0x40, 1, 1, 0x41, 0, 0x40, 2, 0, 0x41, 1, 0x45, 0, 1,
    0x40, 2, 1, 0x41, 2, 0x40, 3, 0, 0x41, 1, 0x42, 1, 0, 2, 0x40, 3, 1, 0x41, 2, 0x40, 4, 0, 0x41, 1, 0x42, 1, 0, 2, 0x40, 4, 1,
    0x41, 2, 0x4F,
];

const POINTS: u8 = 32;

/// The job records of a file: one slice each.
pub fn records(mut bytes: &[u8]) -> Vec<Vec<u8>> {
    std::iter::from_fn(|| slice(&mut bytes)).collect()
}

/// The seven large jobs among the supplied vectors, which stand in the order of their files' names: bytes, damaged, large, small, valid.
pub fn large(jobs: &[Vec<u8>]) -> impl Iterator<Item = &Vec<u8>> {
    const BEFORE: usize = 1100;
    jobs[BEFORE..BEFORE + 7].iter()
}

/// Element 1, the root, holds text and elements 1 to `last` and has these clauses; the others are empty.
fn vocabulary(last: u8, clauses: &[Vec<u8>]) -> Vec<u8> {
    let mut v = vec![0x01, 1, 0x03, 0];
    for c in 1..=last {
        v.extend([0x03, c]);
    }
    for clause in clauses {
        v.push(0x04);
        v.extend(clause);
    }
    for e in 2..=last {
        v.extend([0x01, e]);
    }
    v.extend([0x05, 1]);
    v
}

/// A show of variable 0, without its next points.
const SHOW: &[u8] = &[0x37, 0];

/// Variable 0 is template 1, then come these shows of it, at the last points.
fn program(shows: &[Vec<u8>]) -> Vec<u8> {
    let mut bytes = vec![0x31, 0, 1, 1, 1];
    let copies = POINTS as usize - 2 - shows.len();
    let copy = vec![0x30, 0, 0];
    for (p, statement) in (1..).zip(std::iter::repeat(&copy).take(copies).chain(shows)) {
        bytes.extend(statement);
        bytes.extend([p + 1, p + 1]);
    }
    bytes.extend([0x38, 0x3F]);
    bytes
}

/// The edges are held from point 1 on.
fn job(vocabulary: Vec<u8>, templates: Vec<Vec<u8>>, shows: &[Vec<u8>], edges: &[[u8; 3]]) -> Vec<u8> {
    job_with_strings(vocabulary, templates, shows, edges, &[])
}

/// The edges, and the strings at attribute gaps, are held from point 1 on.
fn job_with_strings(
    vocabulary: Vec<u8>,
    templates: Vec<Vec<u8>>,
    shows: &[Vec<u8>],
    edges: &[[u8; 3]],
    strings: &[[u8; 3]],
) -> Vec<u8> {
    let mut start = vocabulary;
    for template in templates {
        start.push(0x20);
        start.extend(template);
        start.push(0x27);
    }
    start.push(0x2F);
    start.extend(program(shows));
    let mut held = vec![0x40, 1, 0];
    for (command, items) in [(0x42, edges), (0x43, strings)] {
        let mut items = items.to_vec();
        items.sort();
        for [n, gap, to] in items {
            held.extend([command, n, gap, to]);
        }
    }
    with_least(&start, &held).expect("a job that reads")
}

/// A formula of these eight contents that is always true: all stand, or not all.
fn eight(first: u8) -> Vec<u8> {
    let mut all = Vec::new();
    for c in first..first + 7 {
        all.extend([0x10, 0x15, c]);
    }
    all.extend([0x15, first + 7]);
    let mut clause = vec![0x11];
    clause.extend(&all);
    clause.push(0x12);
    clause.extend(&all);
    clause
}

/// Copies of a variable with many edges, 65,271 bytes.
fn proposal(quarters: usize) -> Vec<u8> {
    let mut templates = Vec::new();
    let mut edges = Vec::new();
    for n in 1..=31u8 {
        templates.push(vec![0x23, 1, 0x22, 0, 0x22, 1, 0x26]);
        for m in 1..=9 {
            edges.extend([[n, 0, m], [n, 1, m + 8]]);
        }
    }
    edges.truncate(130 * quarters);
    job(vocabulary(1, &[]), templates, &[SHOW.to_vec()], &edges)
}

/// A chain of elements in one another, with these shows.
fn nested(last: u8, shows: &[Vec<u8>]) -> Vec<u8> {
    let mut templates = Vec::new();
    let mut edges = Vec::new();
    for n in 1..=last {
        templates.push(vec![0x23, 1, 0x22, 0, 0x21, 0x22, 1, 0x26]);
        edges.extend([[n, 0, 0], [n, 1, 0]]);
        if n < last {
            edges.extend([[n, 0, n + 1], [n, 1, n + 1]]);
        }
    }
    job(vocabulary(3, &[vec![0x16, 0, 2], vec![0x11, 0x15, 1, 0x15, 0]]), templates, shows, &edges)
}

fn shows(quarters: usize) -> Vec<u8> {
    nested(7 * quarters as u8 + 3, &vec![SHOW.to_vec(); 28])
}

/// The same in frames, each another template than the one before, so that no two shows in turn have the same graph.
fn framed(quarters: usize) -> Vec<u8> {
    let last = 7 * quarters as u8 + 3;
    let shows: Vec<Vec<u8>> = (0..28).map(|i| vec![0x39, 0, 1 + i % last, 0]).collect();
    nested(last, &shows)
}

/// Each template hands its contents on to the one before: a round for each.
fn chain(length: u8, clauses: usize) -> Vec<u8> {
    let mut templates = vec![vec![0x23, 1, 0x22, 0, 0x26]];
    let mut edges = vec![[1, 0, 2]];
    for n in 2..=length {
        templates.push(vec![0x22, 0, 0x23, n, 0x26]);
        edges.extend([[n, 0, 0], [n, 0, if n < length { n + 1 } else { 2 }]]);
    }
    let clauses: Vec<Vec<u8>> = (0..clauses).map(|i| eight(2 + i as u8 % 23)).collect();
    job(vocabulary(31, &clauses), templates, &[SHOW.to_vec()], &edges)
}

fn rounds(quarters: usize) -> Vec<u8> {
    chain(7 * quarters as u8 + 3, 8)
}

fn facts(quarters: usize) -> Vec<u8> {
    chain(31, 8 * quarters)
}

/// A clause of eight facts about two attributes and two contents: unless the content is there, the attribute is of one set, or it is
/// there and of the other. Each string below 32 is of one of these sets or of both, and absence is of both; so every page meets the
/// clause, though not every pattern does.
fn of_two_sets(i: usize) -> Vec<u8> {
    let turn = 8 * (i % 4) as u32;
    let [one, other] = [0x00FF_FFFF, 0xFFFF_0000u32].map(|set| (set.rotate_left(turn) as u64).to_be_bytes());
    let mut clause = vec![0x10];
    for (a, c) in [(i, i), (i + 1 + i / 8, i + 1)].map(|(a, c)| ((a % 8) as u8, 2 + (c % 4) as u8)) {
        clause.extend([0x11, 0x15, c, 0x11, 0x17, a]);
        clause.extend(one);
        clause.extend([0x10, 0x14, a, 0x17, a]);
        clause.extend(other);
    }
    clause
}

/// A template of many elements under 32 clauses. Each has eight attributes, absent or with one of four strings, and up to two
/// contents. No two that stand side by side have an attribute by the same gap.
fn attribute_gaps(quarters: usize) -> Vec<u8> {
    let mut template = vec![0x23, 1];
    for i in 0..450 * quarters {
        template.extend([0x23, 1]);
        for a in 0..8 {
            template.extend([0x25, a, (a + (i % 8) as u8) % 8]);
        }
        template.extend([0x22, 0, 0x22, 1, 0x26]);
    }
    template.push(0x26);
    let mut templates = vec![template];
    let mut edges = Vec::new();
    for e in 2..=5 {
        templates.push(vec![0x23, e, 0x26]);
        edges.extend([[1, 0, e], [1, 1, e]]);
    }
    let strings: Vec<[u8; 3]> = (0..32).map(|s| [1, s % 8, s]).collect();
    let clauses: Vec<Vec<u8>> = (0..32).map(of_two_sets).collect();
    let mut vocabulary = vocabulary(5, &clauses);
    // The root's rule allows the attributes, before its contents.
    vocabulary.splice(2..2, (0..8).flat_map(|a| [0x02, a]));
    job_with_strings(vocabulary, templates, &[SHOW.to_vec()], &edges, &strings)
}

fn clauses(quarters: usize) -> Vec<u8> {
    let clauses: Vec<Vec<u8>> = (0..2200 * quarters).map(|i| vec![0x11, 0x15, (i % 60) as u8, 0x12, 0x15, (i % 60) as u8]).collect();
    let templates = vec![vec![0x23, 1, 0x22, 0, 0x21, 0x26], vec![0x23, 2, 0x26]];
    job(vocabulary(3, &clauses), templates, &[SHOW.to_vec()], &[[1, 0, 0], [1, 0, 2]])
}

/// A template of many gaps, each with this after it.
fn many_gaps(count: usize, after: &[u8]) -> Vec<u8> {
    let mut template = vec![0x23, 1];
    for i in 0..count {
        template.extend([0x22, (i % 8) as u8]);
        template.extend(after);
    }
    template.push(0x26);
    let mut edges = Vec::new();
    for g in 0..8 {
        edges.extend([[1, g, 0], [1, g, g + 2]]);
    }
    let mut templates = vec![template];
    for e in 2..=9 {
        templates.push(vec![0x23, e, 0x26]);
    }
    let order = vec![0x11, 0x16, 2, 3, 0x12, 0x16, 2, 3];
    job(vocabulary(9, &[eight(2), order]), templates, &[SHOW.to_vec()], &edges)
}

fn gaps(quarters: usize) -> Vec<u8> {
    many_gaps(7500 * quarters, &[])
}

fn blank(quarters: usize) -> Vec<u8> {
    many_gaps(3750 * quarters, &[0x29, 0x29])
}
