//! Parts of jobs in which it matters that blank text is no content. Fragments, many of them blank text alone, are
//! plugged in beside the root and into elements whose clauses ask what stands there.

use crate::random::Random;
use crate::random_vocabulary::{Draft, RuleDraft};

/// Gaps before the root, after it, and inside.
const BEFORE: u8 = 0;
const AFTER: u8 = 1;
const INSIDE: u8 = 2;

/// Vocabulary, templates, program.
pub fn parts(random: &mut Random) -> (Draft, Vec<u8>, Vec<u8>) {
    let mut names = random.rising(1, 64, 2);
    random.shuffle(&mut names);
    let [root, inner] = names[..] else { unreachable!() };
    let rules = vec![
        RuleDraft { element: root, attributes: vec![0], contents: vec![0, inner], clauses: clauses(random, inner) },
        RuleDraft { element: inner, attributes: vec![], contents: vec![0], clauses: clauses(random, inner) },
    ];
    let fragments = random.from_to(1, 4);
    let mut templates = page(random, root, inner);
    for _ in 0..fragments {
        templates.extend(fragment(random, inner));
    }
    templates.push(0x2F);
    (Draft { rules, root }, templates, program(random, fragments))
}

/// About text and one element: absent, more than one, there, at most one, in order.
fn clauses(random: &mut Random, inner: u8) -> Vec<Vec<u8>> {
    let count = random.weighted(&[30, 45, 25]);
    let mut clause = |_| {
        let c = random.pick(&[0, inner]);
        match random.below(9) {
            0..=2 => vec![0x12, 0x15, c],
            6..=7 => vec![0x12, 0x16, c, c],
            3 => vec![0x15, c],
            4..=5 => vec![0x16, c, c],
            _ => vec![0x16, c, inner - c],
        }
    };
    (0..count).map(&mut clause).collect()
}

/// A template with the root alone among its elements, gaps perhaps beside it.
fn page(random: &mut Random, root: u8, inner: u8) -> Vec<u8> {
    let mut bytes = vec![0x20];
    if random.percent(50) {
        bytes.extend([0x22, BEFORE]);
    }
    bytes.extend([0x23, root]);
    if random.percent(40) {
        bytes.extend([0x24, 0, 1]);
    }
    for _ in 0..random.below(4) {
        match random.below(8) {
            0..=2 => bytes.extend([0x22, INSIDE]),
            3 => bytes.push(0x21),
            4..=5 => bytes.extend([0x21, 0x29, 0x21]),
            6 => bytes.extend([0x23, inner, 0x22, INSIDE, 0x26]),
            _ => bytes.extend([0x23, inner, 0x26]),
        }
    }
    bytes.push(0x26);
    if random.percent(50) {
        bytes.extend([0x22, AFTER]);
    }
    bytes.push(0x27);
    bytes
}

fn fragment(random: &mut Random, inner: u8) -> Vec<u8> {
    let mut bytes = vec![0x20];
    bytes.extend(vec![0x29; random.from_to(1, 3)]);
    match random.weighted(&[55, 10, 10, 15, 10]) {
        0 => {}
        1 => bytes.push(0x21),
        2 => bytes.extend([0x21, 0x29, 0x21]),
        3 => bytes.extend([0x23, inner, 0x26]),
        _ => bytes.extend([0x22, random.below(3) as u8]),
    }
    bytes.push(0x27);
    bytes
}

/// Loads the page, plugs fragments into its gaps, shows it.
fn program(random: &mut Random, fragments: usize) -> Vec<u8> {
    let mut statements = vec![vec![0x31, 0, 1]];
    for _ in 0..random.from_to(1, 4) {
        statements.push(vec![0x31, 1, random.from_to(2, fragments + 1) as u8]);
        statements.push(vec![0x35, 0, 0, random.below(3) as u8, 1]);
    }
    statements.push(vec![0x37, 0]);
    let count = statements.len();
    let mut bytes = Vec::new();
    for (point, statement) in statements.into_iter().enumerate() {
        bytes.extend(statement);
        for _ in 0..2 {
            let next = if random.percent(90) { point + 1 } else { random.from_to(1, count) };
            bytes.push(next as u8);
        }
    }
    bytes.extend([0x38, 0x3F]);
    bytes
}
