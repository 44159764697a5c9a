//! Vocabularies at random, as drafts to which clauses can be added one by one.

use crate::random::Random;

#[derive(Clone, Default)]
pub struct RuleDraft {
    pub element: u8,
    pub attributes: Vec<u8>,
    pub contents: Vec<u8>,
    /// Formulas, without their `04`.
    pub clauses: Vec<Vec<u8>>,
}

#[derive(Clone)]
pub struct Draft {
    pub rules: Vec<RuleDraft>,
    pub root: u8,
}

impl Draft {
    /// Rules without clauses. Each element allows the next one, so that pages can be deep.
    pub fn random(random: &mut Random) -> Draft {
        let count = random.weighted(&[0, 25, 30, 25, 12, 8]);
        let mut elements = random.rising(1, 64, count);
        if random.percent(15) {
            elements[0] = 1;
        }
        random.shuffle(&mut elements);
        let mut rules = Vec::new();
        for (index, &element) in elements.iter().enumerate() {
            let attributes = random.weighted(&[25, 30, 20, 15, 6, 0, 0, 0, 0, 0, 2, 0, 1]);
            let attributes = if random.percent(1) { random.from_to(28, 32) } else { attributes };
            let attributes = random.rising(0, 32, attributes);
            let contents = some_contents(random, &elements, elements[(index + 1) % count]);
            rules.push(RuleDraft { element, attributes, contents, clauses: Vec::new() });
        }
        Draft { rules, root: elements[0] }
    }

    pub fn bytes(&self) -> Vec<u8> {
        let mut bytes = Vec::new();
        for rule in &self.rules {
            bytes.extend([0x01, rule.element]);
            bytes.extend(rule.attributes.iter().flat_map(|&attribute| [0x02, attribute]));
            bytes.extend(rule.contents.iter().flat_map(|&content| [0x03, content]));
            for clause in &rule.clauses {
                bytes.push(0x04);
                bytes.extend(clause);
            }
        }
        bytes.extend([0x05, self.root]);
        bytes
    }

    pub fn rule(&self, element: u8) -> Option<&RuleDraft> {
        self.rules.iter().find(|rule| rule.element == element)
    }

    pub fn elements(&self) -> Vec<u8> {
        self.rules.iter().map(|rule| rule.element).collect()
    }
}

fn some_contents(random: &mut Random, elements: &[u8], next: u8) -> Vec<u8> {
    let mut contents: Vec<u8> = elements.iter().copied().filter(|_| random.percent(50)).collect();
    if random.percent(70) {
        contents.push(0);
    }
    if random.percent(70) {
        contents.push(next);
    }
    if random.percent(10) {
        contents.push(random.below(64) as u8);
    }
    contents.sort_unstable();
    contents.dedup();
    contents
}

/// A formula about the attributes and contents that `rule` allows, now and then about others.
pub fn formula(random: &mut Random, rule: &RuleDraft) -> Vec<u8> {
    let mut bytes = Vec::new();
    let depth = random.weighted(&[35, 30, 20, 10, 3, 2]);
    if random.percent(3) {
        bytes.extend(std::iter::repeat_n(0x12, random.from_to(8, 16 - depth)));
    }
    grow(random, rule, depth, &mut bytes);
    bytes
}

fn grow(random: &mut Random, rule: &RuleDraft, depth: usize, bytes: &mut Vec<u8>) {
    if depth == 0 || random.percent(15) {
        return leaf(random, rule, bytes);
    }
    let connective = random.pick(&[0x10, 0x10, 0x11, 0x11, 0x12]);
    bytes.push(connective);
    grow(random, rule, depth - 1, bytes);
    if connective != 0x12 {
        let depth = random.below(depth);
        grow(random, rule, depth, bytes);
    }
}

fn leaf(random: &mut Random, rule: &RuleDraft, bytes: &mut Vec<u8>) {
    match random.weighted(&[5, 15, 20, 35, 25]) {
        0 => bytes.push(0x13),
        1 => bytes.extend([0x14, an_attribute(random, rule)]),
        2 => bytes.extend([0x15, a_content(random, rule)]),
        3 => {
            let content = a_content(random, rule);
            let other = if random.percent(35) { content } else { a_content(random, rule) };
            bytes.extend([0x16, content, other]);
        }
        _ => {
            bytes.extend([0x17, an_attribute(random, rule)]);
            bytes.extend(string_set(random).to_be_bytes());
        }
    }
}

pub fn an_attribute(random: &mut Random, rule: &RuleDraft) -> u8 {
    if rule.attributes.is_empty() || random.percent(10) {
        return random.below(32) as u8;
    }
    random.pick(&rule.attributes)
}

pub fn a_content(random: &mut Random, rule: &RuleDraft) -> u8 {
    if rule.contents.is_empty() || random.percent(10) {
        return random.below(64) as u8;
    }
    random.pick(&rule.contents)
}

/// Strings are mostly low ones, so that sets and attributes meet.
pub fn string(random: &mut Random) -> u8 {
    match random.weighted(&[60, 15, 25]) {
        0 => random.below(5) as u8,
        1 => random.from_to(59, 63) as u8,
        _ => random.below(64) as u8,
    }
}

pub fn string_set(random: &mut Random) -> u64 {
    let mut set = 0;
    for _ in 0..random.from_to(1, 4) {
        set |= 1 << string(random);
    }
    match random.below(10) {
        0 => u64::MAX,
        1 => !set,
        2 => random.word() | 1,
        _ => set,
    }
}

/// A clause with one fact too many, or several.
pub fn many_facts(random: &mut Random, least: usize) -> Vec<u8> {
    let mut facts: Vec<Vec<u8>> = Vec::new();
    let mut count = 0;
    let mut contents = random.rising(0, 64, 12);
    random.shuffle(&mut contents);
    while count < least {
        match random.below(3) {
            0 => {
                facts.push(vec![0x15, contents.pop().unwrap()]);
                count += 1;
            }
            1 => {
                let content = contents.pop().unwrap();
                facts.push(vec![0x16, content, content]);
                count += 2;
            }
            _ => {
                let mut fact = vec![0x17, random.below(32) as u8];
                fact.extend((random.word() | 1 << count).to_be_bytes());
                facts.push(fact);
                count += 1;
            }
        }
    }
    joined(random, facts)
}

/// The formulas under connectives, as flat as can be.
pub fn joined(random: &mut Random, mut formulas: Vec<Vec<u8>>) -> Vec<u8> {
    while formulas.len() > 1 {
        let right = formulas.remove(0);
        let left = formulas.remove(0);
        let connective = random.pick(&[0x10, 0x11]);
        formulas.push([vec![connective], left, right].concat());
    }
    formulas.pop().unwrap()
}
