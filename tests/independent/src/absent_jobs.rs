//! Parts of jobs whose attribute gaps mostly can stay open. Attributes share gaps, some are not allowed, and strings
//! reach some of them, on some ways through the program.

use crate::absent_facts::formula;
use crate::job::Job;
use crate::program::Statement;
use crate::random::Random;
use crate::random_vocabulary::*;
use crate::summary::{members, ANY_STRING};

/// No program plugs a string into this attribute gap.
const NEVER: u8 = 7;

/// Vocabulary, templates, program.
pub fn parts(random: &mut Random) -> (Draft, Vec<u8>, Vec<u8>) {
    let (draft, attributes) = draft(random);
    let shape = Shape {
        attributes,
        gaps: random.from_to(1, 2),
        attribute_gaps: random.from_to(1, 3),
        pages: random.from_to(1, 2),
        fragments: random.from_to(0, 3),
        not_allowed: random.pick(&[0, 0, 30, 70]),
    };
    let mut templates = Vec::new();
    for index in 0..shape.templates() {
        let mut budget = random.from_to(0, 3);
        templates.push(0x20);
        if index < shape.pages {
            shape.element(random, &draft, draft.root, &mut budget, &mut templates);
        } else {
            shape.fragment(random, &draft, &mut budget, &mut templates);
        }
        templates.push(0x27);
    }
    templates.push(0x2F);
    (draft, templates, shape.program(random))
}

/// Rules, and the attributes that elements have, whatever their rules allow.
fn draft(random: &mut Random) -> (Draft, Vec<u8>) {
    let count = random.weighted(&[0, 30, 45, 25]);
    let mut names = random.rising(1, 64, count);
    random.shuffle(&mut names);
    let count = random.from_to(1, 4);
    let attributes = random.rising(0, 32, count);
    let mut rules = Vec::new();
    for &element in &names {
        let allowed = attributes.iter().copied().filter(|_| random.percent(80)).collect();
        let mut contents: Vec<u8> = names.iter().copied().filter(|_| random.percent(95)).collect();
        contents.push(0);
        contents.sort_unstable();
        rules.push(RuleDraft { element, attributes: allowed, contents, clauses: Vec::new() });
    }
    for _ in 0..random.weighted(&[70, 20, 10]) {
        let index = random.below(rules.len());
        let clause = formula(random, &rules[index]);
        rules[index].clauses.push(clause);
    }
    (Draft { rules, root: names[0] }, attributes)
}

struct Shape {
    attributes: Vec<u8>,
    gaps: usize,
    attribute_gaps: usize,
    /// The first templates are pages, the others fragments.
    pages: usize,
    fragments: usize,
    /// How often an element has an attribute that its rule does not allow, in a gap that strings may reach.
    not_allowed: usize,
}

impl Shape {
    fn templates(&self) -> usize {
        self.pages + self.fragments
    }

    fn fragment(&self, random: &mut Random, draft: &Draft, budget: &mut usize, bytes: &mut Vec<u8>) {
        for _ in 0..random.weighted(&[5, 75, 20]) {
            match random.below(8) {
                0 => bytes.push(0x21),
                1 => bytes.extend([0x22, random.below(self.gaps) as u8]),
                _ => {
                    let name = random.pick(&draft.elements());
                    self.element(random, draft, name, budget, bytes);
                }
            }
        }
    }

    fn element(&self, random: &mut Random, draft: &Draft, name: u8, budget: &mut usize, bytes: &mut Vec<u8>) {
        let rule = draft.rule(name).unwrap();
        bytes.extend([0x23, name]);
        let mut attributes = self.attributes.clone();
        random.shuffle(&mut attributes);
        for attribute in attributes {
            let gap = random.below(self.attribute_gaps) as u8;
            let allowed = rule.attributes.contains(&attribute);
            match random.below(100) {
                0..=44 if allowed => bytes.extend([0x25, attribute, gap]),
                45..=54 if allowed => bytes.extend([0x25, attribute, NEVER]),
                55..=74 if allowed => bytes.extend([0x24, attribute, string(random)]),
                0..=34 if !allowed => bytes.extend([0x25, attribute, NEVER]),
                35..=69 if !allowed && random.percent(self.not_allowed) => bytes.extend([0x25, attribute, gap]),
                70 if !allowed && random.percent(self.not_allowed) => bytes.extend([0x24, attribute, 0]),
                _ => {}
            }
        }
        for _ in 0..random.weighted(&[30, 45, 25]) {
            if *budget == 0 {
                break;
            }
            *budget -= 1;
            match random.below(10) {
                0..=1 => bytes.push(0x21),
                2..=5 => bytes.extend([0x22, random.below(self.gaps) as u8]),
                _ => {
                    let name = random.pick(&draft.elements());
                    self.element(random, draft, name, budget, bytes);
                }
            }
        }
        bytes.push(0x26);
    }

    /// Loads a page, mostly plugs in some strings and fragments, and shows it. Any statement may be passed over.
    fn program(&self, random: &mut Random) -> Vec<u8> {
        let mut statements = vec![vec![0x31, 0, self.page(random)]];
        for _ in 0..random.from_to(0, 4) {
            statements.extend(self.statements(random));
        }
        statements.push(self.show(random));
        let count = statements.len();
        let mut bytes = Vec::new();
        for (point, statement) in statements.iter().enumerate() {
            bytes.extend(statement);
            // Passing over a plug of a string leaves an attribute gap open on one way alone.
            let plugs = statements.get(point + 1).is_some_and(|next| next[0] == 0x36);
            for _ in 0..2 {
                let next = match random.below(100) {
                    0..=34 if plugs => point + 2,
                    35..=44 => (point + 2).min(count),
                    45..=48 => random.below(count),
                    _ => point + 1,
                };
                bytes.push(next as u8);
            }
        }
        bytes.extend([0x38, 0x3F]);
        bytes
    }

    /// Without their next points.
    fn statements(&self, random: &mut Random) -> Vec<Vec<u8>> {
        let [x, y] = [random.weighted(&[75, 25]) as u8, random.below(2) as u8];
        let attribute_gap = random.below(self.attribute_gaps) as u8;
        match random.weighted(&[45, 15, 25, 10, 5]) {
            0 => vec![a_string(random, y), vec![0x36, x, x, attribute_gap, y]],
            // String 0, held as any other is.
            1 => vec![vec![0x36, x, x, attribute_gap, 2]],
            2 => vec![vec![0x31, 1, self.any(random)], vec![0x35, 0, 0, random.below(self.gaps) as u8, 1]],
            3 => vec![self.show(random)],
            _ => vec![vec![0x31, x, self.page(random)]],
        }
    }

    fn show(&self, random: &mut Random) -> Vec<u8> {
        match random.below(10) {
            0..=6 => vec![0x37, 0],
            7..=8 => vec![0x39, 1, self.page(random), random.below(self.gaps) as u8],
            _ => vec![0x39, 0, self.page(random), random.below(8) as u8],
        }
    }

    fn page(&self, random: &mut Random) -> u8 {
        random.from_to(1, self.pages) as u8
    }

    fn any(&self, random: &mut Random) -> u8 {
        let first = if self.fragments > 0 { self.pages + 1 } else { 1 };
        random.from_to(first, self.templates()) as u8
    }
}

fn a_string(random: &mut Random, y: u8) -> Vec<u8> {
    match random.percent(75) {
        true => vec![0x33, y, string(random)],
        false => vec![0x34, y],
    }
}

/// Something held at a show that needs not be, mostly about templates with attribute gaps: as a root or plugged in, with
/// strings or absence, with both, or with neither, so that no page comes of it.
pub fn enlarge(random: &mut Random, job: &mut Job) {
    let points = job.program.points.iter().enumerate();
    let shows = points.filter_map(|(point, at)| match at.statement {
        Statement::Show(x) | Statement::Framed(x, ..) => Some((point, x)),
        _ => None,
    });
    let shows: Vec<_> = shows.collect();
    let list = job.templates.list.iter().enumerate();
    let mut with_gaps: Vec<usize> = list.filter(|(_, template)| template.attribute_gaps != 0).map(|at| at.0).collect();
    if shows.is_empty() || with_gaps.is_empty() || random.percent(10) {
        with_gaps = (0..job.templates.list.len()).collect();
    }
    for _ in 0..random.from_to(1, 2) {
        let (point, x) = if shows.is_empty() { (0, 0) } else { random.pick(&shows) };
        let template = random.pick(&with_gaps);
        let attribute_gaps: Vec<usize> = members(job.templates.list[template].attribute_gaps.into()).collect();
        let gap = if attribute_gaps.is_empty() { 0 } else { random.pick(&attribute_gaps) };
        let user = random.below(job.templates.list.len());
        let summary = job.entries.summary_mut(point, x);
        match random.weighted(&[35, 15, 20, 10, 20]) {
            0 => summary.roots |= 1 << template,
            1 => summary.add_edges(user, random.below(2), 1 << template),
            2 => summary.add_strings(template, gap, 1 << string(random)),
            3 => summary.add_strings(template, gap, ANY_STRING),
            _ => summary.attribute_origins[gap] |= 1 << template,
        }
    }
}
