//! Page records at random: right ones, wrong ones in every way, and damaged ones.

use crate::blank::misplace;
use crate::damage::{any_command, damage};
use crate::judge::{judge, judge_as};
use crate::kind_pages;
use crate::making::Much;
use crate::random::Random;
use crate::random_vocabulary::*;
use crate::reader::*;

pub struct Record {
    pub vocabulary: Vec<u8>,
    pub page: Vec<u8>,
}

impl Record {
    pub fn verdict(&self) -> Verdict {
        judge(&self.vocabulary, &self.page)
    }
}

pub const VOCABULARY_COMMANDS: [u8; 18] =
    [0x01, 0x02, 0x03, 0x04, 0x05, 0x10, 0x11, 0x12, 0x13, 0x14, 0x15, 0x16, 0x17, 0x01, 0x02, 0x06, 0x20, 0x29];
const PAGE_COMMANDS: [u8; 13] = [0x21, 0x23, 0x24, 0x26, 0x27, 0x28, 0x29, 0x21, 0x24, 0x28, 0x20, 0x22, 0x25];

/// Verdict numbers aimed at, with how many records of a hundred each shall get.
const AIMS: [(u32, usize); 10] = [(0, 35), (12, 24), (11, 7), (2, 5), (3, 8), (4, 6), (5, 5), (6, 3), (7, 3), (8, 4)];

pub fn record(random: &mut Random, much: Much) -> Record {
    if random.percent(1) {
        return bytes(random, much);
    }
    let number = much.aim(random, &AIMS);
    let mixed = much == Much::Kinds && number > NOT_THE_ROOT && random.percent(90);
    let mut tries = 0;
    loop {
        let record = attempt(random, much, number);
        tries += 1;
        let fits = judge_as(&record.vocabulary, &record.page, much.landed())[0] == number
            && (!mixed || kind_pages::is_mixed(&record));
        // An aim that is missed for long is given up, so that every seed comes to an end.
        if fits || tries == 500 {
            return record;
        }
    }
}

fn attempt(random: &mut Random, much: Much, number: u32) -> Record {
    if much == Much::Kinds {
        return kind_pages::attempt(random, number == NOT_THE_ROOT);
    }
    let (draft, page) = right(random, much);
    match number {
        0 => Record { vocabulary: draft.bytes(), page },
        3 if much == Much::Blank && random.percent(60) => misplaced(random, draft, page),
        11 => not_the_root(random, much, draft, page),
        12 => wrong(random, much, draft, page),
        6 if random.percent(80) => too_deep(random, much, draft, page),
        7 => too_many_facts(random, much, draft, page),
        _ => damaged(random, draft, page),
    }
}

/// A page that is right, and a vocabulary whose clauses all hold in it.
pub fn right(random: &mut Random, much: Much) -> (Draft, Vec<u8>) {
    let mut draft = Draft::random(random);
    if much == Much::Absent {
        allow_attributes(random, &mut draft);
    }
    let mut page = Vec::new();
    let shape = Shape { deep: random.percent(20) };
    let mut budget = if shape.deep { random.from_to(5, 50) } else { random.from_to(1, 10) };
    element(random, &draft, draft.root, &shape, &mut budget, &mut page);
    page.push(0x27);
    let page = much.scatter(random, &page);
    for _ in 0..random.weighted(&[5, 20, 30, 25, 15, 5]) {
        add_clause(random, much, &mut draft, &page);
    }
    (draft, page)
}

/// A few in every rule.
fn allow_attributes(random: &mut Random, draft: &mut Draft) {
    for rule in &mut draft.rules {
        let count = random.from_to(1, 4);
        rule.attributes = random.rising(0, 32, count);
    }
}

struct Shape {
    deep: bool,
}

fn element(random: &mut Random, draft: &Draft, name: u8, shape: &Shape, budget: &mut usize, page: &mut Vec<u8>) {
    let rule = draft.rule(name).unwrap();
    page.extend([0x23, name]);
    let mut attributes = rule.attributes.clone();
    random.shuffle(&mut attributes);
    for attribute in attributes {
        if random.percent(if shape.deep { 80 } else { 40 }) {
            continue;
        }
        attribute_with_string(random, attribute, page);
    }
    let inner: Vec<u8> = rule.contents.iter().copied().filter(|&c| c == 0 || draft.rule(c).is_some()).collect();
    let count = if shape.deep { random.from_to(1, 2) } else { random.from_to(0, 4) };
    for _ in 0..count {
        if *budget == 0 || inner.is_empty() {
            break;
        }
        *budget -= 1;
        match random.pick(&inner) {
            0 => page.push(0x21),
            name => element(random, draft, name, shape, budget, page),
        }
    }
    page.push(0x26);
}

fn attribute_with_string(random: &mut Random, attribute: u8, page: &mut Vec<u8>) {
    if random.percent(35) {
        page.extend([0x28, attribute]);
    } else {
        page.extend([0x24, attribute, string(random)]);
    }
}

/// Adds a formula, or its negation, if the page then stays right.
fn add_clause(random: &mut Random, much: Much, draft: &mut Draft, page: &[u8]) {
    let index = if random.percent(50) { 0 } else { random.below(draft.rules.len()) };
    let formula = much.formula(random, &draft.rules[index]);
    let negation = [vec![0x12], formula.clone()].concat();
    for clause in [formula, negation] {
        draft.rules[index].clauses.push(clause);
        if judge_as(&draft.bytes(), page, much.landed()) == ACCEPTED {
            return;
        }
        draft.rules[index].clauses.pop();
    }
}

/// Wrong by a clause, by what the rules allow, or by a change in the page.
fn wrong(random: &mut Random, much: Much, mut draft: Draft, page: Vec<u8>) -> Record {
    let index = random.below(draft.rules.len());
    match random.below(10) {
        0..=2 => {
            let clause = much.formula(random, &draft.rules[index]);
            let place = random.below(draft.rules[index].clauses.len() + 1);
            draft.rules[index].clauses.insert(place, clause);
        }
        3 if !draft.rules[index].attributes.is_empty() => {
            let place = random.below(draft.rules[index].attributes.len());
            draft.rules[index].attributes.remove(place);
        }
        4 if !draft.rules[index].contents.is_empty() => {
            let place = random.below(draft.rules[index].contents.len());
            draft.rules[index].contents.remove(place);
        }
        5..=6 if much == Much::Absent => {
            let page = without_attribute(random, &page);
            return Record { vocabulary: draft.bytes(), page };
        }
        _ => {
            let page = changed(random, &draft, &page);
            return Record { vocabulary: draft.bytes(), page };
        }
    }
    Record { vocabulary: draft.bytes(), page }
}

/// One attribute fewer, if there is any.
fn without_attribute(random: &mut Random, page: &[u8]) -> Vec<u8> {
    let mut list = crate::damage::commands(page);
    let attributes: Vec<usize> = (0..list.len()).filter(|&at| matches!(list[at][0], 0x24 | 0x28)).collect();
    if !attributes.is_empty() {
        list.remove(random.pick(&attributes));
    }
    list.concat()
}

/// Another page that reads, if `page` does: something added at one place.
fn changed(random: &mut Random, draft: &Draft, page: &[u8]) -> Vec<u8> {
    if random.percent(40) {
        return damage(random, page, &PAGE_COMMANDS);
    }
    let mut list = crate::damage::commands(page);
    // The later of two places is the deeper one more often.
    let place = random.from_to(1, list.len() - 1).max(random.from_to(1, list.len() - 1));
    let mut added = Vec::new();
    match random.below(5) {
        0 => added.push(0x21),
        1 => added.extend([0x21, 0x29, 0x21]),
        2 => added.extend([0x23, random.pick(&draft.elements()), 0x26]),
        _ => {
            let attribute = random.below(32) as u8;
            attribute_with_string(random, attribute, &mut added);
        }
    }
    list.insert(place, added);
    list.concat()
}

fn not_the_root(random: &mut Random, much: Much, draft: Draft, page: Vec<u8>) -> Record {
    let element = &page[..page.len() - 1];
    let page = match random.below(9) {
        0 => vec![0x27],
        8 => vec![0x29, 0x27],
        1 => [&[0x21], &page[..]].concat(),
        2 => [element, &[0x21, 0x27]].concat(),
        3 => [element, &page[..]].concat(),
        4 => vec![0x21, 0x27],
        5 => {
            let name = random.pick(&draft.elements());
            [&[0x23, name, 0x26], &page[..]].concat()
        }
        6 => {
            let name = random.pick(&draft.elements());
            [&[0x23, name], element, &[0x26, 0x27]].concat()
        }
        _ => {
            let mut page = page.clone();
            let root = page.iter().position(|&byte| byte == 0x23).unwrap();
            page[root + 1] = random.pick(&draft.elements());
            page
        }
    };
    Record { vocabulary: draft.bytes(), page: much.scatter(random, &page) }
}

fn too_deep(random: &mut Random, much: Much, mut draft: Draft, page: Vec<u8>) -> Record {
    if random.percent(8) {
        let depth = random.from_to(1025, 1030);
        let mut page = [0x23, draft.root].repeat(depth);
        page.extend([0x26].repeat(depth));
        page.push(0x27);
        return Record { vocabulary: draft.bytes(), page };
    }
    let index = random.below(draft.rules.len());
    let mut clause = Vec::new();
    let mut after = Vec::new();
    for _ in 0..random.from_to(16, 17) {
        let connective = random.pick(&[0x10, 0x11, 0x12]);
        clause.push(connective);
        if connective != 0x12 {
            if random.percent(50) {
                clause.push(0x13);
            } else {
                after.push(0x13);
            }
        }
    }
    clause.extend(much.formula(random, &draft.rules[index]));
    clause.extend(after);
    draft.rules[index].clauses.push(clause);
    Record { vocabulary: draft.bytes(), page }
}

fn too_many_facts(random: &mut Random, much: Much, mut draft: Draft, page: Vec<u8>) -> Record {
    let index = random.below(draft.rules.len());
    let least = random.from_to(8, 10);
    let clause = much.many_facts(random, &draft.rules[index], least);
    draft.rules[index].clauses.push(clause);
    Record { vocabulary: draft.bytes(), page }
}

fn damaged(random: &mut Random, draft: Draft, page: Vec<u8>) -> Record {
    let mut record = Record { vocabulary: draft.bytes(), page };
    for _ in 0..random.weighted(&[0, 60, 30, 10]) {
        if random.percent(50) {
            record.vocabulary = damage(random, &record.vocabulary, &VOCABULARY_COMMANDS);
        } else {
            record.page = damage(random, &record.page, &PAGE_COMMANDS);
        }
    }
    record
}

/// Blank text where none may stand, or before an attribute.
fn misplaced(random: &mut Random, draft: Draft, page: Vec<u8>) -> Record {
    let mut record = Record { vocabulary: draft.bytes(), page };
    let slice = if random.percent(75) { &mut record.page } else { &mut record.vocabulary };
    *slice = misplace(random, slice);
    record
}

/// Commands or bytes at random, the page perhaps under a vocabulary that reads.
fn bytes(random: &mut Random, much: Much) -> Record {
    let (draft, _) = right(random, much);
    let vocabulary = match random.below(3) {
        0 => (0..random.below(30)).map(|_| random.byte()).collect(),
        1 => (0..random.below(12)).flat_map(|_| any_command(random, &VOCABULARY_COMMANDS)).collect(),
        _ => draft.bytes(),
    };
    let page = match random.below(2) {
        0 => (0..random.below(30)).map(|_| random.byte()).collect(),
        _ => (0..random.below(12)).flat_map(|_| any_command(random, &PAGE_COMMANDS)).collect(),
    };
    Record { vocabulary, page }
}

/// One slice a byte too long: the vocabulary, or the page.
pub fn too_long(random: &mut Random, much: Much, in_page: bool) -> Record {
    let (draft, page) = right(random, much);
    let mut record = Record { vocabulary: draft.bytes(), page };
    let slice = if in_page { &mut record.page } else { &mut record.vocabulary };
    slice.resize(LONGEST + 1, much.filler());
    record
}
