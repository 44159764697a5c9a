//! Formulas that ask which attributes are there, beside their strings and the contents; and clauses of an exact number
//! of facts, `14` among them.

use crate::random::Random;
use crate::random_vocabulary::*;
use std::collections::BTreeSet;

/// A formula about few attributes and contents, so that its facts hang together.
pub fn formula(random: &mut Random, rule: &RuleDraft) -> Vec<u8> {
    match random.weighted(&[45, 35, 8, 12]) {
        0 => about_one(random, rule),
        1 => grown(random, rule),
        2 => many_facts(random, rule, 8),
        _ => {
            let count = random.from_to(3, 7);
            many_facts(random, rule, count)
        }
    }
}

/// Whether one attribute is there, with its strings, another attribute or a content.
fn about_one(random: &mut Random, rule: &RuleDraft) -> Vec<u8> {
    let attribute = an_attribute(random, rule);
    let there = vec![0x14, attribute];
    let not_there = vec![0x12, 0x14, attribute];
    let of_set = value(attribute, string_set(random));
    let connective = random.pick(&[0x10, 0x11]);
    let [left, right] = match random.below(9) {
        0 => [there, of_set],
        1 => [not_there, of_set],
        2 => [there, [&[0x12], &of_set[..]].concat()],
        3 => [of_set, value(attribute, string_set(random))],
        4 => [there, not_there],
        5 => [not_there, vec![0x14, an_attribute(random, rule)]],
        6 => [there, vec![0x15, a_content(random, rule)]],
        7 => {
            let content = a_content(random, rule);
            [not_there, vec![0x16, content, content]]
        }
        _ => return if random.percent(50) { there } else { not_there },
    };
    [&[connective], &left[..], &right].concat()
}

fn grown(random: &mut Random, rule: &RuleDraft) -> Vec<u8> {
    let count = random.from_to(2, 5);
    let leaves = (0..count).map(|_| literal(random, rule)).collect();
    joined(random, leaves)
}

/// A fact or its negation.
fn literal(random: &mut Random, rule: &RuleDraft) -> Vec<u8> {
    let leaf = leaf(random, rule);
    if random.percent(40) {
        return [&[0x12], &leaf[..]].concat();
    }
    leaf
}

fn leaf(random: &mut Random, rule: &RuleDraft) -> Vec<u8> {
    match random.weighted(&[40, 30, 15, 15]) {
        0 => vec![0x14, an_attribute(random, rule)],
        1 => value(an_attribute(random, rule), string_set(random)),
        2 => vec![0x15, a_content(random, rule)],
        _ => vec![0x16, a_content(random, rule), a_content(random, rule)],
    }
}

fn value(attribute: u8, set: u64) -> Vec<u8> {
    [&[0x17, attribute][..], &set.to_be_bytes()].concat()
}

/// A clause of exactly so many facts, at least one of them that an attribute is there. Some are asked for twice.
pub fn many_facts(random: &mut Random, rule: &RuleDraft, count: usize) -> Vec<u8> {
    let mut leaves = vec![vec![0x14, an_attribute(random, rule)]];
    while facts(&leaves) < count {
        let leaf = match random.percent(60) {
            true => leaf(random, rule),
            // What the rule allows may be too little.
            false => match random.below(3) {
                0 => vec![0x14, random.below(32) as u8],
                1 => vec![0x15, random.below(64) as u8],
                _ => value(random.below(32) as u8, string_set(random)),
            },
        };
        leaves.push(leaf);
        if facts(&leaves) > count {
            leaves.pop();
        }
    }
    for _ in 0..random.below(4) {
        let again = leaves[random.below(leaves.len())].clone();
        leaves.push(again);
    }
    random.shuffle(&mut leaves);
    for leaf in &mut leaves {
        if random.percent(30) {
            leaf.insert(0, 0x12);
        }
    }
    joined(random, leaves)
}

/// Distinct facts of commands: each itself, and the contents that it names.
fn facts(leaves: &[Vec<u8>]) -> usize {
    let mut facts = BTreeSet::new();
    for leaf in leaves {
        facts.insert(leaf.clone());
        if leaf[0] == 0x16 {
            facts.extend(leaf[1..].iter().map(|content| vec![0x15, *content]));
        }
    }
    facts.len()
}
