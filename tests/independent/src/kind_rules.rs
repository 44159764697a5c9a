//! Vocabularies under which elements are wrong in several ways: few names, attributes and strings, not all of them
//! allowed, and rules of few clauses or dozens, of which some fail. And whether that came true.

use crate::absent_facts;
use crate::exhaustive::{Faults, Found};
use crate::random::Random;
use crate::random_vocabulary::*;

pub struct Kinds {
    pub draft: Draft,
    /// What elements have, whatever their rules allow.
    pub attributes: Vec<u8>,
    pub strings: Vec<u8>,
}

impl Kinds {
    pub fn random(random: &mut Random) -> Kinds {
        let count = random.weighted(&[0, 15, 45, 30, 10]);
        let mut names = random.rising(1, 64, count);
        random.shuffle(&mut names);
        let [attributes, strings] = [(1, 3), (2, 4)].map(|(from, to)| random.from_to(from, to));
        let attributes = random.rising(0, 32, attributes);
        let strings = (0..strings).map(|_| string(random)).collect();
        let mut kinds = Kinds { draft: Draft { rules: Vec::new(), root: names[0] }, attributes, strings };
        for &element in &names {
            let rule = kinds.rule(random, element, &names);
            kinds.draft.rules.push(rule);
        }
        kinds
    }

    fn rule(&self, random: &mut Random, element: u8, names: &[u8]) -> RuleDraft {
        let mut allowed = |all: &[u8]| {
            let percent = random.pick(&[100, 100, 85, 60]);
            all.iter().copied().filter(|_| random.percent(percent)).collect::<Vec<u8>>()
        };
        let attributes = allowed(&self.attributes);
        let mut contents = allowed(&[&[0], names].concat());
        contents.sort_unstable();
        let mut rule = RuleDraft { element, attributes, contents, clauses: Vec::new() };
        let (count, doubtful) = match random.below(10) {
            0..=3 => (random.below(5), random.pick(&[20, 60, 100])),
            4..=6 => (random.from_to(4, 12), random.pick(&[10, 30])),
            _ => (random.from_to(13, 60), random.pick(&[2, 4, 8])),
        };
        let apart = if random.percent(35) { self.apart(random, names) } else { Vec::new() };
        for _ in 0..count {
            let clause = match random.percent(doubtful) {
                true if !apart.is_empty() => apart[random.below(apart.len())].clone(),
                true => self.doubtful(random, &rule, names),
                false => self.certain(random, names),
            };
            rule.clauses.push(clause);
        }
        rule
    }

    /// A clause that fails with some strings, some contents or without some attribute, and holds with others.
    fn doubtful(&self, random: &mut Random, rule: &RuleDraft, names: &[u8]) -> Vec<u8> {
        if let Some(fact) = self.not_allowed(random, rule, names) {
            return fact;
        }
        let attribute = random.pick(&self.attributes);
        let set = 1 << random.pick(&self.strings);
        let [c, d] = [0; 2].map(|_| if random.percent(30) { 0 } else { random.pick(names) });
        match random.below(14) {
            0..=3 => value(attribute, !set),
            4 => value(attribute, set),
            5 => vec![0x14, attribute],
            6 => vec![0x12, 0x14, attribute],
            7 => vec![0x15, c],
            8..=9 => vec![0x12, 0x15, c],
            10 => vec![0x16, c, c],
            11 => vec![0x16, c, d],
            12 => [&[0x11, 0x12, 0x15, c], &value(attribute, !set)[..]].concat(),
            _ => absent_facts::formula(random, rule),
        }
    }

    /// Clauses that fail each with another string of one attribute, or without it; or each with another content.
    fn apart(&self, random: &mut Random, names: &[u8]) -> Vec<Vec<u8>> {
        if random.percent(40) {
            return [&[0], names].concat().iter().map(|content| vec![0x12, 0x15, *content]).collect();
        }
        let attribute = random.pick(&self.attributes);
        let strings = self.strings.iter().map(|string| value(attribute, !(1 << string)));
        strings.chain([vec![0x14, attribute]]).collect()
    }

    /// Now and then: that something is there which isn't allowed. Then this fails in other pages than those that have it.
    fn not_allowed(&self, random: &mut Random, rule: &RuleDraft, names: &[u8]) -> Option<Vec<u8>> {
        if random.percent(70) {
            return None;
        }
        let attribute = random.pick(&self.attributes);
        let content = random.pick(names);
        match random.percent(50) {
            true => (!rule.attributes.contains(&attribute)).then(|| vec![0x14, attribute]),
            false => (!rule.contents.contains(&content)).then(|| vec![0x15, content]),
        }
    }

    /// A clause that always holds, most of them about what elements may have.
    fn certain(&self, random: &mut Random, names: &[u8]) -> Vec<u8> {
        let attribute = random.pick(&self.attributes);
        let content = random.pick(names);
        let fact = match random.below(6) {
            0 => return vec![0x13],
            1 => return [&[0x11, 0x14, attribute], &value(attribute, string_set(random))[..]].concat(),
            2 => vec![0x14, attribute],
            3 => value(attribute, string_set(random)),
            4 => vec![0x15, content],
            _ => vec![0x16, content, content],
        };
        [&[0x11, 0x12], &fact[..], &fact].concat()
    }
}

fn value(attribute: u8, set: u64) -> Vec<u8> {
    [&[0x17, attribute][..], &set.to_be_bytes()].concat()
}

/// More than one thing is wrong with the lowest wrong element, or a later element is wrong by what comes before that.
pub fn are_mixed(found: &Found) -> bool {
    let mut all = found.wrong.values().map(Faults::union);
    let Some(lowest) = all.next() else { return false };
    let ways = lowest.attribute as usize + lowest.content as usize + lowest.clauses.len();
    let comes_before =
        |later: Faults| later.attribute && !lowest.attribute || later.content && !lowest.attribute && !lowest.content;
    ways > 1 || all.any(comes_before)
}

/// In some page the lowest wrong element is wrong, but not by what is told of it.
pub fn hangs_on_pages(found: &Found) -> bool {
    let Some(lowest) = found.wrong.values().next() else { return false };
    let told = |faults: &Faults| faults.verdict(0, 0, 0);
    lowest.iter().any(|faults| told(faults) != told(&Faults::union(lowest)))
}
