//! Patterns: which facts of a clause hold, one bit each. The lowest bits are the contents that are there, rising; then
//! come the pairs that are out of order; then the attributes that are there, and those that are absent or whose string
//! is of the set.

use crate::landed::Landed;
use crate::summary::{StringSet, ABSENT, ANY_STRING};
use crate::templates::GAP;
use crate::vocabulary::Node;

pub type Pattern = u8;

/// A set of patterns.
#[derive(Clone, Copy, PartialEq, Eq, Debug)]
pub struct Patterns([u64; 4]);

impl Patterns {
    pub const NONE: Patterns = Patterns([0; 4]);
    pub const ALL: Patterns = Patterns([u64::MAX; 4]);

    pub fn one(pattern: Pattern) -> Patterns {
        let mut set = Patterns::NONE;
        set.insert(pattern);
        set
    }

    #[inline]
    pub fn insert(&mut self, pattern: Pattern) {
        self.0[pattern as usize >> 6] |= 1 << (pattern & 63);
    }

    pub fn has(&self, pattern: Pattern) -> bool {
        self.0[pattern as usize >> 6] >> (pattern & 63) & 1 == 1
    }

    pub fn union(&self, other: &Patterns) -> Patterns {
        Patterns(std::array::from_fn(|word| self.0[word] | other.0[word]))
    }

    fn intersection(&self, other: &Patterns) -> Patterns {
        Patterns(std::array::from_fn(|word| self.0[word] & other.0[word]))
    }

    fn complement(&self) -> Patterns {
        Patterns(self.0.map(|word| !word))
    }

    pub fn within(&self, other: &Patterns) -> bool {
        (0..4).all(|word| self.0[word] & !other.0[word] == 0)
    }

    pub fn members(&self) -> impl Iterator<Item = Pattern> + '_ {
        self.0.iter().enumerate().flat_map(|(index, &word)| {
            let mut left = word;
            std::iter::from_fn(move || {
                if left == 0 {
                    return None;
                }
                let low = left.trailing_zeros();
                left &= left - 1;
                Some((index as u32 * 64 + low) as Pattern)
            })
        })
    }

    /// All patterns that have a given bit.
    fn with_bit(bit: u32) -> Patterns {
        const LOW: [u64; 6] = [
            0xAAAA_AAAA_AAAA_AAAA,
            0xCCCC_CCCC_CCCC_CCCC,
            0xF0F0_F0F0_F0F0_F0F0,
            0xFF00_FF00_FF00_FF00,
            0xFFFF_0000_FFFF_0000,
            0xFFFF_FFFF_0000_0000,
        ];
        match bit {
            0..=5 => Patterns([LOW[bit as usize]; 4]),
            6 => Patterns([0, u64::MAX, 0, u64::MAX]),
            _ => Patterns([0, 0, u64::MAX, u64::MAX]),
        }
    }
}

/// The content and pair facts of a clause.
#[derive(Clone, Copy, PartialEq, Eq, PartialOrd, Ord, Debug)]
pub struct WordFacts {
    contents: u64,
    /// For each content, rising, the pairs that it breaks if it stands first, and if it stands later.
    earlier: [Pattern; 8],
    later: [Pattern; 8],
}

impl WordFacts {
    /// In each pair no second one may stand before a first one.
    pub fn new(contents: u64, pairs: &[(u8, u8)]) -> WordFacts {
        let mut facts = WordFacts { contents, earlier: [0; 8], later: [0; 8] };
        for (index, &(later, earlier)) in pairs.iter().enumerate() {
            let bit = 1 << (facts.pair_bit(index));
            facts.later[facts.content_bit(later) as usize] |= bit;
            facts.earlier[facts.content_bit(earlier) as usize] |= bit;
        }
        facts
    }

    pub fn are_none(&self) -> bool {
        self.contents == 0
    }

    fn content_bit(&self, content: u8) -> u32 {
        (self.contents & ((1 << content) - 1)).count_ones()
    }

    fn pair_bit(&self, index: usize) -> u32 {
        self.contents.count_ones() + index as u32
    }

    fn broken_after(&self, pattern: Pattern, by: &[Pattern; 8]) -> Pattern {
        let mut left = pattern & ((1u32 << self.contents.count_ones()) - 1) as u8;
        let mut pairs = 0;
        while left != 0 {
            pairs |= by[left.trailing_zeros() as usize];
            left &= left - 1;
        }
        pairs
    }

    fn then_content(&self, set: &Patterns, content: u8) -> Patterns {
        let bit = self.content_bit(content);
        let later = self.later[bit as usize];
        let mut result = Patterns::NONE;
        for pattern in set.members() {
            result.insert(pattern | 1 << bit | self.broken_after(pattern, &self.earlier) & later);
        }
        result
    }

    fn then(&self, set: &Patterns, next: &Patterns) -> Patterns {
        let mut list = [(0, 0); 256];
        let mut count = 0;
        for pattern in next.members() {
            list[count] = (pattern, self.broken_after(pattern, &self.later));
            count += 1;
        }
        let mut result = Patterns::NONE;
        for pattern in set.members() {
            let earlier = self.broken_after(pattern, &self.earlier);
            for &(next, later) in &list[..count] {
                result.insert(pattern | next | earlier & later);
            }
        }
        result
    }

    /// The patterns that a list of items can have, given those of each gap.
    pub fn of_items(&self, items: &[u8], gaps: &[Patterns; 8]) -> Patterns {
        let mut set = Patterns::one(0);
        // Long lists soon meet the same set at the same gap again.
        let mut before = [(Patterns::NONE, Patterns::NONE); 8];
        for &item in items {
            if item < GAP {
                if self.contents >> item & 1 == 1 {
                    set = self.then_content(&set, item);
                }
                continue;
            }
            let gap = (item - GAP) as usize;
            if before[gap].0 != set {
                before[gap] = (set, self.then(&set, &gaps[gap]));
            }
            set = before[gap].1;
        }
        set
    }
}

/// One clause of a rule, with its facts in the order of the pattern's bits.
pub struct Clause {
    pub element: u8,
    /// Among the clauses of its rule, from 0.
    pub place: u32,
    pub word: WordFacts,
    pairs: Vec<(u8, u8)>,
    /// Attributes with the strings, absence among them, for which a fact about them holds: rising, so that those of one
    /// attribute stand together.
    attributes: Vec<(u8, StringSet)>,
    nodes: std::ops::Range<usize>,
    /// The patterns under which it holds, unless presence is asked for and is no fact.
    holds: Option<Patterns>,
}

impl Clause {
    pub fn new(element: u8, place: u32, all: &[Node], nodes: std::ops::Range<usize>, landed: Landed) -> Clause {
        let mut hangs_on_element = false;
        let mut contents = 0u64;
        let mut pairs = Vec::new();
        let mut attributes = Vec::new();
        for node in &all[nodes.clone()] {
            match *node {
                Node::Clause | Node::And | Node::Or | Node::Not | Node::True => {}
                Node::Attribute(_) if landed == Landed::F4 => hangs_on_element = true,
                Node::Attribute(attribute) => attributes.push((attribute, ANY_STRING)),
                Node::Content(content) => contents |= 1 << content,
                Node::Order(later, earlier) => {
                    contents |= 1 << later | 1 << earlier;
                    pairs.push((later, earlier));
                }
                Node::Value(attribute, set) => attributes.push((attribute, of_set(set))),
            }
        }
        pairs.sort_unstable();
        pairs.dedup();
        attributes.sort_unstable();
        attributes.dedup();
        let word = WordFacts::new(contents, &pairs);
        let mut clause = Clause { element, place, word, pairs, attributes, nodes, holds: None };
        if !hangs_on_element {
            clause.holds = Some(clause.evaluate(all, 0));
        }
        clause
    }

    /// The patterns under which the clause holds for an element with these attributes.
    pub fn holds(&self, all: &[Node], attributes: u32) -> Patterns {
        self.holds.unwrap_or_else(|| self.evaluate(all, attributes))
    }

    /// The formula over all patterns at once. As in judging, prefix order is taken from its end.
    fn evaluate(&self, all: &[Node], attributes: u32) -> Patterns {
        let mut stack = [Patterns::NONE; 20];
        let mut top = 0;
        for node in all[self.nodes.clone()].iter().rev() {
            let leaf = match *node {
                Node::Clause => break,
                Node::And | Node::Or => {
                    let (left, right) = (stack[top], stack[top - 1]);
                    top -= 1;
                    stack[top] = if *node == Node::And { left.intersection(&right) } else { left.union(&right) };
                    continue;
                }
                Node::Not => {
                    stack[top] = stack[top].complement();
                    continue;
                }
                Node::True => Patterns::ALL,
                Node::Attribute(attribute) => match self.attribute_fact(attribute, ANY_STRING) {
                    Some(bit) => Patterns::with_bit(bit),
                    None if attributes >> attribute & 1 == 1 => Patterns::ALL,
                    None => Patterns::NONE,
                },
                Node::Content(content) => Patterns::with_bit(self.word.content_bit(content)),
                Node::Order(later, earlier) => {
                    let index = self.pairs.binary_search(&(later, earlier)).unwrap();
                    Patterns::with_bit(self.word.pair_bit(index)).complement()
                }
                Node::Value(attribute, set) => Patterns::with_bit(self.attribute_fact(attribute, of_set(set)).unwrap()),
            };
            top += 1;
            stack[top] = leaf;
        }
        stack[top]
    }

    fn attribute_bit(&self, index: usize) -> u32 {
        self.word.pair_bit(self.pairs.len() + index)
    }

    /// The bit of the fact that an attribute has one of these strings.
    fn attribute_fact(&self, attribute: u8, strings: StringSet) -> Option<u32> {
        let index = self.attributes.binary_search(&(attribute, strings)).ok()?;
        Some(self.attribute_bit(index))
    }

    /// The patterns of attributes that can stand together. `strings` gives those that an attribute can have, and absence.
    pub fn of_attributes(&self, strings: impl Fn(u8) -> StringSet) -> Patterns {
        let mut result = Patterns::one(0);
        let mut first = 0;
        for facts in self.attributes.chunk_by(|a, b| a.0 == b.0) {
            let bit = |index: usize| 1u8 << self.attribute_bit(first + index);
            let own = of_strings(strings(facts[0].0), facts, bit);
            let mut joined = Patterns::NONE;
            for pattern in result.members() {
                own.members().for_each(|other| joined.insert(pattern | other));
            }
            result = joined;
            first += facts.len();
        }
        result
    }
}

/// What `17` lets through: absence, and the strings of its set.
fn of_set(set: u64) -> StringSet {
    set as StringSet | ABSENT
}

/// Steps through the strings of a set, leaving out at once all that have the pattern of one met before.
fn of_strings(strings: StringSet, facts: &[(u8, StringSet)], bit: impl Fn(usize) -> Pattern) -> Patterns {
    let mut result = Patterns::NONE;
    let mut left = strings;
    while left != 0 {
        let string = left.trailing_zeros();
        let mut pattern = 0;
        let mut alike = left;
        for (index, &(_, set)) in facts.iter().enumerate() {
            if set >> string & 1 == 1 {
                pattern |= bit(index);
                alike &= set;
            } else {
                alike &= !set;
            }
        }
        result.insert(pattern);
        left &= !alike;
    }
    result
}
