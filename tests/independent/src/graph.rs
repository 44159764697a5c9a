//! The closed summary graph of a show, cut down to what takes part in whole pages.

use crate::landed::Landed;
use crate::patterns::{Patterns, WordFacts};
use crate::summary::*;
use crate::templates::{AttributeValue, Items, Templates};

pub struct Graph<'a> {
    templates: &'a Templates,
    /// The roots from which a page comes.
    pub roots: u32,
    /// The templates that stand in some page.
    pub live: u32,
    edges: [Edges; 32],
    /// Absence among them.
    strings: [Strings; 32],
    /// For each live template those that can have it among their outermost items.
    outer_users: [u32; 32],
    /// The contents that can stand among the outermost items of each live template.
    pub outer_contents: [u64; 32],
}

impl<'a> Graph<'a> {
    pub fn new(templates: &'a Templates, summary: &Summary, landed: Landed) -> Graph<'a> {
        let mut graph = Graph {
            templates,
            roots: summary.roots,
            live: 0,
            edges: [[0; 8]; 32],
            strings: [[0; 8]; 32],
            outer_users: [0; 32],
            outer_contents: [0; 32],
        };
        for template in 0..templates.list.len() {
            graph.edges[template] = *summary.edges(template);
            graph.strings[template] = *summary.strings(template);
        }
        graph.close(summary, landed);
        graph.keep_ending();
        graph.find_live();
        graph.find_outer_contents();
        graph
    }

    /// An open gap may get nothing; the attribute of an open attribute gap may go.
    fn close(&mut self, summary: &Summary, landed: Landed) {
        for gap in 0..8 {
            for origin in members(summary.origins[gap]) {
                self.edges[origin][gap] |= 1;
            }
            for origin in members(summary.attribute_origins[gap]) {
                self.strings[origin][gap] |= landed.taken();
            }
        }
    }

    /// Drops the templates that never end or have a gap with nothing to take.
    fn keep_ending(&mut self) {
        let mut ending = 0u32;
        loop {
            let mut now = ending;
            for template in 0..self.templates.list.len() {
                now |= (self.ends(template, now) as u32) << template;
            }
            if now == ending {
                break;
            }
            ending = now;
        }
        self.roots &= ending;
        for edges in &mut self.edges {
            edges.iter_mut().for_each(|to| *to &= ending);
        }
    }

    fn ends(&self, template: usize, ending: u32) -> bool {
        let at = &self.templates.list[template];
        members(at.gaps.into()).all(|gap| self.edges[template][gap] & ending != 0)
            && members(at.attribute_gaps.into()).all(|gap| self.strings[template][gap] != 0)
    }

    fn find_live(&mut self) {
        let mut due = self.roots;
        while due != 0 {
            let template = due.trailing_zeros() as usize;
            self.live |= 1 << template;
            let at = &self.templates.list[template];
            for gap in members(at.gaps.into()) {
                due |= self.edges[template][gap];
            }
            for user_of in members(self.targets(template, &at.items)) {
                self.outer_users[user_of] |= 1 << template;
            }
            due &= !self.live;
        }
    }

    /// The templates that the gaps of a list of items can take.
    fn targets(&self, template: usize, items: &Items) -> u32 {
        members(items.gaps.into()).fold(0, |all, gap| all | self.edges[template][gap])
    }

    fn find_outer_contents(&mut self) {
        let mut due = self.live;
        while due != 0 {
            let template = due.trailing_zeros() as usize;
            due &= due - 1;
            let contents = self.contents(template, &self.templates.list[template].items);
            if contents != self.outer_contents[template] {
                self.outer_contents[template] = contents;
                due |= self.outer_users[template];
            }
        }
    }

    /// The contents that a list of items can have.
    pub fn contents(&self, template: usize, items: &Items) -> u64 {
        let targets = self.targets(template, items);
        members(targets).fold(items.contents, |all, target| all | self.outer_contents[target])
    }

    /// The patterns of each live template's outermost items: from empty sets, each worked out again while a set that it
    /// takes from has grown.
    pub fn patterns(&self, facts: &WordFacts) -> [Patterns; 32] {
        if facts.are_none() {
            return [Patterns::one(0); 32];
        }
        let mut sets = [Patterns::NONE; 32];
        let mut due = self.live;
        while due != 0 {
            let template = due.trailing_zeros() as usize;
            due &= due - 1;
            let set = self.patterns_of(facts, &sets, template, &self.templates.list[template].items);
            if set != sets[template] {
                sets[template] = set;
                due |= self.outer_users[template];
            }
        }
        sets
    }

    /// The patterns of a list of items in a template.
    pub fn patterns_of(&self, facts: &WordFacts, sets: &[Patterns; 32], template: usize, items: &Items) -> Patterns {
        let mut gaps = [Patterns::NONE; 8];
        for gap in members(items.gaps.into()) {
            for target in members(self.edges[template][gap]) {
                gaps[gap] = gaps[gap].union(&sets[target]);
            }
        }
        facts.of_items(self.templates.items(items), &gaps)
    }

    /// The strings that a value can be, and absence.
    pub fn strings(&self, template: usize, value: AttributeValue) -> StringSet {
        match value {
            AttributeValue::String(string) => 1 << string,
            AttributeValue::Gap(gap) => self.strings[template][gap as usize],
        }
    }
}
