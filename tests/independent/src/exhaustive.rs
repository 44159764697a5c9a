//! Verdicts on shows by the definitions alone: the pages of a language one after another, and each element looked at by
//! itself. All of them where they are few; else some, which still tell what must be refused. And verdicts on single pages
//! in the same way.

use crate::damage::operands;
use crate::job::Job;
use crate::judge::judge_page;
use crate::landed::Landed;
use crate::language::closed;
use crate::reader::*;
use crate::summary::*;
use crate::vocabulary::{Node, Vocabulary};
use std::collections::{BTreeMap, BTreeSet};
use std::rc::Rc;

/// Most rounds, derivations of one list of items, and pages that are judged besides.
const ROUNDS: usize = 8;
const DERIVATIONS: usize = 2_000;
const JUDGED: usize = 40;

#[derive(Clone)]
enum Item {
    Text,
    Element(Rc<Element>),
}

struct Element {
    /// Where its `23` stands in the job, and in which template.
    template: usize,
    at: u32,
    name: u8,
    attributes: Attributes,
    items: Vec<Item>,
    faults: Faults,
}

/// All that is wrong with an element in a page.
#[derive(Clone, Default, PartialEq, Eq, PartialOrd, Ord, Debug)]
pub struct Faults {
    pub attribute: bool,
    pub content: bool,
    /// The places of the clauses that fail.
    pub clauses: BTreeSet<u32>,
}

impl Faults {
    /// All that is wrong in some page.
    pub fn union<'a>(all: impl IntoIterator<Item = &'a Faults>) -> Faults {
        let mut union = Faults::default();
        for faults in all {
            union.attribute |= faults.attribute;
            union.content |= faults.content;
            union.clauses.extend(&faults.clauses);
        }
        union
    }

    fn are_none(&self) -> bool {
        !self.attribute && !self.content && self.clauses.is_empty()
    }

    pub fn verdict(&self, point: u32, template: u32, offset: u32) -> Verdict {
        if self.attribute {
            [WRONG_ATTRIBUTE, point, template, offset]
        } else if self.content {
            [WRONG_CONTENT, point, template, offset]
        } else {
            [WRONG_CLAUSE, point, *self.clauses.first().unwrap(), offset]
        }
    }
}

/// Attributes with their strings, 64 for one outside 0-63.
type Attributes = Vec<(u8, u8)>;

struct Derivations<'a> {
    job: &'a Job,
    bytes: &'a [u8],
    closed: Summary,
    /// Lists of items that come of each template, as far as found.
    found: Vec<Vec<Vec<Item>>>,
    /// Some were left out.
    cut: bool,
}

/// What was found of the pages of a show.
pub struct Found {
    /// 11, 12, 14 or 15 if a page asks for it, else acceptance.
    pub verdict: Verdict,
    /// These are all pages.
    pub complete: bool,
    pub pages: usize,
    /// The wrong elements by offset and template, with what is wrong with each in one page or another.
    pub wrong: BTreeMap<(u32, usize), BTreeSet<Faults>>,
}

impl Found {
    /// Another page may be the reason of a verdict before this one, if these are not all.
    pub fn allows(&self, verdict: Verdict) -> bool {
        let order = |[number, _, b, c]: Verdict| match number {
            NOT_THE_ROOT => (0, b, 0, 0),
            WRONG_ATTRIBUTE | WRONG_CONTENT => (1, c, number, 0),
            WRONG_CLAUSE => (1, c, number, b),
            _ => (2, 0, 0, 0),
        };
        verdict == self.verdict || !self.complete && order(verdict) < order(self.verdict)
    }

    fn note(&mut self, page: &[Item]) {
        self.pages += 1;
        wrong_elements(page, &mut |element| {
            let at = (element.at, element.template);
            self.wrong.entry(at).or_default().insert(element.faults.clone());
        });
    }

    /// Once all pages are noted. The root template with a page that is not the root comes first.
    fn settle(&mut self, point: usize, not_the_root: Option<usize>) {
        if let Some(root) = not_the_root {
            self.verdict = [NOT_THE_ROOT, point as u32, root as u32, 0];
        } else if let Some((&(offset, template), faults)) = self.wrong.first_key_value() {
            self.verdict = Faults::union(faults).verdict(point as u32, template as u32, offset);
        }
    }
}

/// Looks at a page that reads.
pub fn found_in_page(vocabulary: &Vocabulary, page: &[u8]) -> Found {
    let items = items(vocabulary, page, &mut 0);
    let mut found = Found { verdict: ACCEPTED, complete: true, pages: 0, wrong: BTreeMap::new() };
    found.note(&items);
    found.settle(0, (!is_the_root(vocabulary, &items)).then_some(0));
    found
}

/// Panics where the verdict on a page that reads is another.
pub fn assert_page(vocabulary: &[u8], page: &[u8], verdict: Verdict) {
    if verdict != ACCEPTED && verdict[0] < NOT_THE_ROOT {
        return;
    }
    let Ok(vocabulary) = Vocabulary::read_whole(vocabulary, Landed::NOW) else { unreachable!() };
    assert_eq!(found_in_page(&vocabulary, page).verdict, verdict, "page {page:02X?}");
}

/// A list of items of a page, up to the `26` or `27` after it.
fn items(vocabulary: &Vocabulary, page: &[u8], at: &mut usize) -> Vec<Item> {
    let mut list = Vec::new();
    loop {
        match page[*at] {
            0x21 => list.push(Item::Text),
            0x23 => list.push(Item::Element(Rc::new(element(vocabulary, page, at)))),
            0x26 | 0x27 => return list,
            _ => {}
        }
        *at += 1;
    }
}

/// From the `23` on; the position is left on the `26`.
fn element(vocabulary: &Vocabulary, page: &[u8], at: &mut usize) -> Element {
    let (offset, name) = (*at as u32, page[*at + 1]);
    *at += 2;
    let mut attributes = Vec::new();
    while matches!(page[*at], 0x24 | 0x28) {
        let string = if page[*at] == 0x24 { page[*at + 2] } else { 64 };
        attributes.push((page[*at + 1], string));
        *at += 1 + operands(page[*at]);
    }
    let items = items(vocabulary, page, at);
    let faults = faults(vocabulary, name, &attributes, &word(&items));
    Element { template: 0, at: offset, name, attributes, items, faults }
}

/// Looks at the show of a point. Nothing if there is none.
pub fn found(job: &Job, bytes: &[u8], point: usize) -> Option<Found> {
    let closed = closed(job, point)?;
    let mut derivations =
        Derivations { job, bytes, closed, found: vec![Vec::new(); job.templates.list.len()], cut: false };
    let complete = derivations.rounds();
    let mut found = Found { verdict: ACCEPTED, complete, pages: 0, wrong: BTreeMap::new() };
    let mut not_the_root = None;
    for root in members(derivations.closed.roots) {
        for page in &derivations.found[root] {
            found.note(page);
            assert_judged(job, page, found.pages);
            if !is_the_root(&job.vocabulary, page) {
                not_the_root = not_the_root.or(Some(root));
            }
        }
    }
    found.settle(point, not_the_root);
    Some(found)
}

impl Derivations<'_> {
    /// Each round takes what the round before found, from nothing on. Tells whether all is found.
    fn rounds(&mut self) -> bool {
        for _ in 0..ROUNDS {
            let next: Vec<_> = (0..self.found.len()).map(|template| self.template(template)).collect();
            let count = |found: &Vec<Vec<Vec<Item>>>| found.iter().map(Vec::len).sum::<usize>();
            let same = count(&next) == count(&self.found);
            self.found = next;
            if same {
                return !self.cut;
            }
        }
        false
    }

    fn template(&mut self, template: usize) -> Vec<Vec<Item>> {
        let mut at = self.job.templates.list[template].bytes.start;
        self.items(template, &mut at)
    }

    /// The derivations of a list of items, up to the `26` or `27` after it.
    fn items(&mut self, template: usize, at: &mut usize) -> Vec<Vec<Item>> {
        let mut lists = vec![Vec::new()];
        // The empty template has no bytes.
        while template != 0 && !matches!(self.bytes[*at], 0x26 | 0x27) {
            let [command, operand] = [self.bytes[*at], self.bytes[*at + 1]];
            let options = match command {
                0x21 => vec![vec![Item::Text]],
                0x22 => {
                    let edges = members(self.closed.edges(template)[operand as usize]);
                    edges.flat_map(|target| self.found[target].iter().cloned()).collect()
                }
                0x23 => self.element(template, at),
                _ => vec![Vec::new()],
            };
            *at += 1 + operands(command);
            lists = self.product(&lists, &options);
        }
        lists
    }

    /// From the `23` on; the position is left so that it moves past the `26`.
    fn element(&mut self, template: usize, at: &mut usize) -> Vec<Vec<Item>> {
        let offset = *at;
        let name = self.bytes[offset + 1];
        *at += 2;
        let mut attributes: Vec<Attributes> = vec![Vec::new()];
        while matches!(self.bytes[*at], 0x24 | 0x25) {
            let [command, attribute, value] = [0, 1, 2].map(|index| self.bytes[*at + index]);
            *at += 3;
            let taken = match command {
                0x24 => 1 << value,
                _ => self.closed.strings(template)[value as usize],
            };
            let strings = (0..65).filter(|string| taken >> string & 1 == 1);
            let mut options: Vec<Attributes> = strings.map(|string| vec![(attribute, string)]).collect();
            if taken & ABSENT != 0 {
                options.push(Vec::new());
            }
            attributes = self.product(&attributes, &options);
        }
        let lists = self.items(template, at);
        *at -= 1;
        let mut elements = Vec::new();
        for attributes in &attributes {
            for items in &lists {
                if elements.len() == DERIVATIONS {
                    self.cut = true;
                    return elements;
                }
                let element = Element {
                    template,
                    at: offset as u32,
                    name,
                    attributes: attributes.clone(),
                    items: items.clone(),
                    faults: faults(&self.job.vocabulary, name, attributes, &word(items)),
                };
                elements.push(vec![Item::Element(Rc::new(element))]);
            }
        }
        elements
    }

    /// Each of the first, then each of the second.
    fn product<T: Clone>(&mut self, first: &[Vec<T>], second: &[Vec<T>]) -> Vec<Vec<T>> {
        self.cut |= first.len() * second.len() > DERIVATIONS;
        let both = first.iter().flat_map(|start| second.iter().map(move |end| [&start[..], end].concat()));
        both.take(DERIVATIONS).collect()
    }
}

/// The contents of a list of items, in their order.
fn word(items: &[Item]) -> Vec<u8> {
    let content = |item: &Item| match item {
        Item::Text => 0,
        Item::Element(element) => element.name,
    };
    items.iter().map(content).collect()
}

fn is_the_root(vocabulary: &Vocabulary, page: &[Item]) -> bool {
    word(page) == [vocabulary.root]
}

fn wrong_elements(items: &[Item], note: &mut impl FnMut(&Element)) {
    for item in items {
        let Item::Element(element) = item else { continue };
        if !element.faults.are_none() {
            note(element);
        }
        wrong_elements(&element.items, note);
    }
}

/// Attributes and contents that aren't allowed, and clauses that fail.
fn faults(vocabulary: &Vocabulary, name: u8, attributes: &Attributes, word: &[u8]) -> Faults {
    let rule = &vocabulary.rules[name as usize];
    let mut faults = Faults {
        attribute: attributes.iter().any(|(attribute, _)| rule.attributes >> attribute & 1 == 0),
        content: word.iter().any(|content| rule.contents >> content & 1 == 0),
        clauses: BTreeSet::new(),
    };
    let mut nodes = &vocabulary.nodes[rule.from as usize..rule.to as usize];
    let mut place = 0;
    while let [Node::Clause, rest @ ..] = nodes {
        nodes = rest;
        if !holds(&mut nodes, attributes, word) {
            faults.clauses.insert(place);
        }
        place += 1;
    }
    faults
}

/// One formula in prefix order, by the words of the papers.
fn holds(nodes: &mut &[Node], attributes: &Attributes, word: &[u8]) -> bool {
    let [node, rest @ ..] = *nodes else { unreachable!() };
    *nodes = rest;
    let string = |a: u8| attributes.iter().find(|(attribute, _)| *attribute == a).map(|(_, string)| *string);
    match *node {
        Node::Clause => unreachable!(),
        Node::And => holds(nodes, attributes, word) & holds(nodes, attributes, word),
        Node::Or => holds(nodes, attributes, word) | holds(nodes, attributes, word),
        Node::Not => !holds(nodes, attributes, word),
        Node::True => true,
        Node::Attribute(attribute) => string(attribute).is_some(),
        Node::Content(content) => word.contains(&content),
        Node::Order(later, earlier) => {
            let first = word.iter().position(|content| *content == earlier).unwrap_or(word.len());
            !word.iter().skip(first + 1).any(|content| *content == later)
        }
        Node::Value(attribute, set) => string(attribute).is_none_or(|string| string < 64 && set >> string & 1 == 1),
    }
}

/// The first pages are judged besides, and must get the same verdict so.
fn assert_judged(job: &Job, page: &[Item], count: usize) {
    if count > JUDGED {
        return;
    }
    let mut bytes = Vec::new();
    let mut wrong = None;
    write(page, &mut bytes, &mut wrong);
    bytes.push(0x27);
    let expected = match wrong {
        _ if !is_the_root(&job.vocabulary, page) => [NOT_THE_ROOT, 0, 0, 0],
        Some((offset, faults)) => faults.verdict(0, 0, offset),
        None => ACCEPTED,
    };
    let verdict = judge_page(&job.vocabulary, &bytes, Landed::NOW);
    // A page that is long or deep can't be read.
    assert!(verdict == expected || matches!(verdict[0], TOO_LONG | TOO_MANY), "{verdict:?} on page {bytes:02X?}");
}

/// The items as bytes, and the first offset of a wrong element with what is wrong there.
fn write<'a>(items: &'a [Item], bytes: &mut Vec<u8>, wrong: &mut Option<(u32, &'a Faults)>) {
    for item in items {
        let Item::Element(element) = item else {
            bytes.push(0x21);
            continue;
        };
        if !element.faults.are_none() {
            wrong.get_or_insert((bytes.len() as u32, &element.faults));
        }
        bytes.extend([0x23, element.name]);
        for &(attribute, string) in &element.attributes {
            match string {
                64 => bytes.extend([0x28, attribute]),
                _ => bytes.extend([0x24, attribute, string]),
            }
        }
        write(&element.items, bytes, wrong);
        bytes.push(0x26);
    }
}
