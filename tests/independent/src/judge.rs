//! Judging one page: reading and judging go over the page once, without recursion.

use crate::landed::Landed;
use crate::reader::*;
use crate::vocabulary::*;
use crate::wrong::Wrong;

const PAGE_NESTING: usize = 1024;

/// The verdict on a page under a vocabulary.
pub fn judge(vocabulary: &[u8], page: &[u8]) -> Verdict {
    judge_as(vocabulary, page, Landed::NOW)
}

pub fn judge_as(vocabulary: &[u8], page: &[u8], landed: Landed) -> Verdict {
    let vocabulary = match Vocabulary::read_whole(vocabulary, landed) {
        Ok(vocabulary) => vocabulary,
        Err(fault) => return fault.verdict(0),
    };
    judge_page(&vocabulary, page, landed)
}

/// The same for a vocabulary that has been read.
pub fn judge_page(vocabulary: &Vocabulary, page: &[u8], landed: Landed) -> Verdict {
    let mut judge = Judge::new(vocabulary, page, PAGE_NESTING);
    match Reader::new(page).and_then(|mut reader| judge.read(&mut reader)) {
        Err(fault) => fault.verdict(1),
        Ok(()) if !judge.is_the_root() => [NOT_THE_ROOT, 0, 0, 0],
        Ok(()) if judge.wrong == NONE_WRONG => ACCEPTED,
        Ok(()) => judge.wrong.1.verdict(0, 0, judge.wrong.0, landed),
    }
}

/// Whether a page that a run shows is right. It has the form of a page, and may be of any length and depth.
pub fn is_right(vocabulary: &Vocabulary, page: &[u8]) -> bool {
    let mut judge = Judge::new(vocabulary, page, usize::MAX);
    let read = judge.read(&mut Reader::of_any_length(page));
    read.is_ok() && judge.is_the_root() && judge.wrong == NONE_WRONG
}

const NONE_WRONG: (u32, Wrong) = (u32::MAX, Wrong::Attribute);

struct Open {
    at: u32,
    element: u8,
    attributes: u32,
    contents: u64,
    /// Where this element's contents start in `Judge::words`.
    word: u32,
}

struct Judge<'a> {
    vocabulary: &'a Vocabulary,
    page: &'a [u8],
    /// Most elements open at once.
    nesting: usize,
    open: Vec<Open>,
    /// The contents so far of the open elements whose rules ask for order.
    words: Vec<u8>,
    /// First and last place of each content of the element being judged, if it is there at all.
    first: [u32; 64],
    last: [u32; 64],
    /// The string of each attribute as a set; an absent one counts as every string, one outside 0-63 as none.
    strings: [u64; 32],
    /// Contents of the page itself, and how many of them are the root.
    outer: u32,
    outer_roots: u32,
    /// The lowest offset of a wrong element, and what is wrong with that one.
    wrong: (u32, Wrong),
}

impl<'a> Judge<'a> {
    fn new(vocabulary: &'a Vocabulary, page: &'a [u8], nesting: usize) -> Judge<'a> {
        Judge {
            vocabulary,
            page,
            nesting,
            open: Vec::with_capacity(16),
            words: Vec::new(),
            first: [0; 64],
            last: [0; 64],
            strings: [u64::MAX; 32],
            outer: 0,
            outer_roots: 0,
            wrong: NONE_WRONG,
        }
    }

    fn is_the_root(&self) -> bool {
        self.outer == 1 && self.outer_roots == 1
    }

    fn read(&mut self, reader: &mut Reader) -> Result<(), Fault> {
        loop {
            let at = reader.at;
            match reader.command()? {
                0x21 => {
                    reader.at += 1;
                    self.content(0);
                }
                // Blank text is an item, but no content.
                0x29 => reader.at += 1,
                0x23 => self.element(reader)?,
                0x26 => {
                    reader.at += 1;
                    let Some(open) = self.open.pop() else {
                        return Err(Fault::new(NOT_ALLOWED, at));
                    };
                    self.close(open);
                }
                0x27 if self.open.is_empty() => {
                    reader.at += 1;
                    return reader.end();
                }
                _ => return Err(Fault::new(NOT_ALLOWED, at)),
            }
        }
    }

    fn element(&mut self, reader: &mut Reader) -> Result<(), Fault> {
        let at = reader.at;
        let [element] = reader.operands()?;
        if element == 0 || element >= CONTENTS {
            return Err(Fault::new(OUT_OF_RANGE, at));
        }
        if !self.vocabulary.has_rule(element) {
            return Err(Fault::new(NOT_THERE, at));
        }
        if self.open.len() == self.nesting {
            return Err(Fault::new(TOO_MANY, at));
        }
        self.content(element);
        let attributes = attributes(reader)?;
        if attributes & !self.vocabulary.rules[element as usize].attributes != 0 {
            self.note(at as u32, Wrong::Attribute);
        }
        let word = self.words.len() as u32;
        self.open.push(Open { at: at as u32, element, attributes, contents: 0, word });
        Ok(())
    }

    /// One more content of the innermost open element, or of the page.
    #[inline]
    fn content(&mut self, content: u8) {
        let Some(open) = self.open.last_mut() else {
            self.outer += 1;
            self.outer_roots += (content == self.vocabulary.root) as u32;
            return;
        };
        open.contents |= 1 << content;
        if self.vocabulary.rules[open.element as usize].has_order {
            self.words.push(content);
        }
    }

    fn close(&mut self, open: Open) {
        let rule = self.vocabulary.rules[open.element as usize];
        if open.contents & !rule.contents != 0 {
            self.note(open.at, Wrong::Content);
        } else if let Some(place) = self.failing(&rule, &open) {
            self.note(open.at, Wrong::Clause(place));
        }
        self.words.truncate(open.word as usize);
    }

    /// The lowest element counts, then what comes first of all that is wrong with it.
    fn note(&mut self, at: u32, wrong: Wrong) {
        self.wrong = self.wrong.min((at, wrong));
    }

    /// The lowest clause that fails. None is looked for where this element or one before it is known to be wrong.
    fn failing(&mut self, rule: &Rule, open: &Open) -> Option<u32> {
        if rule.clauses == 0 || self.wrong.0 <= open.at {
            return None;
        }
        if rule.has_order {
            self.note_places(open.word as usize);
        }
        if !rule.has_value {
            return self.clauses(rule, open);
        }
        self.note_strings(open.at as usize + 2);
        let failing = self.clauses(rule, open);
        let mut left = open.attributes;
        while left != 0 {
            self.strings[left.trailing_zeros() as usize] = u64::MAX;
            left &= left - 1;
        }
        failing
    }

    fn note_places(&mut self, word: usize) {
        let mut seen = 0u64;
        for (place, &content) in self.words[word..].iter().enumerate() {
            if seen >> content & 1 == 0 {
                seen |= 1 << content;
                self.first[content as usize] = place as u32;
            }
            self.last[content as usize] = place as u32;
        }
    }

    /// The attributes at `at` have been read before; they are taken from the page once more.
    fn note_strings(&mut self, mut at: usize) {
        loop {
            match self.page[at] {
                0x24 => {
                    self.strings[self.page[at + 1] as usize] = 1 << self.page[at + 2];
                    at += 3;
                }
                0x28 => {
                    self.strings[self.page[at + 1] as usize] = 0;
                    at += 2;
                }
                _ => return,
            }
        }
    }

    /// Prefix order taken from its end needs only a stack of truth values: bits, the top one lowest.
    fn clauses(&self, rule: &Rule, open: &Open) -> Option<u32> {
        let mut failing = None;
        let mut place = rule.clauses;
        let mut stack = 0u64;
        for node in self.vocabulary.nodes[rule.from as usize..rule.to as usize].iter().rev() {
            let holds = match *node {
                Node::Clause => {
                    place -= 1;
                    if stack & 1 == 0 {
                        failing = Some(place);
                    }
                    continue;
                }
                Node::And => {
                    stack = stack >> 1 & (stack | !1);
                    continue;
                }
                Node::Or => {
                    stack = stack >> 1 | stack & 1;
                    continue;
                }
                Node::Not => {
                    stack ^= 1;
                    continue;
                }
                Node::True => true,
                Node::Attribute(attribute) => open.attributes >> attribute & 1 == 1,
                Node::Content(content) => open.contents >> content & 1 == 1,
                Node::Order(later, earlier) => {
                    let both = open.contents >> later & open.contents >> earlier & 1 == 1;
                    !(both && self.first[earlier as usize] < self.last[later as usize])
                }
                Node::Value(attribute, _) if open.attributes >> attribute & 1 == 0 => true,
                Node::Value(attribute, set) => self.strings[attribute as usize] & set != 0,
            };
            stack = stack << 1 | holds as u64;
        }
        failing
    }
}

/// Reads the attributes straight after a `23`.
fn attributes(reader: &mut Reader) -> Result<u32, Fault> {
    let mut attributes = 0u32;
    loop {
        let at = reader.at;
        let (attribute, string) = match reader.command()? {
            0x24 => {
                let [attribute, string] = reader.operands()?;
                (attribute, string)
            }
            0x28 => {
                let [attribute] = reader.operands()?;
                (attribute, 0)
            }
            _ => return Ok(attributes),
        };
        if attribute >= ATTRIBUTES || string >= 64 {
            return Err(Fault::new(OUT_OF_RANGE, at));
        }
        if attributes >> attribute & 1 == 1 {
            return Err(Fault::new(NOT_RISING, at));
        }
        attributes |= 1 << attribute;
    }
}
