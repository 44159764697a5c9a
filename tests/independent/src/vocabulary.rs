//! Reading a vocabulary: one rule for an element, clauses as formulas in prefix order.

use crate::landed::Landed;
use crate::reader::*;

pub const ATTRIBUTES: u8 = 32;
/// Text is content 0, elements are 1 to 63.
pub const CONTENTS: u8 = 64;
const CONNECTIVES: u32 = 16;
const FACTS: u32 = 8;

/// A formula in prefix order, one node a command. `Clause` heads each clause.
#[derive(Clone, Copy, Debug, PartialEq, Eq)]
pub enum Node {
    Clause,
    And,
    Or,
    Not,
    True,
    Attribute(u8),
    Content(u8),
    Order(u8, u8),
    Value(u8, u64),
}

#[derive(Clone, Copy)]
pub struct Rule {
    pub attributes: u32,
    pub contents: u64,
    /// The clauses are the nodes from `from` to before `to`.
    pub from: u32,
    pub to: u32,
    pub clauses: u32,
    pub has_order: bool,
    pub has_value: bool,
}

const NO_RULE: Rule =
    Rule { attributes: 0, contents: 0, from: 0, to: 0, clauses: 0, has_order: false, has_value: false };

pub struct Vocabulary {
    pub rules: [Rule; 64],
    /// The elements that have a rule.
    pub given: u64,
    pub root: u8,
    pub nodes: Vec<Node>,
}

impl Vocabulary {
    pub fn has_rule(&self, element: u8) -> bool {
        self.given >> element & 1 == 1
    }

    /// A vocabulary that stands alone.
    pub fn read_whole(bytes: &[u8], landed: Landed) -> Result<Vocabulary, Fault> {
        let mut reader = Reader::new(bytes)?;
        let vocabulary = Vocabulary::read(&mut reader, landed)?;
        reader.end()?;
        Ok(vocabulary)
    }

    pub fn read(reader: &mut Reader, landed: Landed) -> Result<Vocabulary, Fault> {
        let mut vocabulary = Vocabulary { rules: [NO_RULE; 64], given: 0, root: 0, nodes: Vec::with_capacity(32) };
        let mut stage = Stage::NoRule;
        let mut element = 0;
        loop {
            let at = reader.at;
            match reader.command()? {
                0x01 => {
                    element = vocabulary.open_rule(reader, at)?;
                    stage = Stage::Attributes;
                }
                0x02 if stage == Stage::Attributes => {
                    let [attribute] = reader.operands()?;
                    let rule = &mut vocabulary.rules[element];
                    if attribute >= ATTRIBUTES {
                        return Err(Fault::new(OUT_OF_RANGE, at));
                    }
                    if rule.attributes >> attribute != 0 {
                        return Err(Fault::new(NOT_RISING, at));
                    }
                    rule.attributes |= 1 << attribute;
                }
                0x03 if stage == Stage::Attributes || stage == Stage::Contents => {
                    let [content] = reader.operands()?;
                    let rule = &mut vocabulary.rules[element];
                    if content >= CONTENTS {
                        return Err(Fault::new(OUT_OF_RANGE, at));
                    }
                    if rule.contents >> content != 0 {
                        return Err(Fault::new(NOT_RISING, at));
                    }
                    rule.contents |= 1 << content;
                    stage = Stage::Contents;
                }
                0x04 if stage != Stage::NoRule => {
                    vocabulary.clause(reader, element, landed)?;
                    stage = Stage::Clauses;
                }
                0x05 => {
                    let [root] = reader.operands()?;
                    if root == 0 || root >= CONTENTS {
                        return Err(Fault::new(OUT_OF_RANGE, at));
                    }
                    if !vocabulary.has_rule(root) {
                        return Err(Fault::new(NOT_THERE, at));
                    }
                    vocabulary.root = root;
                    return Ok(vocabulary);
                }
                _ => return Err(Fault::new(NOT_ALLOWED, at)),
            }
        }
    }

    fn open_rule(&mut self, reader: &mut Reader, at: usize) -> Result<usize, Fault> {
        let [element] = reader.operands()?;
        if element == 0 || element >= CONTENTS {
            return Err(Fault::new(OUT_OF_RANGE, at));
        }
        if self.has_rule(element) {
            return Err(Fault::new(NOT_RISING, at));
        }
        self.given |= 1 << element;
        let nodes = self.nodes.len() as u32;
        self.rules[element as usize] = Rule { from: nodes, to: nodes, ..NO_RULE };
        Ok(element as usize)
    }

    fn clause(&mut self, reader: &mut Reader, element: usize, landed: Landed) -> Result<(), Fault> {
        let at = reader.at;
        reader.operands::<0>()?;
        self.nodes.push(Node::Clause);
        let mut facts = Facts::new();
        self.formula(reader, 0, &mut facts)?;
        if facts.count(landed) > FACTS {
            return Err(Fault::new(TOO_MANY_FACTS, at));
        }
        let rule = &mut self.rules[element];
        rule.to = self.nodes.len() as u32;
        rule.clauses += 1;
        rule.has_order |= facts.orders > 0;
        rule.has_value |= facts.values > 0;
        Ok(())
    }

    /// `above` counts the connectives that stand open around the formula.
    fn formula(&mut self, reader: &mut Reader, above: u32, facts: &mut Facts) -> Result<(), Fault> {
        let at = reader.at;
        let command = reader.command()?;
        let node = match command {
            0x10..=0x13 => {
                reader.operands::<0>()?;
                [Node::And, Node::Or, Node::Not, Node::True][command as usize - 0x10]
            }
            0x14 => {
                let [attribute] = reader.operands()?;
                if attribute >= ATTRIBUTES {
                    return Err(Fault::new(OUT_OF_RANGE, at));
                }
                facts.attributes |= 1 << attribute;
                Node::Attribute(attribute)
            }
            0x15 => {
                let [content] = reader.operands()?;
                if content >= CONTENTS {
                    return Err(Fault::new(OUT_OF_RANGE, at));
                }
                facts.content(content);
                Node::Content(content)
            }
            0x16 => {
                let [later, earlier] = reader.operands()?;
                if later >= CONTENTS || earlier >= CONTENTS {
                    return Err(Fault::new(OUT_OF_RANGE, at));
                }
                facts.order(later, earlier);
                Node::Order(later, earlier)
            }
            0x17 => {
                let [attribute, set @ ..] = reader.operands::<9>()?;
                let set = u64::from_be_bytes(set);
                if attribute >= ATTRIBUTES || set == 0 {
                    return Err(Fault::new(OUT_OF_RANGE, at));
                }
                facts.value(attribute, set);
                Node::Value(attribute, set)
            }
            _ => return Err(Fault::new(NOT_ALLOWED, at)),
        };
        self.nodes.push(node);
        let below = match node {
            Node::And | Node::Or => 2,
            Node::Not => 1,
            _ => 0,
        };
        if below > 0 && above == CONNECTIVES {
            return Err(Fault::new(TOO_MANY, at));
        }
        for _ in 0..below {
            self.formula(reader, above + 1, facts)?;
        }
        Ok(())
    }
}

#[derive(Clone, Copy, PartialEq, Eq)]
enum Stage {
    NoRule,
    Attributes,
    Contents,
    Clauses,
}

/// The distinct facts of a clause. Of pairs and of sets no more than nine are kept, one too many already.
struct Facts {
    /// Those that `14` asks for.
    attributes: u32,
    contents: u64,
    order: [(u8, u8); 9],
    orders: usize,
    value: [(u8, u64); 9],
    values: usize,
}

impl Facts {
    fn new() -> Facts {
        Facts { attributes: 0, contents: 0, order: [(0, 0); 9], orders: 0, value: [(0, 0); 9], values: 0 }
    }

    fn content(&mut self, content: u8) {
        self.contents |= 1 << content;
    }

    fn order(&mut self, later: u8, earlier: u8) {
        self.content(later);
        self.content(earlier);
        if self.orders < 9 && !self.order[..self.orders].contains(&(later, earlier)) {
            self.order[self.orders] = (later, earlier);
            self.orders += 1;
        }
    }

    fn value(&mut self, attribute: u8, set: u64) {
        if self.values < 9 && !self.value[..self.values].contains(&(attribute, set)) {
            self.value[self.values] = (attribute, set);
            self.values += 1;
        }
    }

    fn count(&self, landed: Landed) -> u32 {
        let attributes = match landed {
            Landed::F4 => 0,
            _ => self.attributes.count_ones(),
        };
        attributes + self.contents.count_ones() + self.orders as u32 + self.values as u32
    }
}
