//! Reading the templates of a job.

use crate::reader::*;
use crate::vocabulary::*;
use std::ops::Range;

pub const GAPS: u8 = 8;
/// Most templates, the empty one not counted.
const TEMPLATES: usize = 31;
const TEMPLATE_NESTING: usize = 16;

/// In a list of items a content stands as itself and gap g as `GAP + g`. Blank text has no place in it, so that it is
/// no content anywhere.
pub const GAP: u8 = CONTENTS;

/// The outermost items of a template or an element.
#[derive(Clone, Copy, Default)]
pub struct Items {
    from: u32,
    to: u32,
    pub contents: u64,
    pub gaps: u8,
}

#[derive(Clone, Copy)]
pub enum AttributeValue {
    String(u8),
    Gap(u8),
}

pub struct Element {
    pub at: u32,
    pub name: u8,
    pub attributes: u32,
    from: u32,
    to: u32,
    pub items: Items,
}

#[derive(Default)]
pub struct Template {
    pub items: Items,
    /// Gaps at any depth.
    pub gaps: u8,
    pub attribute_gaps: u8,
    elements: Range<usize>,
    /// Where its items stand in the job.
    pub bytes: Range<usize>,
}

pub struct Templates {
    pub list: Vec<Template>,
    elements: Vec<Element>,
    attributes: Vec<(u8, AttributeValue)>,
    items: Vec<u8>,
}

impl Templates {
    pub fn read(reader: &mut Reader, vocabulary: &Vocabulary) -> Result<Templates, Fault> {
        let mut templates = Templates {
            list: vec![Template::default()],
            elements: Vec::new(),
            attributes: Vec::new(),
            items: Vec::new(),
        };
        let mut inside = Inside { open: Vec::new(), waiting: Vec::new() };
        loop {
            let at = reader.at;
            match reader.command()? {
                0x20 => {
                    reader.at += 1;
                    if templates.list.len() > TEMPLATES {
                        return Err(Fault::new(TOO_MANY, at));
                    }
                    let template = templates.template(reader, vocabulary, &mut inside)?;
                    templates.list.push(template);
                }
                0x2F => {
                    reader.at += 1;
                    return Ok(templates);
                }
                _ => return Err(Fault::new(NOT_ALLOWED, at)),
            }
        }
    }

    pub fn is_there(&self, template: u8) -> bool {
        (template as usize) < self.list.len()
    }

    pub fn elements(&self, template: usize) -> &[Element] {
        &self.elements[self.list[template].elements.clone()]
    }

    pub fn attributes(&self, element: &Element) -> &[(u8, AttributeValue)] {
        &self.attributes[element.from as usize..element.to as usize]
    }

    pub fn items(&self, items: &Items) -> &[u8] {
        &self.items[items.from as usize..items.to as usize]
    }

    fn template(
        &mut self,
        reader: &mut Reader,
        vocabulary: &Vocabulary,
        inside: &mut Inside,
    ) -> Result<Template, Fault> {
        let mut template = Template::default();
        let first_element = self.elements.len();
        template.bytes.start = reader.at;
        loop {
            let at = reader.at;
            match reader.command()? {
                0x21 => {
                    reader.at += 1;
                    inside.waiting.push(0);
                }
                0x29 => reader.at += 1,
                0x22 => {
                    let [gap] = reader.operands()?;
                    if gap >= GAPS {
                        return Err(Fault::new(OUT_OF_RANGE, at));
                    }
                    template.gaps |= 1 << gap;
                    inside.waiting.push(GAP + gap);
                }
                0x23 => {
                    let name = element_name(reader, vocabulary, inside.open.len())?;
                    inside.waiting.push(name);
                    self.open(reader, at, name, &mut template, inside)?;
                }
                0x26 => {
                    reader.at += 1;
                    let Some((element, from)) = inside.open.pop() else {
                        return Err(Fault::new(NOT_ALLOWED, at));
                    };
                    self.elements[element].items = self.settle(inside, from);
                }
                0x27 if inside.open.is_empty() => {
                    reader.at += 1;
                    template.bytes.end = at;
                    template.elements = first_element..self.elements.len();
                    template.items = self.settle(inside, 0);
                    return Ok(template);
                }
                _ => return Err(Fault::new(NOT_ALLOWED, at)),
            }
        }
    }

    fn open(
        &mut self,
        reader: &mut Reader,
        at: usize,
        name: u8,
        template: &mut Template,
        inside: &mut Inside,
    ) -> Result<(), Fault> {
        let from = self.attributes.len() as u32;
        let attributes = self.read_attributes(reader, template)?;
        inside.open.push((self.elements.len(), inside.waiting.len()));
        self.elements.push(Element {
            at: at as u32,
            name,
            attributes,
            from,
            to: self.attributes.len() as u32,
            items: Items::default(),
        });
        Ok(())
    }

    /// Reads the attributes straight after a `23`.
    fn read_attributes(&mut self, reader: &mut Reader, template: &mut Template) -> Result<u32, Fault> {
        let mut attributes = 0u32;
        loop {
            let at = reader.at;
            let command = reader.command()?;
            if command != 0x24 && command != 0x25 {
                return Ok(attributes);
            }
            let [attribute, value] = reader.operands()?;
            if attribute >= ATTRIBUTES || value >= if command == 0x24 { 64 } else { GAPS } {
                return Err(Fault::new(OUT_OF_RANGE, at));
            }
            if attributes >> attribute & 1 == 1 {
                return Err(Fault::new(NOT_RISING, at));
            }
            attributes |= 1 << attribute;
            let value = if command == 0x24 {
                AttributeValue::String(value)
            } else {
                template.attribute_gaps |= 1 << value;
                AttributeValue::Gap(value)
            };
            self.attributes.push((attribute, value));
        }
    }

    /// Moves the waiting items from `from` on to their place.
    fn settle(&mut self, inside: &mut Inside, from: usize) -> Items {
        let mut items = Items { from: self.items.len() as u32, ..Items::default() };
        for item in inside.waiting.drain(from..) {
            if item < GAP {
                items.contents |= 1 << item;
            } else {
                items.gaps |= 1 << (item - GAP);
            }
            self.items.push(item);
        }
        items.to = self.items.len() as u32;
        items
    }
}

fn element_name(reader: &mut Reader, vocabulary: &Vocabulary, depth: usize) -> Result<u8, Fault> {
    let at = reader.at;
    let [name] = reader.operands()?;
    if name == 0 || name >= CONTENTS {
        return Err(Fault::new(OUT_OF_RANGE, at));
    }
    if !vocabulary.has_rule(name) {
        return Err(Fault::new(NOT_THERE, at));
    }
    if depth == TEMPLATE_NESTING {
        return Err(Fault::new(TOO_MANY, at));
    }
    Ok(name)
}

/// What is open while a template is read. The items of open elements wait until `26`, so that each list lies together.
struct Inside {
    /// The element, and where its items start among those waiting.
    open: Vec<(usize, usize)>,
    waiting: Vec<u8>,
}
