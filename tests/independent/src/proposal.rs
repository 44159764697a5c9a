//! Reading the proposal of a job: what is held of each variable at the entry of each point.

use crate::program::{Program, VARIABLES};
use crate::reader::*;
use crate::summary::*;
use crate::templates::{Templates, GAPS};

#[derive(Clone, PartialEq, Eq)]
pub struct Entries {
    /// Four for a point.
    summaries: Vec<Summary>,
    strings: Vec<StringSet>,
}

impl Entries {
    pub fn empty(points: usize) -> Entries {
        let count = points * VARIABLES as usize;
        Entries { summaries: vec![Summary::default(); count], strings: vec![0; count] }
    }

    pub fn summary(&self, point: usize, x: u8) -> &Summary {
        &self.summaries[point * VARIABLES as usize + x as usize]
    }

    pub fn summary_mut(&mut self, point: usize, x: u8) -> &mut Summary {
        &mut self.summaries[point * VARIABLES as usize + x as usize]
    }

    pub fn strings(&self, point: usize, y: u8) -> StringSet {
        self.strings[point * VARIABLES as usize + y as usize]
    }

    pub fn strings_mut(&mut self, point: usize, y: u8) -> &mut StringSet {
        &mut self.strings[point * VARIABLES as usize + y as usize]
    }

    pub fn read(reader: &mut Reader, templates: &Templates, program: &Program) -> Result<Entries, Fault> {
        let mut entries = Entries::empty(program.points.len());
        let mut head: Option<(u8, u8)> = None;
        let mut last_item = [0; 4];
        loop {
            let at = reader.at;
            let command = reader.command()?;
            match (command, head) {
                (0x40, _) => {
                    let [point, variable] = reader.operands()?;
                    if variable >= 2 * VARIABLES {
                        return Err(Fault::new(OUT_OF_RANGE, at));
                    }
                    if point as usize >= program.points.len() {
                        return Err(Fault::new(NOT_THERE, at));
                    }
                    if head >= Some((point, variable)) {
                        return Err(Fault::new(NOT_RISING, at));
                    }
                    head = Some((point, variable));
                    last_item = [0; 4];
                }
                (0x4F, _) => {
                    reader.at += 1;
                    return Ok(entries);
                }
                (0x41..=0x46, Some((point, x))) if x < VARIABLES => {
                    let item = summary_item(reader, command, templates)?;
                    rising(&mut last_item, item, at)?;
                    add(entries.summary_mut(point as usize, x), item);
                }
                (0x47 | 0x48, Some((point, y))) if y >= VARIABLES => {
                    let item = string_item(reader, command)?;
                    rising(&mut last_item, item, at)?;
                    let set = if command == 0x48 { ANY_STRING } else { 1 << item[1] };
                    *entries.strings_mut(point as usize, y - VARIABLES) |= set;
                }
                _ => return Err(Fault::new(NOT_ALLOWED, at)),
            }
        }
    }
}

/// An item is its command and operands, zeros after them. None has command 0, so the first one always rises.
fn rising(last: &mut [u8; 4], item: [u8; 4], at: usize) -> Result<(), Fault> {
    if item <= *last {
        return Err(Fault::new(NOT_RISING, at));
    }
    *last = item;
    Ok(())
}

fn summary_item(reader: &mut Reader, command: u8, templates: &Templates) -> Result<[u8; 4], Fault> {
    let at = reader.at;
    let (item, in_range, there) = match command {
        0x41 => {
            let [t] = reader.operands()?;
            ([command, t, 0, 0], true, templates.is_there(t))
        }
        0x42 => {
            let [n, g, t] = reader.operands()?;
            ([command, n, g, t], g < GAPS, templates.is_there(n) && templates.is_there(t))
        }
        0x43 => {
            let [n, h, s] = reader.operands()?;
            ([command, n, h, s], h < GAPS && s < 64, templates.is_there(n))
        }
        0x44 => {
            let [n, h] = reader.operands()?;
            ([command, n, h, 0], h < GAPS, templates.is_there(n))
        }
        _ => {
            let [gap, n] = reader.operands()?;
            ([command, gap, n, 0], gap < GAPS, templates.is_there(n))
        }
    };
    if !in_range {
        return Err(Fault::new(OUT_OF_RANGE, at));
    }
    if !there {
        return Err(Fault::new(NOT_THERE, at));
    }
    Ok(item)
}

fn string_item(reader: &mut Reader, command: u8) -> Result<[u8; 4], Fault> {
    let at = reader.at;
    if command == 0x48 {
        reader.at += 1;
        return Ok([command, 0, 0, 0]);
    }
    let [string] = reader.operands()?;
    if string >= 64 {
        return Err(Fault::new(OUT_OF_RANGE, at));
    }
    Ok([command, string, 0, 0])
}

fn add(summary: &mut Summary, [command, a, b, c]: [u8; 4]) {
    let [first, second] = [a as usize, b as usize];
    match command {
        0x41 => summary.roots |= 1 << a,
        0x42 => summary.add_edges(first, second, 1 << c),
        0x43 => summary.add_strings(first, second, 1 << c),
        0x44 => summary.add_strings(first, second, ANY_STRING),
        0x45 => summary.origins[first] |= 1 << b,
        _ => summary.attribute_origins[first] |= 1 << b,
    }
}
