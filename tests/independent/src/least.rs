//! The least covering proposal, and writing a proposal down.

use crate::cover::{named, transfer, Change};
use crate::job::Job;
use crate::landed::Landed;
use crate::program::{Program, VARIABLES};
use crate::proposal::Entries;
use crate::summary::*;
use crate::templates::Templates;

/// The smallest entries that cover and hold at least what `entries` hold.
pub fn least(program: &Program, templates: &Templates, mut entries: Entries) -> Entries {
    for variable in named(program) {
        if variable < VARIABLES {
            entries.summary_mut(0, variable).roots |= 1;
        } else {
            *entries.strings_mut(0, variable - VARIABLES) |= 1;
        }
    }
    loop {
        let before = entries.clone();
        for (point, at) in program.points.iter().enumerate() {
            let change = transfer(at.statement, templates, &before, point);
            for &next in at.steps() {
                for variable in named(program) {
                    step(&before, &mut entries, &change, point, next as usize, variable);
                }
            }
        }
        if entries == before {
            return entries;
        }
    }
}

fn step(before: &Entries, entries: &mut Entries, change: &Change, point: usize, next: usize, variable: u8) {
    if variable < VARIABLES {
        let after = match change {
            Change::Summary(changed, after) if *changed == variable => after,
            _ => before.summary(point, variable),
        };
        entries.summary_mut(next, variable).join(after);
        return;
    }
    let variable = variable - VARIABLES;
    *entries.strings_mut(next, variable) |= match change {
        Change::Strings(changed, after) if *changed == variable => *after,
        _ => before.strings(point, variable),
    };
}

/// A job up to its `3F`, with the least proposal that holds all of `held`; nothing if it doesn't read, for any other
/// reason than that `14` makes too many facts.
pub fn with_least(start: &[u8], held: &[u8]) -> Option<Vec<u8>> {
    let job = Job::read_as(&[start, held, &[0x4F]].concat(), Landed::F4).ok()?;
    let entries = least(&job.program, &job.templates, job.entries);
    Some([start, &write(&entries, job.program.points.len())].concat())
}

/// The proposal as bytes, `4F` included. Heads stand only where something is held.
pub fn write(entries: &Entries, points: usize) -> Vec<u8> {
    let mut bytes = Vec::new();
    for point in 0..points {
        for variable in 0..2 * VARIABLES {
            let items = if variable < VARIABLES {
                summary_items(entries.summary(point, variable))
            } else {
                string_items(entries.strings(point, variable - VARIABLES))
            };
            if !items.is_empty() {
                bytes.extend([0x40, point as u8, variable]);
                bytes.extend(items);
            }
        }
    }
    bytes.push(0x4F);
    bytes
}

/// The strings of a set that is not "any string".
fn listed(set: StringSet) -> impl Iterator<Item = u8> {
    let [low, high] = [set as u32, (set >> 32) as u32];
    members(low).chain(members(high).map(|string| string + 32)).map(|string| string as u8)
}

fn string_items(set: StringSet) -> Vec<u8> {
    if set == ANY_STRING {
        return vec![0x48];
    }
    listed(set).flat_map(|string| [0x47, string]).collect()
}

fn summary_items(summary: &Summary) -> Vec<u8> {
    let mut bytes: Vec<u8> = members(summary.roots).flat_map(|root| [0x41, root as u8]).collect();
    for template in 0..32 {
        for (gap, &to) in summary.edges(template).iter().enumerate() {
            bytes.extend(members(to).flat_map(|to| [0x42, template as u8, gap as u8, to as u8]));
        }
    }
    let mut any = Vec::new();
    for template in 0..32u8 {
        for (gap, &set) in summary.strings(template as usize).iter().enumerate() {
            if set == ANY_STRING {
                any.extend([0x44, template, gap as u8]);
                continue;
            }
            bytes.extend(listed(set).flat_map(|string| [0x43, template, gap as u8, string]));
        }
    }
    bytes.extend(any);
    for (command, origins) in [(0x45, &summary.origins), (0x46, &summary.attribute_origins)] {
        for (gap, &templates) in origins.iter().enumerate() {
            bytes.extend(members(templates).flat_map(|origin| [command, gap as u8, origin as u8]));
        }
    }
    bytes
}
