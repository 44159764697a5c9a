//! Pages of a show's language, drawn at random: from a root each gap takes one edge's template and each attribute gap one
//! string, or its attribute goes where that is allowed, each occurrence by itself.

use crate::damage::operands;
use crate::job::Job;
use crate::program::Statement;
use crate::random::Random;
use crate::summary::*;

const DEPTH: usize = 12;
const LENGTH: usize = 3000;

/// A page of the language of the show at `point`, ended by `27`. Nothing where there is no show, or the draw leads
/// nowhere, or too far.
pub fn draw(random: &mut Random, job: &Job, bytes: &[u8], point: usize) -> Option<Vec<u8>> {
    let closed = closed(job, point)?;
    let root = pick(random, closed.roots)?;
    let mut page = Vec::new();
    unfold(random, job, bytes, &closed, root, 0, &mut page)?;
    page.push(0x27);
    Some(page)
}

/// What is shown at a point, its gaps closed: an origin of a gap also allows template 0, an origin of an attribute gap
/// absence. Nothing where there is no show.
pub fn closed(job: &Job, point: usize) -> Option<Summary> {
    let mut closed = match job.program.points[point].statement {
        Statement::Show(x) => job.entries.summary(point, x).clone(),
        Statement::Framed(x, template, gap) => framed(job, job.entries.summary(point, x), template, gap.into()),
        _ => return None,
    };
    for gap in 0..8 {
        members(closed.origins[gap]).for_each(|origin| closed.add_edges(origin, gap, 1));
        let taken = job.landed.taken();
        members(closed.attribute_origins[gap]).for_each(|origin| closed.add_strings(origin, gap, taken));
    }
    Some(closed)
}

/// A summary with a frame as its only root, around what it was. The frame brings its own gaps, but for the one plugged.
fn framed(job: &Job, inside: &Summary, template: u8, plugged: usize) -> Summary {
    let frame = &job.templates.list[template as usize];
    let mut result = inside.clone();
    result.roots = 1 << template;
    for gap in members(frame.gaps.into()) {
        if gap == plugged {
            result.add_edges(template.into(), gap, inside.roots);
        } else {
            result.origins[gap] |= 1 << template;
        }
    }
    members(frame.attribute_gaps.into()).for_each(|gap| result.attribute_origins[gap] |= 1 << template);
    result
}

fn pick(random: &mut Random, set: u32) -> Option<usize> {
    let list: Vec<usize> = members(set).collect();
    if list.is_empty() {
        return None;
    }
    Some(random.pick(&list))
}

fn unfold(
    random: &mut Random,
    job: &Job,
    bytes: &[u8],
    closed: &Summary,
    template: usize,
    depth: usize,
    page: &mut Vec<u8>,
) -> Option<()> {
    if depth > DEPTH || page.len() > LENGTH {
        return None;
    }
    let items = &bytes[job.templates.list[template].bytes.clone()];
    let mut at = 0;
    while at < items.len() {
        let command = &items[at..at + 1 + operands(items[at])];
        at += command.len();
        match *command {
            [0x22, gap] => {
                let next = pick(random, closed.edges(template)[gap as usize])?;
                unfold(random, job, bytes, closed, next, depth + 1, page)?;
            }
            [0x25, attribute, gap] => {
                let set = closed.strings(template)[gap as usize];
                let mut list: Vec<u8> = (0..65).filter(|string| set >> string & 1 == 1).collect();
                // The strings outside 0-63 are many, and absence differs from all, whatever their share of the list.
                if list.len() == 65 && random.percent(20) {
                    list = vec![64];
                }
                if set & ABSENT != 0 && (list.is_empty() || random.percent(40)) {
                    continue;
                }
                if list.is_empty() {
                    return None;
                }
                match random.pick(&list) {
                    64 => page.extend([0x28, attribute]),
                    string => page.extend([0x24, attribute, string]),
                }
            }
            _ => page.extend(command),
        }
    }
    Some(())
}
