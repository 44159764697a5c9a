//! Covering: the transfer functions of source 000, sections 4 and 5, and what lies within the proposal.

use crate::job::Job;
use crate::program::{Program, Statement, VARIABLES};
use crate::proposal::Entries;
use crate::reader::*;
use crate::summary::*;
use crate::templates::Templates;
use std::borrow::Cow;

/// The one variable that a statement changes, with what is held of it after.
pub enum Change<'a> {
    Nothing,
    Summary(u8, Cow<'a, Summary>),
    Strings(u8, StringSet),
}

pub fn transfer<'a>(statement: Statement, templates: &Templates, entries: &'a Entries, point: usize) -> Change<'a> {
    let summary = |x| entries.summary(point, x);
    match statement {
        Statement::Copy(to, from) => Change::Summary(to, Cow::Borrowed(summary(from))),
        Statement::Template(to, template) => Change::Summary(to, Cow::Owned(fragment(templates, template))),
        Statement::CopyString(to, from) => Change::Strings(to, entries.strings(point, from)),
        Statement::String(to, string) => Change::Strings(to, 1 << string),
        Statement::AnyString(to) => Change::Strings(to, ANY_STRING),
        Statement::Plug(to, from, gap, plugged) => {
            Change::Summary(to, Cow::Owned(plug(summary(from), gap as usize, summary(plugged))))
        }
        Statement::PlugString(to, from, gap, plugged) => {
            let strings = entries.strings(point, plugged);
            Change::Summary(to, Cow::Owned(plug_string(summary(from), gap as usize, strings)))
        }
        Statement::Show(_) | Statement::Framed(..) | Statement::Stop => Change::Nothing,
    }
}

/// What a statement shows, its gaps still open; nothing if it is no show. A framed show is a template load, a plug and
/// a show, though no variable is loaded or plugged: the graphs and origins join even where the frame lacks the gap.
pub fn shown<'a>(
    statement: Statement,
    templates: &Templates,
    entries: &'a Entries,
    point: usize,
) -> Option<Cow<'a, Summary>> {
    match statement {
        Statement::Show(x) => Some(Cow::Borrowed(entries.summary(point, x))),
        Statement::Framed(x, template, gap) => {
            let frame = fragment(templates, template);
            Some(Cow::Owned(plug(&frame, gap as usize, entries.summary(point, x))))
        }
        _ => None,
    }
}

fn fragment(templates: &Templates, template: u8) -> Summary {
    let itself = 1u32 << template;
    let at = &templates.list[template as usize];
    let mut result = Summary::default();
    result.roots = itself;
    members(at.gaps.into()).for_each(|gap| result.origins[gap] = itself);
    members(at.attribute_gaps.into()).for_each(|gap| result.attribute_origins[gap] = itself);
    result
}

fn plug(into: &Summary, gap: usize, plugged: &Summary) -> Summary {
    let mut result = into.clone();
    result.join(plugged);
    result.roots = into.roots;
    result.origins[gap] = plugged.origins[gap];
    for origin in members(into.origins[gap]) {
        result.add_edges(origin, gap, plugged.roots);
    }
    result
}

fn plug_string(into: &Summary, gap: usize, strings: StringSet) -> Summary {
    let mut result = into.clone();
    for origin in members(into.attribute_origins[gap]) {
        result.add_strings(origin, gap, strings);
    }
    result.attribute_origins[gap] = 0;
    result
}

/// Variables numbered as in `40`, lowest first.
pub fn named(program: &Program) -> impl Iterator<Item = u8> + '_ {
    (0..2 * VARIABLES).filter(|variable| program.named >> variable & 1 == 1)
}

/// 9 and 10, or acceptance.
pub fn covering(job: &Job) -> Verdict {
    for variable in named(&job.program) {
        let held = if variable < VARIABLES {
            job.entries.summary(0, variable).roots & 1 == 1
        } else {
            job.entries.strings(0, variable - VARIABLES) & 1 == 1
        };
        if !held {
            return [START, 0, 0, variable as u32];
        }
    }
    for point in 0..job.program.points.len() {
        let verdict = steps(job, point);
        if verdict != ACCEPTED {
            return verdict;
        }
    }
    ACCEPTED
}

fn steps(job: &Job, point: usize) -> Verdict {
    let at = &job.program.points[point];
    let change = transfer(at.statement, &job.templates, &job.entries, point);
    for &next in at.steps() {
        for variable in named(&job.program) {
            if !covered(&job.entries, &change, point, next as usize, variable) {
                return [STEP, point as u32, next as u32, variable as u32];
            }
        }
    }
    ACCEPTED
}

fn covered(entries: &Entries, change: &Change, point: usize, next: usize, variable: u8) -> bool {
    if variable < VARIABLES {
        let after = match change {
            Change::Summary(changed, after) if *changed == variable => after,
            _ => entries.summary(point, variable),
        };
        return after.within(entries.summary(next, variable));
    }
    let variable = variable - VARIABLES;
    let after = match change {
        Change::Strings(changed, after) if *changed == variable => *after,
        _ => entries.strings(point, variable),
    };
    after & !entries.strings(next, variable) == 0
}
