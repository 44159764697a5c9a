//! The least sets that are held at each node: origins, roots and strings of variables.

use crate::flow::*;
use crate::program::{Program, Statement, VARIABLES};
use crate::summary::members;
use crate::templates::Templates;

/// What is held at each node.
pub fn held(program: &Program, templates: &Templates, flows: &Flows, groups: &Groups) -> Vec<Sets> {
    let mut held = vec![Sets::default(); flows.nodes()];
    start(program, &mut held);
    statements(program, templates, &mut held);
    // Whether something is held that has not been passed on.
    let mut waiting: Vec<bool> = held.iter().map(|sets| *sets != Sets::default()).collect();
    for group in (0..groups.count()).rev() {
        while pass_on(groups.nodes(group), flows, &mut held, &mut waiting) {}
    }
    held
}

/// Passes on what waits, one node after another; whether there was something.
fn pass_on(nodes: impl Iterator<Item = usize>, flows: &Flows, held: &mut [Sets], waiting: &mut [bool]) -> bool {
    let mut some = false;
    for node in nodes {
        if !std::mem::take(&mut waiting[node]) {
            continue;
        }
        some = true;
        for flow in flows.of(node) {
            let mut sets = held[node];
            sets[flow.without()] = 0;
            if join(&mut held[flow.to()], &sets) {
                waiting[flow.to()] = true;
            }
        }
    }
    some
}

/// Whether something was new.
fn join(into: &mut Sets, sets: &Sets) -> bool {
    let mut new = 0;
    for (into, set) in into.iter_mut().zip(sets) {
        new |= set & !*into;
        *into |= set;
    }
    new != 0
}

fn start(program: &Program, held: &mut [Sets]) {
    for variable in members(program.named.into()) {
        let set = if variable < VARIABLES as usize { ROOTS } else { STRINGS };
        held[node(0, variable as u8)][set] |= 1;
    }
}

/// What statements bring by themselves, whatever is held before them.
fn statements(program: &Program, templates: &Templates, held: &mut [Sets]) {
    for point in &program.points {
        for &next in point.steps() {
            let after = |variable| node(next as usize, variable);
            match point.statement {
                Statement::Template(to, template) => load(templates, template, &mut held[after(to)]),
                Statement::String(to, string) => {
                    held[after(VARIABLES + to)][STRINGS + string as usize / 32] |= 1 << (string % 32);
                }
                Statement::AnyString(to) => held[after(VARIABLES + to)][ANY] |= 1,
                _ => {}
            }
        }
    }
}

fn load(templates: &Templates, template: u8, sets: &mut Sets) {
    let itself = 1 << template;
    let loaded = &templates.list[template as usize];
    sets[ROOTS] |= itself;
    members(loaded.gaps.into()).for_each(|gap| sets[ORIGINS + gap] |= itself);
    members(loaded.attribute_gaps.into()).for_each(|gap| sets[ATTRIBUTE_ORIGINS + gap] |= itself);
}
