//! Checking a job: reading, covering, then each show over its whole language.

use crate::cover::{covering, shown};
use crate::graph::Graph;
use crate::job::Job;
use crate::landed::Landed;
use crate::patterns::{Clause, Patterns, WordFacts};
use crate::reader::*;
use crate::summary::{members, ABSENT, ANY_STRING};
use crate::templates::Element;
use crate::vocabulary::Node;
use crate::wrong::Wrong;

/// The verdict on a job.
pub fn check(job: &[u8]) -> Verdict {
    check_as(job, Landed::NOW)
}

pub fn check_as(job: &[u8], landed: Landed) -> Verdict {
    let job = match Job::read_as(job, landed) {
        Ok(job) => job,
        Err(fault) => return fault.verdict(0),
    };
    let verdict = covering(&job);
    if verdict != ACCEPTED {
        return verdict;
    }
    let refused = shows(&job).map(|(_, verdict)| verdict).find(|verdict| *verdict != ACCEPTED);
    refused.unwrap_or(ACCEPTED)
}

/// Each show, framed or not, by its point, with the verdict that it would get if it were the first.
pub fn shows(job: &Job) -> impl Iterator<Item = (usize, Verdict)> + '_ {
    let clauses = clauses(job);
    job.program.points.iter().enumerate().filter_map(move |(point, at)| {
        let summary = shown(at.statement, &job.templates, &job.entries, point)?;
        Some((point, show(job, &clauses, point, &Graph::new(&job.templates, &summary, job.landed))))
    })
}

/// 11, 12, 14 and 15, or acceptance.
fn show(job: &Job, clauses: &[Clause], point: usize, graph: &Graph) -> Verdict {
    if let Some(root) = not_the_root(job, graph) {
        return [NOT_THE_ROOT, point as u32, root as u32, 0];
    }
    match wrong_element(job, clauses, graph) {
        Some((offset, wrong, template)) => wrong.verdict(point as u32, template as u32, offset, job.landed),
        None => ACCEPTED,
    }
}

/// The clauses of all rules; those with the same content and pair facts stand together, and those of one rule in their
/// order.
fn clauses(job: &Job) -> Vec<Clause> {
    let vocabulary = &job.vocabulary;
    let mut clauses = Vec::new();
    for element in 1..64u8 {
        let rule = &vocabulary.rules[element as usize];
        let mut from = rule.from as usize;
        for place in 0..rule.clauses {
            let nodes = &vocabulary.nodes[from + 1..rule.to as usize];
            let length = nodes.iter().position(|node| *node == Node::Clause).unwrap_or(nodes.len());
            clauses.push(Clause::new(element, place, &vocabulary.nodes, from + 1..from + 1 + length, job.landed));
            from += 1 + length;
        }
    }
    clauses.sort_by_key(|clause| (clause.word, clause.element));
    clauses
}

/// The lowest root with a page that is not, besides blank text, exactly the root element.
fn not_the_root(job: &Job, graph: &Graph) -> Option<usize> {
    let root = job.vocabulary.root;
    // There, and not out of order with itself: exactly one.
    let facts = WordFacts::new(1 << root, &[(root, root)]);
    let exactly_one = Patterns::one(1);
    let sets = graph.patterns(&facts);
    members(graph.roots)
        .find(|&template| graph.outer_contents[template] & !(1 << root) != 0 || !sets[template].within(&exactly_one))
}

/// A live element with its template.
type Standing<'a> = (usize, &'a Element);

/// The lowest element that is wrong in some page: its offset, what is wrong with it, and its template.
fn wrong_element(job: &Job, clauses: &[Clause], graph: &Graph) -> Option<(u32, Wrong, usize)> {
    let mut by_name: [Vec<Standing>; 64] = [const { Vec::new() }; 64];
    let mut lowest: Option<(u32, Wrong, usize)> = None;
    for template in members(graph.live) {
        for element in job.templates.elements(template) {
            if lowest.is_none() {
                let wrong = not_allowed(job, graph, (template, element));
                lowest = wrong.map(|wrong| (element.at, wrong, template));
            }
            by_name[element.name as usize].push((template, element));
        }
    }
    for alike in clauses.chunk_by(|a, b| a.word == b.word) {
        // The sets of patterns are worked out once for all these clauses, and only if an element needs them.
        let mut sets = None;
        for clauses in alike.chunk_by(|a, b| a.element == b.element) {
            for &(template, element) in &by_name[clauses[0].element as usize] {
                let found = |place: u32| (element.at, Wrong::Clause(place), template);
                // Later elements, and later clauses of the lowest one, count no more.
                if lowest.is_some_and(|lowest| lowest < found(clauses[0].place)) {
                    break;
                }
                let sets = sets.get_or_insert_with(|| graph.patterns(&alike[0].word));
                if let Some(place) = failing(job, clauses, graph, sets, (template, element)) {
                    lowest = Some(lowest.map_or(found(place), |lowest| lowest.min(found(place))));
                }
            }
        }
    }
    lowest
}

/// An attribute or a content that isn't allowed, in some page.
fn not_allowed(job: &Job, graph: &Graph, (template, element): Standing) -> Option<Wrong> {
    let rule = &job.vocabulary.rules[element.name as usize];
    if carries(job, graph, (template, element), !rule.attributes) {
        return Some(Wrong::Attribute);
    }
    (graph.contents(template, &element.items) & !rule.contents != 0).then_some(Wrong::Content)
}

/// The element carries one of these attributes in some page: a string reaches it.
fn carries(job: &Job, graph: &Graph, (template, element): Standing, attributes: u32) -> bool {
    element.attributes & attributes != 0
        && job.templates.attributes(element).iter().any(|&(attribute, value)| {
            attributes >> attribute & 1 == 1 && graph.strings(template, value) & ANY_STRING != 0
        })
}

/// The place of the first clause of these, all with the same content and pair facts, that fails in some page.
fn failing(
    job: &Job,
    clauses: &[Clause],
    graph: &Graph,
    sets: &[Patterns; 32],
    (template, element): Standing,
) -> Option<u32> {
    let contents = graph.patterns_of(&clauses[0].word, sets, template, &element.items);
    let strings = |attribute: u8| {
        let mut attributes = job.templates.attributes(element).iter();
        attributes.find(|(a, _)| *a == attribute).map_or(ABSENT, |&(_, value)| graph.strings(template, value))
    };
    let fails = |clause: &&Clause| {
        let holds = clause.holds(&job.vocabulary.nodes, element.attributes);
        if holds == Patterns::ALL {
            return false;
        }
        let values = clause.of_attributes(strings);
        let fails = values.members().any(|value| contents.members().any(|content| !holds.has(content | value)));
        fails
    };
    clauses.iter().find(fails).map(|clause| clause.place)
}
