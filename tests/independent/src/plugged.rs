//! What plugs put into gaps: the edges and strings held at each node. They only ever grow along a flow, so that all
//! nodes of a group hold the same ones, their graph. Graphs stand in the work area, one after another.

use crate::flow::*;
use crate::program::{Program, Statement, VARIABLES};
use crate::summary::members;
use crate::writer::Writer;

/// A graph has a word for each gap of a template that some plug fills with templates, one for each that some plug fills
/// with strings, and then a bit for each of these for any string: no more than 8 * 31 * 2 + 4 words. There is no more
/// than one graph to a group of the 4 * 32 nodes of template variables.
pub struct Plugged<'a> {
    words: &'a mut [u64],
    /// Words of a graph.
    size: usize,
    /// Template and gap of each word, rising.
    gaps: Vec<(u8, u8)>,
    attribute_gaps: Vec<(u8, u8)>,
    /// The word of a template's gap, by the gap's set of origins.
    places: [[u16; 32]; ROOTS],
    /// The graph of each group. One that several groups share is held by the first.
    graphs: Vec<Option<u8>>,
    holders: Vec<u8>,
}

/// A plug: the variable that becomes another with the gap filled, with templates or with strings, or any string.
struct Plug {
    to: u8,
    from: u8,
    /// The origins of the gap.
    origins: usize,
    set: u64,
    any: bool,
}

fn plug(statement: Statement, held: &[Sets]) -> Option<Plug> {
    match statement {
        Statement::Plug(to, from, gap, plugged) => {
            let set = held[plugged as usize][ROOTS].into();
            Some(Plug { to, from, origins: ORIGINS + gap as usize, set, any: false })
        }
        Statement::PlugString(to, from, gap, plugged) => {
            let (set, any) = strings(&held[(VARIABLES + plugged) as usize]);
            Some(Plug { to, from, origins: ATTRIBUTE_ORIGINS + gap as usize, set, any })
        }
        _ => None,
    }
}

/// Strings of a string variable; whether there may be any.
pub fn strings(sets: &Sets) -> (u64, bool) {
    (sets[STRINGS] as u64 | (sets[STRINGS + 1] as u64) << 32, sets[ANY] != 0)
}

impl<'a> Plugged<'a> {
    pub fn new(program: &Program, flows: &Flows, groups: &Groups, held: &[Sets], words: &'a mut [u64]) -> Plugged<'a> {
        let mut plugged = Plugged {
            words,
            size: 0,
            gaps: Vec::new(),
            attribute_gaps: Vec::new(),
            places: [[0; 32]; ROOTS],
            graphs: vec![None; groups.count()],
            holders: Vec::new(),
        };
        plugged.lay_out(program, held);
        plugged.plug_all(program, groups, held);
        for group in (0..groups.count()).rev() {
            let Some(graph) = plugged.graph(group) else { continue };
            for flow in groups.nodes(group).flat_map(|node| flows.of(node)) {
                plugged.join(groups.of(flow.to()), graph);
            }
        }
        plugged
    }

    fn lay_out(&mut self, program: &Program, held: &[Sets]) {
        let mut filled = [0u32; ROOTS];
        for (point, at) in program.points.iter().enumerate() {
            if let Some(plug) = plug(at.statement, &held[node(point, 0)..]) {
                filled[plug.origins] |= held[node(point, plug.from)][plug.origins];
            }
        }
        let mut count = 0;
        for (first, gaps) in [(ORIGINS, &mut self.gaps), (ATTRIBUTE_ORIGINS, &mut self.attribute_gaps)] {
            for template in members(filled[first..first + 8].iter().fold(0, |all, set| all | set)) {
                for gap in (0..8).filter(|gap| filled[first + gap] >> template & 1 == 1) {
                    self.places[first + gap][template] = count;
                    gaps.push((template as u8, gap as u8));
                    count += 1;
                }
            }
        }
        self.size = count as usize + self.attribute_gaps.len().div_ceil(64);
    }

    fn plug_all(&mut self, program: &Program, groups: &Groups, held: &[Sets]) {
        for (point, at) in program.points.iter().enumerate() {
            let Some(plug) = plug(at.statement, &held[node(point, 0)..]) else { continue };
            let origins = held[node(point, plug.from)][plug.origins];
            if origins == 0 || plug.set == 0 && !plug.any {
                continue;
            }
            for &next in at.steps() {
                self.fill(groups.of(node(next as usize, plug.to)), &plug, origins);
            }
        }
    }

    fn fill(&mut self, group: usize, plug: &Plug, origins: u32) {
        let start = match self.graph(group) {
            Some(graph) => graph * self.size,
            None => self.add_graph(group, None) * self.size,
        };
        let any_from = self.gaps.len() + self.attribute_gaps.len();
        for origin in members(origins) {
            let place = self.places[plug.origins][origin] as usize;
            self.words[start + place] |= plug.set;
            if plug.any {
                let index = place - self.gaps.len();
                self.words[start + any_from + index / 64] |= 1 << (index % 64);
            }
        }
    }

    /// A graph that the group holds: empty, or like another.
    fn add_graph(&mut self, group: usize, like: Option<usize>) -> usize {
        let graph = self.holders.len();
        self.holders.push(group as u8);
        self.graphs[group] = Some(graph as u8);
        let start = graph * self.size;
        match like {
            Some(other) => self.words.copy_within(other * self.size..(other + 1) * self.size, start),
            None => self.words[start..start + self.size].fill(0),
        }
        graph
    }

    /// Joins a graph that grows no more into a group's.
    fn join(&mut self, group: usize, graph: usize) {
        let own = match self.graph(group) {
            None => {
                self.graphs[group] = Some(graph as u8);
                return;
            }
            Some(own) if own == graph => return,
            Some(own) if self.holders[own] as usize == group => own,
            Some(shared) => self.add_graph(group, Some(shared)),
        };
        let (low, high) = self.words.split_at_mut(own.max(graph) * self.size);
        let lower = &mut low[own.min(graph) * self.size..][..self.size];
        let higher = &mut high[..self.size];
        let (into, from) = if own < graph { (lower, higher) } else { (higher, lower) };
        into.iter_mut().zip(from).for_each(|(into, from)| *into |= *from);
    }

    pub fn graph(&self, group: usize) -> Option<usize> {
        self.graphs[group].map(|graph| graph as usize)
    }

    pub fn count(&self) -> usize {
        self.holders.len()
    }

    /// The sets of templates, the sets of strings, and where there may be any.
    fn parts(&self, graph: usize) -> (&[u64], &[u64], impl Fn(usize) -> bool + '_) {
        let (edges, rest) = self.words[graph * self.size..][..self.size].split_at(self.gaps.len());
        let (strings, any) = rest.split_at(self.attribute_gaps.len());
        (edges, strings, |index| any[index / 64] >> (index % 64) & 1 == 1)
    }

    /// Bytes of a graph's items.
    pub fn length(&self, graph: usize) -> usize {
        let (edges, strings, any) = self.parts(graph);
        let edges: usize = edges.iter().map(|set| 4 * set.count_ones() as usize).sum();
        let strings = strings.iter().enumerate();
        edges + strings.map(|(index, set)| if any(index) { 3 } else { 4 * set.count_ones() as usize }).sum::<usize>()
    }

    pub fn write(&self, graph: usize, out: &mut Writer) {
        let (edges, strings, any) = self.parts(graph);
        for (&(template, gap), &set) in self.gaps.iter().zip(edges) {
            out.items(set, |to| [0x42, template, gap, to]);
        }
        let any = &any;
        let with_any = |wanted| (0..strings.len()).filter(move |&index| any(index) == wanted);
        for index in with_any(false) {
            let (template, gap) = self.attribute_gaps[index];
            out.items(strings[index], |string| [0x43, template, gap, string]);
        }
        for index in with_any(true) {
            let (template, gap) = self.attribute_gaps[index];
            out.put([0x44, template, gap]);
        }
    }
}
