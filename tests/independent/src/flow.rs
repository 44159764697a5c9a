//! How what is held at the entry of a point flows on to the next points.

use crate::program::{Point, Program, Statement, VARIABLES};

/// All variables of a point, numbered as in `40`.
pub const AT_A_POINT: usize = 2 * VARIABLES as usize;

/// A variable at the entry of a point.
pub fn node(point: usize, variable: u8) -> usize {
    point * AT_A_POINT + variable as usize
}

/// What is held at a node, but for edges and strings at gaps. Of a template variable the origins of each gap and of
/// each attribute gap, and the roots, as sets of templates; of a string variable the strings.
pub type Sets = [u32; 20];
pub const ORIGINS: usize = 0;
pub const ATTRIBUTE_ORIGINS: usize = 8;
pub const ROOTS: usize = 16;
/// Two sets of 32 strings.
pub const STRINGS: usize = 0;
/// Not empty for any string.
pub const ANY: usize = 2;
/// A set that no node has. Two more fill up the last 16 bytes, which one instruction joins.
const NO_SET: usize = 17;

/// All that is held goes to node `to`, without one set.
#[derive(Clone, Copy)]
pub struct Flow {
    to: u8,
    without: u8,
}

impl Flow {
    pub fn to(self) -> usize {
        self.to as usize
    }

    pub fn without(self) -> usize {
        self.without as usize
    }
}

/// The variable that a statement changes, and those from which it takes something, each without one set.
struct Effect {
    changed: u8,
    sources: [(u8, usize); 2],
}

const NO_VARIABLE: u8 = AT_A_POINT as u8;
const NO_SOURCE: (u8, usize) = (NO_VARIABLE, NO_SET);

fn effect(statement: Statement) -> Effect {
    let (changed, sources) = match statement {
        Statement::Copy(to, from) => (to, [(from, NO_SET), NO_SOURCE]),
        Statement::Template(to, _) => (to, [NO_SOURCE; 2]),
        Statement::CopyString(to, from) => (VARIABLES + to, [(VARIABLES + from, NO_SET), NO_SOURCE]),
        Statement::String(to, _) | Statement::AnyString(to) => (VARIABLES + to, [NO_SOURCE; 2]),
        Statement::Plug(to, from, gap, plugged) => (to, [(from, ORIGINS + gap as usize), (plugged, ROOTS)]),
        Statement::PlugString(to, from, gap, _) => (to, [(from, ATTRIBUTE_ORIGINS + gap as usize), NO_SOURCE]),
        Statement::Show(_) | Statement::Framed(..) | Statement::Stop => (NO_VARIABLE, [NO_SOURCE; 2]),
    };
    Effect { changed, sources }
}

pub struct Flows {
    list: Vec<Flow>,
    /// Where the flows of each node start, and the end of all.
    starts: Vec<u16>,
}

impl Flows {
    pub fn new(program: &Program) -> Flows {
        let mut flows = Flows { list: Vec::with_capacity(256), starts: vec![0] };
        for point in &program.points {
            let effect = effect(point.statement);
            for variable in 0..AT_A_POINT as u8 {
                if program.named >> variable & 1 == 1 {
                    flows.add(point, &effect, variable);
                }
                flows.starts.push(flows.list.len() as u16);
            }
        }
        flows
    }

    fn add(&mut self, point: &Point, effect: &Effect, variable: u8) {
        for &next in different(point.steps()) {
            let mut flow = |to, without| {
                self.list.push(Flow { to: node(next as usize, to) as u8, without: without as u8 });
            };
            if variable != effect.changed {
                flow(variable, NO_SET);
            }
            for (source, without) in effect.sources {
                if source == variable {
                    flow(effect.changed, without);
                }
            }
        }
    }

    pub fn nodes(&self) -> usize {
        self.starts.len() - 1
    }

    pub fn of(&self, node: usize) -> &[Flow] {
        &self.list[self.starts[node] as usize..self.starts[node + 1] as usize]
    }
}

fn different(steps: &[u8]) -> &[u8] {
    match steps {
        [p, q] if p == q => &steps[..1],
        _ => steps,
    }
}

/// The nodes in groups: those of a group reach one another, and all flows lead to the same group or to one before it.
pub struct Groups {
    of: Vec<u8>,
    nodes: Vec<u8>,
    /// Where the nodes of each group end.
    ends: Vec<u16>,
}

impl Groups {
    pub fn new(flows: &Flows) -> Groups {
        let groups = Groups { of: vec![0; flows.nodes()], nodes: Vec::with_capacity(flows.nodes()), ends: vec![] };
        let mut search = Search { flows, groups, visited: 0, numbers: vec![0; flows.nodes()], open: vec![] };
        for node in 0..flows.nodes() {
            if search.numbers[node] == 0 {
                search.visit(node);
            }
        }
        search.groups
    }

    pub fn count(&self) -> usize {
        self.ends.len()
    }

    pub fn of(&self, node: usize) -> usize {
        self.of[node] as usize
    }

    /// In the order in which the search came to them, so that most flows lead onward.
    pub fn nodes(&self, group: usize) -> impl Iterator<Item = usize> + '_ {
        let from = if group == 0 { 0 } else { self.ends[group - 1] };
        self.nodes[from as usize..self.ends[group] as usize].iter().rev().map(|&node| node as usize)
    }
}

/// Tarjan's search for strongly connected components.
struct Search<'a> {
    flows: &'a Flows,
    groups: Groups,
    visited: u16,
    /// In the order of visits from 1; `CLOSED` once the node has its group.
    numbers: Vec<u16>,
    open: Vec<u8>,
}

const CLOSED: u16 = u16::MAX;

impl Search<'_> {
    /// The lowest number of an open node that is known to be reached.
    fn visit(&mut self, node: usize) -> u16 {
        self.visited += 1;
        let number = self.visited;
        self.numbers[node] = number;
        let place = self.open.len();
        self.open.push(node as u8);
        let flows = self.flows;
        let mut lowest = number;
        for flow in flows.of(node) {
            let reached = match self.numbers[flow.to()] {
                0 => self.visit(flow.to()),
                number => number,
            };
            lowest = lowest.min(reached);
        }
        if lowest < number {
            return lowest;
        }
        let group = self.groups.count() as u8;
        for node in self.open.drain(place..).rev() {
            self.numbers[node as usize] = CLOSED;
            self.groups.of[node as usize] = group;
            self.groups.nodes.push(node);
        }
        self.groups.ends.push(self.groups.nodes.len() as u16);
        CLOSED
    }
}
