//! The smallest covering proposal of a job that ends with `3F`.

use crate::flow::*;
use crate::held::held;
use crate::landed::Landed;
use crate::plugged::{strings, Plugged};
use crate::program::{Program, VARIABLES};
use crate::reader::*;
use crate::templates::Templates;
use crate::vocabulary::Vocabulary;
use crate::writer::Writer;

/// Least length of the work area.
pub const WORK: usize = 131_072;

/// The verdict, and the bytes written: none with a refusal.
#[derive(Clone, Copy, Debug, PartialEq, Eq)]
pub struct Inferred {
    pub verdict: Verdict,
    pub written: usize,
}

impl Inferred {
    fn refused(verdict: Verdict) -> Inferred {
        Inferred { verdict, written: 0 }
    }
}

/// Writes the proposal, `4F` included, into the buffer from `place` on. All else in the buffer stays as it was, and
/// with a refusal all of it. The work area is all zero after success and after a 13 about the buffer, whatever it held;
/// any other refusal leaves it as it was.
pub fn infer(job: &[u8], work: &mut [u64], buffer: &mut [u8], place: usize) -> Inferred {
    infer_as(job, Landed::NOW, work, buffer, place)
}

pub fn infer_as(job: &[u8], landed: Landed, work: &mut [u64], buffer: &mut [u8], place: usize) -> Inferred {
    let (templates, program) = match read(job, landed) {
        Ok(read) => read,
        Err(fault) => return Inferred::refused(fault.verdict(0)),
    };
    if work.len() < WORK {
        return Inferred::refused([NO_ROOM, WORK as u32, 0, 0]);
    }
    let proposal = Least::new(&program, &templates, work);
    let length = proposal.length();
    let room = buffer.get_mut(place..).and_then(|rest| rest.get_mut(..length));
    let answer = match room {
        Some(bytes) => {
            proposal.write(bytes);
            Inferred { verdict: ACCEPTED, written: length }
        }
        None => Inferred::refused([NO_ROOM, length as u32, 0, 0]),
    };
    work.fill(0);
    answer
}

fn read(job: &[u8], landed: Landed) -> Result<(Templates, Program), Fault> {
    let mut reader = Reader::new(job)?;
    let vocabulary = Vocabulary::read(&mut reader, landed)?;
    let templates = Templates::read(&mut reader, &vocabulary)?;
    let program = Program::read(&mut reader, &templates)?;
    reader.end()?;
    Ok((templates, program))
}

/// The least proposal, before it is written down.
struct Least<'a> {
    groups: Groups,
    held: Vec<Sets>,
    plugged: Plugged<'a>,
}

/// Something is held of a variable at the entry of a point.
struct Entry<'a> {
    point: u8,
    variable: u8,
    sets: &'a Sets,
    graph: Option<usize>,
}

impl<'a> Least<'a> {
    fn new(program: &Program, templates: &Templates, work: &'a mut [u64]) -> Least<'a> {
        let flows = Flows::new(program);
        let groups = Groups::new(&flows);
        let held = held(program, templates, &flows, &groups);
        let plugged = Plugged::new(program, &flows, &groups, &held, work);
        Least { groups, held, plugged }
    }

    /// In the order of heads.
    fn entries(&self) -> impl Iterator<Item = Entry<'_>> {
        let entries = self.held.iter().enumerate().map(|(node, sets)| Entry {
            point: (node / AT_A_POINT) as u8,
            variable: (node % AT_A_POINT) as u8,
            sets,
            graph: self.plugged.graph(self.groups.of(node)),
        });
        entries.filter(|entry| *entry.sets != Sets::default() || entry.graph.is_some())
    }

    fn length(&self) -> usize {
        let graphs: Vec<usize> = (0..self.plugged.count()).map(|graph| self.plugged.length(graph)).collect();
        let count = |sets: &[u32]| sets.iter().map(|set| set.count_ones() as usize).sum::<usize>();
        let items = |entry: Entry| match (entry.variable, strings(entry.sets)) {
            (0..VARIABLES, _) => {
                let graph = entry.graph.map_or(0, |graph| graphs[graph]);
                2 * count(&entry.sets[ROOTS..]) + graph + 3 * count(&entry.sets[..ROOTS])
            }
            (_, (_, true)) => 1,
            (_, (listed, false)) => 2 * listed.count_ones() as usize,
        };
        self.entries().map(|entry| 3 + items(entry)).sum::<usize>() + 1
    }

    fn write(&self, bytes: &mut [u8]) {
        let mut out = Writer::new(bytes);
        // Where the items of each graph stand once they are written.
        let mut places = vec![None; self.plugged.count()];
        for entry in self.entries() {
            out.put([0x40, entry.point, entry.variable]);
            match (entry.variable, strings(entry.sets)) {
                (0..VARIABLES, _) => self.write_template_variable(&mut out, &entry, &mut places),
                (_, (_, true)) => out.put([0x48]),
                (_, (listed, false)) => out.items(listed, |string| [0x47, string]),
            }
        }
        out.put([0x4F]);
    }

    fn write_template_variable(&self, out: &mut Writer, entry: &Entry, places: &mut [Option<(usize, usize)>]) {
        out.items(entry.sets[ROOTS].into(), |root| [0x41, root]);
        if let Some(graph) = entry.graph {
            self.write_graph(out, graph, &mut places[graph]);
        }
        for (command, first) in [(0x45, ORIGINS), (0x46, ATTRIBUTE_ORIGINS)] {
            for gap in 0..8 {
                out.items(entry.sets[first + gap].into(), |origin| [command, gap as u8, origin]);
            }
        }
    }

    fn write_graph(&self, out: &mut Writer, graph: usize, place: &mut Option<(usize, usize)>) {
        if let Some((from, to)) = *place {
            return out.again(from..to);
        }
        let from = out.at;
        self.plugged.write(graph, out);
        *place = Some((from, out.at));
    }
}
