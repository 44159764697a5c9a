//! Scripts at random, that is jobs up to their `3F`: of all sizes and shapes, whole or damaged.

use crate::damage::damage;
use crate::frame_jobs;
use crate::making::Much;
use crate::random::Random;
use crate::random_jobs::{template, COMMANDS};
use crate::random_vocabulary::*;
use crate::vocabulary::Vocabulary;

pub fn script(random: &mut Random, much: Much) -> Vec<u8> {
    let mut parts = whole(random, much);
    let too_many_facts = if much == Much::Absent { 9 } else { 1 };
    match random.weighted(&[62, 4, 4, too_many_facts, 29]) {
        0 => {}
        1 => parts[2].push(random.pick(&[0x00, 0x38, 0x3F, 0x40, 0x4F])),
        2 if much == Much::Frames && random.percent(50) => parts[2] = frame_jobs::one_too_many(random, &parts[2]),
        2 => add_many(random, &mut parts),
        3 => {
            // Before `05` and the root.
            let end = parts[0].len() - 2;
            let clause = much.many_facts(random, &RuleDraft::default(), 9);
            parts[0].splice(end..end, [vec![0x04], clause].concat());
        }
        _ if much == Much::Frames && random.percent(60) => return frame_jobs::damaged(random, &parts.concat()),
        _ => {
            for _ in 0..random.weighted(&[0, 80, 20]) {
                // By parts, since statements are few among all commands.
                let part = random.weighted(&[25, 30, 45]);
                parts[part] = damage(random, &parts[part], &COMMANDS);
            }
        }
    }
    parts.concat()
}

/// Empty templates or stops before all others, perhaps too many.
fn add_many(random: &mut Random, [_, templates, program]: &mut [Vec<u8>; 3]) {
    let count = random.from_to(12, 33);
    if random.percent(50) {
        templates.splice(0..0, [0x20, 0x27].repeat(count));
    } else {
        program.splice(0..0, vec![0x38; count]);
    }
}

/// A script without a fault, as its word is chosen: vocabulary, templates, program.
pub fn whole(random: &mut Random, much: Much) -> [Vec<u8>; 3] {
    let shape = Shape::random(random, much);
    let mut draft = Draft::random(random);
    for _ in 0..random.below(3) {
        let index = random.below(draft.rules.len());
        let clause = much.formula(random, &draft.rules[index]);
        draft.rules[index].clauses.push(clause);
        // It may have too many facts.
        if Vocabulary::read_whole(&draft.bytes(), much.landed()).is_err() {
            draft.rules[index].clauses.pop();
        }
    }
    let templates = shape.templates(random, &draft);
    let templates = much.scatter(random, &templates);
    let program = shape.program(random);
    [draft.bytes(), templates, program]
}

/// One template of an item over and over, loaded again and again.
pub fn of_length(length: usize, item: u8) -> Vec<u8> {
    let [start, end] = [&[0x01, 1, 0x05, 1, 0x20][..], &[0x27, 0x2F, 0x31, 0, 1, 0, 0, 0x3F]];
    let items = vec![item; length - start.len() - end.len()];
    [start, &items, end].concat()
}

/// Where statements lead.
#[derive(Clone, Copy)]
enum Way {
    /// Straight on to a stop.
    On,
    /// On or back, round and round.
    Round,
    Back,
    Anywhere,
}

struct Shape {
    templates: usize,
    points: usize,
    /// Template variables and string variables in use.
    xs: Vec<u8>,
    ys: Vec<u8>,
    /// Gaps in templates; plugs go to absent ones too.
    gaps: usize,
    way: Way,
    /// How often a statement is a framed show or plugs a string in, where a load weighs 25.
    frames: usize,
    strings: usize,
    /// How many templates of a hundred start with an element of attribute gaps.
    attribute_gaps: usize,
}

impl Shape {
    fn random(random: &mut Random, much: Much) -> Shape {
        let (templates, points) = match random.weighted(&[15, 35, 30, 15, 5]) {
            0 => (random.below(3), random.from_to(1, 3)),
            1 => (random.from_to(1, 5), random.from_to(2, 8)),
            2 => (random.from_to(2, 14), random.from_to(6, 20)),
            3 => (random.from_to(12, 31), random.from_to(18, 32)),
            _ => (31, 32),
        };
        let [xs, ys] = [[10, 30, 30, 30], [15, 25, 30, 30]].map(|weights| random.weighted(&weights));
        Shape {
            templates,
            points,
            xs: random.rising(0, 4, xs + 1),
            ys: random.rising(0, 4, ys),
            gaps: random.pick(&[1, 2, 3, 8]),
            way: random.pick(&[Way::On, Way::Round, Way::Back, Way::Anywhere]),
            frames: if much == Much::Frames { 60 } else { 5 },
            strings: if much == Much::Absent { 40 } else { 16 },
            attribute_gaps: if much == Much::Absent { 85 } else { 40 },
        }
    }

    fn templates(&self, random: &mut Random, draft: &Draft) -> Vec<u8> {
        let mut bytes = Vec::new();
        for _ in 0..self.templates {
            bytes.push(0x20);
            for _ in 0..random.below(4) {
                bytes.extend([0x22, random.below(self.gaps) as u8]);
            }
            if random.percent(self.attribute_gaps) {
                bytes.extend([0x23, random.pick(&draft.elements())]);
                for attribute in random.rising(0, 32, self.gaps) {
                    bytes.extend([0x25, attribute, random.below(self.gaps) as u8]);
                }
                bytes.push(0x26);
            }
            let page = random.percent(20);
            template(random, draft, page, self.gaps, &mut bytes);
            bytes.push(0x27);
        }
        bytes.push(0x2F);
        bytes
    }

    fn program(&self, random: &mut Random) -> Vec<u8> {
        let mut bytes = Vec::new();
        for point in 0..self.points {
            let last = matches!(self.way, Way::On) && point + 1 == self.points;
            let statement = if last { vec![0x38] } else { self.statement(random) };
            let stops = statement[0] == 0x38;
            bytes.extend(statement);
            if !stops {
                bytes.extend([self.next(random, point), self.next(random, point)]);
            }
        }
        bytes.push(0x3F);
        bytes
    }

    fn next(&self, random: &mut Random, point: usize) -> u8 {
        let count = self.points;
        let next = match (self.way, random.below(100)) {
            (Way::On, 0..=97) => point + 1,
            (_, 0..=9) => point,
            (Way::Round, 10..=69) => (point + 1) % count,
            (Way::Round, 70..=89) | (Way::Back, 10..=84) => (point + count - 1) % count,
            _ => random.below(count),
        };
        next as u8
    }

    /// A statement without its next points.
    fn statement(&self, random: &mut Random) -> Vec<u8> {
        let x = |random: &mut Random| random.pick(&self.xs);
        let kinds = if self.ys.is_empty() { 6 } else { 10 };
        match random.weighted(&[25, 35, 8, 5, 3, self.frames, self.strings, 7, 6, 5][..kinds]) {
            0 => vec![0x31, x(random), random.below(self.templates + 1) as u8],
            1 => {
                let [to, from] = self.two(random, 60);
                // Now and then a value into itself.
                let plugged = if random.percent(15) { from } else { x(random) };
                vec![0x35, to, from, self.gap(random), plugged]
            }
            2 => vec![0x30, x(random), x(random)],
            3 => vec![0x37, x(random)],
            4 => vec![0x38],
            5 => vec![0x39, x(random), random.below(self.templates + 1) as u8, self.gap(random)],
            6 => {
                let [to, from] = self.two(random, 70);
                vec![0x36, to, from, self.gap(random), random.pick(&self.ys)]
            }
            7 => vec![0x33, random.pick(&self.ys), string(random)],
            8 => vec![0x32, random.pick(&self.ys), random.pick(&self.ys)],
            _ => vec![0x34, random.pick(&self.ys)],
        }
    }

    /// Two template variables, the same one as often as that.
    fn two(&self, random: &mut Random, percent: usize) -> [u8; 2] {
        let from = random.pick(&self.xs);
        let to = if random.percent(percent) { from } else { random.pick(&self.xs) };
        [to, from]
    }

    fn gap(&self, random: &mut Random) -> u8 {
        let gaps = if random.percent(15) { 8 } else { self.gaps };
        random.below(gaps) as u8
    }
}
