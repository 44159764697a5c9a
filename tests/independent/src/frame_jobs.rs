//! Parts of jobs with many framed shows. Frames have the gap or lack it, are pages or not, and stand around values in
//! which the same gap is open, or plugged, or which hold the frame itself. And framed shows at fault.

use crate::damage::commands;
use crate::random::Random;
use crate::random_jobs::{allow_more, template};
use crate::random_vocabulary::*;

/// Vocabulary, templates, program.
pub fn parts(random: &mut Random) -> (Draft, Vec<u8>, Vec<u8>) {
    let mut draft = Draft::random(random);
    if random.percent(85) {
        allow_more(random, &mut draft);
    }
    let mut shape = Shape::random(random);
    let mut templates = Vec::new();
    for number in 1..=shape.templates() as u8 {
        let mut items = Vec::new();
        if shape.pages.contains(&number) {
            page(random, &draft, shape.gaps, &mut items);
        } else if shape.others.contains(&number) {
            other_frame(random, &draft, shape.gaps, &mut items);
        } else {
            let page = random.percent(15);
            template(random, &draft, page, shape.gaps, &mut items);
        }
        let gaps = commands(&items).into_iter().filter(|command| command[0] == 0x22).map(|command| command[1]);
        shape.gaps_of.push(gaps.collect());
        templates.extend([&[0x20], &items[..], &[0x27]].concat());
    }
    templates.push(0x2F);
    (draft, templates, shape.program(random))
}

/// The root, mostly with gaps, some of them deep inside.
fn page(random: &mut Random, draft: &Draft, gaps: usize, bytes: &mut Vec<u8>) {
    if random.percent(25) {
        return template(random, draft, true, gaps, bytes);
    }
    let rule = draft.rule(draft.root).unwrap();
    bytes.extend([0x23, draft.root]);
    for &attribute in rule.attributes.iter().take(random.below(3)) {
        match random.percent(50) {
            true => bytes.extend([0x24, attribute, string(random)]),
            false => bytes.extend([0x25, attribute, random.below(gaps) as u8]),
        }
    }
    let inner: Vec<u8> = rule.contents.iter().copied().filter(|&c| draft.rule(c).is_some()).collect();
    for _ in 0..random.weighted(&[10, 55, 25, 10]) {
        let gap = random.below(gaps) as u8;
        match random.below(10) {
            0..=1 => bytes.push(0x21),
            2..=4 if !inner.is_empty() => {
                let depth = random.from_to(1, 3);
                bytes.extend([0x23, random.pick(&inner)].repeat(depth));
                bytes.extend([0x22, gap]);
                bytes.extend(vec![0x26; depth]);
            }
            _ => bytes.extend([0x22, gap]),
        }
    }
    bytes.push(0x26);
}

/// A gap alone, a gap beside the root, or anything: pages come of it only with the right values.
fn other_frame(random: &mut Random, draft: &Draft, gaps: usize, bytes: &mut Vec<u8>) {
    let gap = random.below(gaps) as u8;
    match random.below(4) {
        0..=1 => bytes.extend([0x22, gap]),
        2 => bytes.extend([0x22, gap, 0x23, draft.root, 0x26]),
        _ => template(random, draft, false, gaps, bytes),
    }
}

struct Shape {
    /// Templates: frames that are pages, other frames, fragments.
    pages: Vec<u8>,
    others: Vec<u8>,
    fragments: Vec<u8>,
    gaps: usize,
    /// The gaps of each template.
    gaps_of: Vec<Vec<u8>>,
    points: usize,
    /// Template variables in use, mostly not all.
    xs: Vec<u8>,
    /// Frames are pages.
    careful: bool,
}

impl Shape {
    fn random(random: &mut Random) -> Shape {
        let xs = random.weighted(&[0, 20, 45, 30, 5]);
        let [pages, others, fragments] = [(1, 3), (0, 2), (1, 4)].map(|(from, to)| random.from_to(from, to));
        let mut numbers: Vec<u8> = (1..=(pages + others + fragments) as u8).collect();
        // The lowest wrong element shall stand in the frame or in the value.
        if random.percent(60) {
            random.shuffle(&mut numbers);
        }
        Shape {
            fragments: numbers.split_off(pages + others),
            others: numbers.split_off(pages),
            pages: numbers,
            gaps: random.from_to(1, 3),
            gaps_of: vec![Vec::new()],
            points: random.weighted(&[0, 0, 0, 5, 10, 10, 10, 10, 10, 10, 10, 5, 5, 5, 5, 5, 2, 2, 2, 2, 2]),
            xs: random.rising(0, 4, xs),
            careful: random.percent(65),
        }
    }

    fn templates(&self) -> usize {
        self.pages.len() + self.others.len() + self.fragments.len()
    }

    fn program(&self, random: &mut Random) -> Vec<u8> {
        let mut statements = vec![self.load(random)];
        while statements.len() + 2 < self.points {
            match random.percent(12) {
                true => statements.extend(self.inside_itself(random)),
                false => statements.push(self.statement(random)),
            }
        }
        statements.extend([self.framed(random), vec![0x38]]);
        let count = statements.len();
        let mut bytes = Vec::new();
        for (point, statement) in statements.into_iter().enumerate() {
            let stops = statement[0] == 0x38;
            bytes.extend(statement);
            if !stops {
                let next = |random: &mut Random| if random.percent(80) { point + 1 } else { random.below(count) };
                bytes.extend([next(random) as u8, next(random) as u8]);
            }
        }
        bytes.push(0x3F);
        bytes
    }

    /// A frame with a gap plugged is shown inside itself, in a gap that it has or lacks.
    fn inside_itself(&self, random: &mut Random) -> Vec<Vec<u8>> {
        let [x, other] = [random.pick(&self.xs), random.pick(&self.xs)];
        let frame = random.pick(&self.pages);
        let gap = match &self.gaps_of[frame as usize][..] {
            [] => self.gap(random),
            gaps => random.pick(gaps),
        };
        let shown = if random.percent(60) { random.below(8) as u8 } else { self.gap(random) };
        vec![
            vec![0x31, other, random.pick(&self.fragments)],
            vec![0x31, x, frame],
            vec![0x35, x, x, gap, other],
            vec![0x39, x, frame, shown],
        ]
    }

    /// A statement without its next points.
    fn statement(&self, random: &mut Random) -> Vec<u8> {
        let x = |random: &mut Random| random.pick(&self.xs);
        let y = |random: &mut Random| random.below(2) as u8;
        match random.weighted(&[40, 20, 22, 4, 3, 6, 4, 4, 3]) {
            0 => self.framed(random),
            1 => self.load(random),
            2 => {
                let to = x(random);
                let from = if random.percent(70) { to } else { x(random) };
                vec![0x35, to, from, self.gap(random), x(random)]
            }
            3 => vec![0x30, x(random), x(random)],
            4 => vec![0x37, x(random)],
            5 => {
                let to = x(random);
                vec![0x36, to, to, self.gap(random), y(random)]
            }
            6 => vec![0x33, y(random), string(random)],
            7 => vec![0x34, y(random)],
            _ => vec![0x38],
        }
    }

    /// A fragment mostly, or nothing, or a frame, which then holds the frame's own template.
    fn load(&self, random: &mut Random) -> Vec<u8> {
        let template = match random.weighted(&[60, 10, 20, 10]) {
            0 => random.pick(&self.fragments),
            1 => 0,
            2 => random.pick(&self.pages),
            _ => random.from_to(1, self.templates()) as u8,
        };
        vec![0x31, random.pick(&self.xs), template]
    }

    fn framed(&self, random: &mut Random) -> Vec<u8> {
        let template = match random.below(10) {
            6 if !self.careful => 0,
            7 if !self.careful => random.from_to(1, self.templates()) as u8,
            8..=9 if !self.careful && !self.others.is_empty() => random.pick(&self.others),
            _ => random.pick(&self.pages),
        };
        let gaps = &self.gaps_of[template as usize];
        let gap = if gaps.is_empty() || random.percent(25) { self.gap(random) } else { random.pick(gaps) };
        vec![0x39, random.pick(&self.xs), template, gap]
    }

    /// Now and then one that no template has.
    fn gap(&self, random: &mut Random) -> u8 {
        let gaps = if random.percent(8) { 8 } else { self.gaps };
        random.below(gaps) as u8
    }
}

/// A job or a script with operands of a framed show out of range or not there, with its end inside one, or with a framed
/// show where none may stand.
pub fn damaged(random: &mut Random, bytes: &[u8]) -> Vec<u8> {
    let mut list = commands(bytes);
    let templates = list.iter().filter(|command| command[0] == 0x20).count() as u8;
    let points = list.iter().filter(|command| (0x30..=0x39).contains(&command[0])).count() as u8;
    let framed: Vec<usize> = (0..list.len()).filter(|&at| list[at].len() == 6 && list[at][0] == 0x39).collect();
    if framed.is_empty() || random.percent(15) {
        let place = random.below(list.len() + 1);
        list.insert(place, vec![0x39, 0, random.below(2) as u8, 0, 0, 0]);
        return list.concat();
    }
    let at = random.pick(&framed);
    // One fault, or several: the least number tells which comes first.
    for _ in 0..random.weighted(&[10, 60, 25, 5]) {
        match random.below(4) {
            0 => list[at][1] = random.pick(&[4, 5, 7, 8, 64, 255]),
            1 => list[at][2] = random.pick(&[templates + 1, templates + 1, 31, 32, 64, 255]),
            2 => list[at][3] = random.pick(&[8, 8, 9, 16, 255]),
            _ => list[at][random.from_to(4, 5)] = random.pick(&[points, points, 31, 32, 255]),
        }
    }
    match random.below(10) {
        0..=2 => {
            let left = random.from_to(1, 5);
            list.truncate(at + 1);
            list[at].truncate(left);
        }
        3 => drop(list[at].pop()),
        4 => list[at].push(0x39),
        _ => {}
    }
    list.concat()
}

/// A program with stops before it, so many that a framed show is one statement too many.
pub fn one_too_many(random: &mut Random, program: &[u8]) -> Vec<u8> {
    let list = commands(program);
    let framed: Vec<usize> = (0..list.len().min(32)).filter(|&at| list[at][0] == 0x39).collect();
    if framed.is_empty() {
        return program.to_vec();
    }
    [vec![0x38; 32 - random.pick(&framed)], program.to_vec()].concat()
}
