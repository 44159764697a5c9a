//! Parts of jobs whose elements are wrong in several ways, in one page or in different ones: strings, templates and ways
//! through the program that leave gaps open bring them about.

use crate::exhaustive::found;
use crate::job::Job;
use crate::kind_rules::{are_mixed, hangs_on_pages, Kinds};
use crate::random::Random;
use crate::random_vocabulary::Draft;

/// Vocabulary, templates, program.
pub fn parts(random: &mut Random) -> (Draft, Vec<u8>, Vec<u8>) {
    let kinds = Kinds::random(random);
    let shape = Shape::random(random, kinds);
    let mut templates = Vec::new();
    for number in 1..=(shape.pages.len() + shape.fragments.len()) as u8 {
        let mut budget = random.from_to(0, 3);
        templates.push(0x20);
        if shape.pages.contains(&number) {
            shape.page(random, &mut budget, &mut templates);
        } else {
            shape.fragment(random, &mut budget, &mut templates);
        }
        templates.push(0x27);
    }
    templates.push(0x2F);
    let program = shape.program(random);
    (shape.kinds.draft, templates, program)
}

struct Shape {
    kinds: Kinds,
    /// Numbers of the templates that are pages, and of those that are plugged in.
    pages: Vec<u8>,
    fragments: Vec<u8>,
    gaps: usize,
    attribute_gaps: usize,
    /// How often something stands beside the root.
    beside: usize,
}

impl Shape {
    fn random(random: &mut Random, kinds: Kinds) -> Shape {
        let [pages, fragments] = [(1, 2), (1, 4)].map(|(from, to)| random.from_to(from, to));
        let mut numbers: Vec<u8> = (1..=(pages + fragments) as u8).collect();
        // The lowest wrong element shall stand in a page or in what is plugged in.
        if random.percent(60) {
            random.shuffle(&mut numbers);
        }
        Shape {
            kinds,
            fragments: numbers.split_off(pages),
            pages: numbers,
            gaps: random.from_to(1, 2),
            attribute_gaps: random.from_to(1, 2),
            beside: random.pick(&[0, 0, 0, 0, 0, 30]),
        }
    }

    fn page(&self, random: &mut Random, budget: &mut usize, bytes: &mut Vec<u8>) {
        self.element(random, self.kinds.draft.root, budget, bytes);
        if random.percent(self.beside) {
            match random.percent(50) {
                true => bytes.push(0x21),
                false => bytes.extend([0x22, random.below(self.gaps) as u8]),
            }
        }
    }

    fn fragment(&self, random: &mut Random, budget: &mut usize, bytes: &mut Vec<u8>) {
        for _ in 0..random.weighted(&[5, 75, 20]) {
            self.item(random, &[20, 10, 70], budget, bytes);
        }
    }

    /// Text, a gap or an element.
    fn item(&self, random: &mut Random, weights: &[usize; 3], budget: &mut usize, bytes: &mut Vec<u8>) {
        match random.weighted(weights) {
            0 => bytes.push(0x21),
            1 => bytes.extend([0x22, random.below(self.gaps) as u8]),
            _ => {
                let name = random.pick(&self.kinds.draft.elements());
                self.element(random, name, budget, bytes);
            }
        }
    }

    fn element(&self, random: &mut Random, name: u8, budget: &mut usize, bytes: &mut Vec<u8>) {
        bytes.extend([0x23, name]);
        let mut attributes = self.kinds.attributes.clone();
        random.shuffle(&mut attributes);
        for attribute in attributes {
            match random.below(10) {
                0..=3 => {}
                4..=5 => bytes.extend([0x24, attribute, self.string(random)]),
                _ => bytes.extend([0x25, attribute, random.below(self.attribute_gaps) as u8]),
            }
        }
        for _ in 0..random.weighted(&[15, 45, 30, 10]) {
            if *budget == 0 {
                break;
            }
            *budget -= 1;
            self.item(random, &[20, 50, 30], budget, bytes);
        }
        bytes.push(0x26);
    }

    fn string(&self, random: &mut Random) -> u8 {
        random.pick(&self.kinds.strings)
    }

    /// Loads a page, plugs in and shows. The first show may come before all plugs.
    fn program(&self, random: &mut Random) -> Vec<u8> {
        let mut program = Program::default();
        program.one_of(self.some(random, &[70, 30], |random| vec![0x31, 0, random.pick(&self.pages)]), None);
        if random.percent(30) {
            program.add(self.show(random));
        }
        for _ in 0..random.from_to(1, 3) {
            self.plug(random, &mut program);
        }
        program.add(self.show(random));
        program.bytes()
    }

    fn plug(&self, random: &mut Random, program: &mut Program) {
        let may_stay_open = random.percent(40);
        if random.percent(50) {
            let y = random.below(2) as u8;
            let strings = self.some(random, &[30, 35, 25, 10], |random| match random.below(20) {
                0 => vec![0x34, y],
                _ => vec![0x33, y, self.string(random)],
            });
            let plug = vec![0x36, 0, 0, random.below(self.attribute_gaps) as u8, y];
            program.one_of(strings, Some((plug, may_stay_open)));
        } else {
            let x = random.from_to(1, 2) as u8;
            let templates = self.some(random, &[30, 40, 30], |random| vec![0x31, x, random.pick(&self.fragments)]);
            let plug = vec![0x35, 0, 0, random.below(self.gaps) as u8, x];
            program.one_of(templates, Some((plug, may_stay_open)));
        }
    }

    /// One statement or more, as often as the weights say.
    fn some(&self, random: &mut Random, weights: &[usize], of: impl Fn(&mut Random) -> Vec<u8>) -> Vec<Vec<u8>> {
        (0..=random.weighted(weights)).map(|_| of(random)).collect()
    }

    fn show(&self, random: &mut Random) -> Vec<u8> {
        match random.below(20) {
            0..=1 => vec![0x39, random.from_to(1, 2) as u8, random.pick(&self.pages), random.below(self.gaps) as u8],
            2 => vec![0x39, 0, random.pick(&self.pages), random.below(self.gaps) as u8],
            _ => vec![0x37, 0],
        }
    }
}

/// Statements with their next points, at most 31.
#[derive(Default)]
struct Program(Vec<(Vec<u8>, [usize; 2])>);

impl Program {
    fn add(&mut self, statement: Vec<u8>) {
        let next = self.0.len() + 1;
        self.0.push((statement, [next; 2]));
    }

    /// A run does one or some of these, and then the plug; perhaps it goes past the plug.
    fn one_of(&mut self, statements: Vec<Vec<u8>>, plug: Option<(Vec<u8>, bool)>) {
        let end = self.0.len() + statements.len();
        for statement in statements {
            let next = self.0.len() + 1;
            self.0.push((statement, [end, next]));
        }
        if let Some((plug, may_stay_open)) = plug {
            self.0[end - 1].1[1] += may_stay_open as usize;
            self.add(plug);
        }
    }

    fn bytes(&self) -> Vec<u8> {
        let mut bytes = Vec::new();
        for (statement, next) in &self.0 {
            bytes.extend(statement);
            bytes.extend(next.map(|next| next as u8));
        }
        bytes.extend([0x38, 0x3F]);
        bytes
    }
}

/// The job reads, and pages of the show at this point are wrong in several ways; and the verdict on it hangs on which
/// pages there are, if it shall.
pub fn is_mixed(bytes: &[u8], point: u32, by_pages: bool) -> bool {
    let Ok(job) = Job::read(bytes) else { return false };
    found(&job, bytes, point as usize).is_some_and(|found| are_mixed(&found) && (!by_pages || hangs_on_pages(&found)))
}
