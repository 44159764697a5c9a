//! What the programs that make records have in common: their arguments, and the two files that they write.

use crate::absent_facts;
use crate::landed::Landed;
use crate::random::Random;
use crate::random_vocabulary::{formula, many_facts, RuleDraft};
use crate::reader::TOO_MANY_FACTS;
use crate::records::push;
use std::io;

/// What records shall have much of. They have a little of all else.
#[derive(Clone, Copy, PartialEq, Eq, Debug)]
pub enum Much {
    Nothing,
    /// Blank text.
    Blank,
    /// Framed shows.
    Frames,
    /// Attributes that can be absent.
    Absent,
    /// Elements that are wrong in several ways.
    Kinds,
}

/// What records about wrong elements shall get.
const KIND_AIMS: [(u32, usize); 5] = [(0, 8), (11, 7), (12, 27), (14, 27), (15, 31)];

impl Much {
    /// The word that asks for it.
    fn word(self) -> &'static str {
        match self {
            Much::Nothing => "",
            Much::Blank => "blank",
            Much::Frames => "frames",
            Much::Absent => "absent",
            Much::Kinds => "kinds",
        }
    }

    /// The last request landed in the verdicts that records are chosen by.
    pub fn landed(self) -> Landed {
        match self {
            Much::Absent => Landed::F5,
            Much::Kinds => Landed::F6,
            _ => Landed::F4,
        }
    }

    /// A verdict number, out of those that records in general shall get, each with its share.
    pub fn aim(self, random: &mut Random, general: &[(u32, usize)]) -> u32 {
        let aims = match self {
            Much::Kinds => &KIND_AIMS,
            _ => general,
        };
        let more = |number: u32| if self == Much::Absent && number == TOO_MANY_FACTS { 6 } else { 0 };
        let weights: Vec<usize> = aims.iter().map(|&(number, weight)| weight + more(number)).collect();
        aims[random.weighted(&weights)].0
    }

    /// A formula about what `rule` allows, now and then about other things.
    pub fn formula(self, random: &mut Random, rule: &RuleDraft) -> Vec<u8> {
        match self {
            Much::Absent | Much::Kinds => absent_facts::formula(random, rule),
            _ => formula(random, rule),
        }
    }

    /// A clause of so many facts or, where it is not about attributes that are there, perhaps one more.
    pub fn many_facts(self, random: &mut Random, rule: &RuleDraft, least: usize) -> Vec<u8> {
        match self {
            Much::Absent | Much::Kinds => absent_facts::many_facts(random, rule, least),
            _ => many_facts(random, least),
        }
    }
}

pub struct Making {
    /// The records come of it.
    pub random: Random,
    /// For what is tried out with records besides.
    pub trials: Random,
    pub count: usize,
    pub much: Much,
    paths: [String; 2],
    records: Vec<u8>,
    lines: String,
}

impl Making {
    /// The arguments are SEED, COUNT, a file for records and one for lines, and a word if there shall be much of that.
    pub fn from_arguments(usage: &str, of: &[Much]) -> Making {
        let arguments: Vec<String> = std::env::args().skip(1).collect();
        let [seed, count, records_path, lines_path, more @ ..] = &arguments[..] else { panic!("{usage}") };
        let much = match more {
            [] => Some(Much::Nothing),
            [word] => of.iter().copied().find(|much| much.word() == word),
            _ => None,
        };
        let seed: u64 = seed.parse().expect("SEED is a number");
        Making {
            random: Random::new(seed),
            trials: Random::new(!seed),
            count: count.parse().expect("COUNT is a number"),
            much: much.unwrap_or_else(|| panic!("{usage}")),
            paths: [records_path.clone(), lines_path.clone()],
            records: Vec::new(),
            lines: String::new(),
        }
    }

    pub fn add(&mut self, slices: &[&[u8]], line: &str) {
        slices.iter().for_each(|slice| push(&mut self.records, slice));
        self.lines.push_str(line);
    }

    pub fn write(self) -> io::Result<()> {
        let [records_path, lines_path] = self.paths;
        std::fs::write(records_path, self.records)?;
        std::fs::write(lines_path, self.lines)
    }
}
