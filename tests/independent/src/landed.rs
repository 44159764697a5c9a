//! The last request of document 02 that has landed. Answers of older times are still given: records that are older are
//! chosen by the verdicts of their time, so that the same seed goes on to give the same bytes, and older lines can be
//! compared with the answers of theirs.

use crate::summary::{StringSet, ABSENT};

#[derive(Clone, Copy, PartialEq, Eq, PartialOrd, Ord, Debug)]
pub enum Landed {
    /// As before F-5: an attribute gap still open at a show takes string 0, and `14` is no fact.
    F4,
    /// As before F-6: its attribute goes, and each `14 a` is a fact. Whatever is wrong with an element, it is a 12.
    F5,
    /// As F-6 says: 12 for an attribute, 14 for a content, 15 for a clause.
    F6,
}

impl Landed {
    pub const NOW: Landed = Landed::F6;

    /// The only argument of a program, if there is any, is `before-F-5` or `before-F-6`.
    pub fn from_arguments() -> Landed {
        let arguments: Vec<String> = std::env::args().skip(1).collect();
        match arguments.iter().map(String::as_str).collect::<Vec<_>>()[..] {
            [] => Landed::NOW,
            ["before-F-5"] => Landed::F4,
            ["before-F-6"] => Landed::F5,
            _ => panic!("the only argument is before-F-5 or before-F-6"),
        }
    }

    /// What an origin of an attribute gap allows at a show besides what it takes.
    pub fn taken(self) -> StringSet {
        match self {
            Landed::F4 => 1,
            _ => ABSENT,
        }
    }
}
