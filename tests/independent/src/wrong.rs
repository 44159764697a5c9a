//! F-6: what is wrong with an element, and the number that tells it.

use crate::landed::Landed;
use crate::reader::*;

/// Of all that is wrong with an element in any page the first one in this order counts.
#[derive(Clone, Copy, PartialEq, Eq, PartialOrd, Ord, Debug)]
pub enum Wrong {
    /// It carries an attribute that isn't allowed.
    Attribute,
    /// It has a content that isn't allowed.
    Content,
    /// The clause at this place in its rule, from 0, fails.
    Clause(u32),
}

impl Wrong {
    /// For a page, point and template are 0.
    pub fn verdict(self, point: u32, template: u32, offset: u32, landed: Landed) -> Verdict {
        match self {
            Wrong::Content if landed >= Landed::F6 => [WRONG_CONTENT, point, template, offset],
            Wrong::Clause(place) if landed >= Landed::F6 => [WRONG_CLAUSE, point, place, offset],
            _ => [WRONG_ATTRIBUTE, point, template, offset],
        }
    }
}
