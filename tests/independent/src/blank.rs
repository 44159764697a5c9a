//! Blank text in records: scattered among items, put where it may not stand, and taken out again.

use crate::damage::commands;
use crate::making::Much;
use crate::random::Random;
use crate::reader::*;

impl Much {
    /// The item that fills a record up to its length.
    pub fn filler(self) -> u8 {
        match self {
            Much::Blank => 0x29,
            _ => 0x21,
        }
    }

    /// A page, or the templates of a job, with blank text at some of the places where items may stand.
    pub fn scatter(self, random: &mut Random, bytes: &[u8]) -> Vec<u8> {
        let percent = match self {
            Much::Blank => random.pick(&[15, 40, 90]),
            _ => random.pick(&[0, 0, 10, 30]),
        };
        let mut result = Vec::with_capacity(2 * bytes.len());
        for command in commands(bytes) {
            // Each of these is an item or ends a list of items.
            let place = matches!(command[0], 0x21 | 0x22 | 0x23 | 0x26 | 0x27);
            if place && random.percent(percent) {
                let length = random.pick(&[1, 1, 1, 1, 2, 3, 20]);
                result.extend(std::iter::repeat_n(0x29, length));
            }
            result.extend(command);
        }
        result
    }
}

/// One blank text more at any place, mostly one where it makes the bytes unreadable: before an attribute, or outside
/// lists of items.
pub fn misplace(random: &mut Random, bytes: &[u8]) -> Vec<u8> {
    let mut list = commands(bytes);
    let attributes: Vec<usize> = (0..list.len()).filter(|&at| matches!(list[at][0], 0x24 | 0x25 | 0x28)).collect();
    let place = if attributes.is_empty() || random.percent(50) {
        random.below(list.len() + 1)
    } else {
        random.pick(&attributes)
    };
    list.insert(place, vec![0x29]);
    list.concat()
}

/// The bytes of a page, a job or a script, one that reads, without its blank text.
pub fn without(bytes: &[u8]) -> Vec<u8> {
    commands(bytes).into_iter().filter(|command| command[0] != 0x29).flatten().collect()
}

/// Blank text moves the offset of a wrong element and changes nothing else in a verdict on a page or a job that reads.
/// Panics where that fails; `verdict` is the one that `of` gives on the bytes.
pub fn assert_only_moves(bytes: &[u8], verdict: Verdict, of: impl Fn(&[u8]) -> Verdict) {
    let [number, a, b, c] = verdict;
    if number != ACCEPTED[0] && number < START {
        return;
    }
    let wrong_element = matches!(number, WRONG_ATTRIBUTE | WRONG_CONTENT | WRONG_CLAUSE);
    let offset = if wrong_element { c as usize } else { 0 };
    let before = commands(&bytes[..offset]).iter().filter(|command| command[0] == 0x29).count();
    assert_eq!(of(&without(bytes)), [number, a, b, c - before as u32], "{verdict:?} on {bytes:02X?}");
}
