//! Page records whose elements are wrong in several ways.

use crate::exhaustive::found_in_page;
use crate::kind_rules::{are_mixed, Kinds};
use crate::landed::Landed;
use crate::making::Much;
use crate::random::Random;
use crate::random_pages::Record;
use crate::vocabulary::Vocabulary;

/// A page, mostly exactly the root. Its elements have any attributes and contents.
pub fn attempt(random: &mut Random, not_the_root: bool) -> Record {
    let kinds = Kinds::random(random);
    let mut budget = random.pick(&[0, 2, 4, 8, 20]);
    let mut page = Vec::new();
    element(random, &kinds, kinds.draft.root, 0, &mut budget, &mut page);
    match random.below(3) {
        _ if !not_the_root => {}
        0 => page.push(0x21),
        1 => page.insert(0, 0x21),
        _ => page = page.repeat(2),
    }
    page.push(0x27);
    Record { vocabulary: kinds.draft.bytes(), page: Much::Kinds.scatter(random, &page) }
}

fn element(random: &mut Random, kinds: &Kinds, name: u8, depth: usize, budget: &mut usize, page: &mut Vec<u8>) {
    page.extend([0x23, name]);
    let mut attributes = kinds.attributes.clone();
    random.shuffle(&mut attributes);
    for attribute in attributes {
        match random.below(10) {
            0..=4 => {}
            5 => page.extend([0x28, attribute]),
            _ => page.extend([0x24, attribute, random.pick(&kinds.strings)]),
        }
    }
    for _ in 0..random.from_to(0, 3) {
        if *budget == 0 || depth == 40 {
            break;
        }
        *budget -= 1;
        if random.percent(35) {
            page.push(0x21);
        } else {
            let name = random.pick(&kinds.draft.elements());
            element(random, kinds, name, depth + 1, budget, page);
        }
    }
    page.push(0x26);
}

/// The page reads and is wrong in several ways.
pub fn is_mixed(record: &Record) -> bool {
    let Ok(vocabulary) = Vocabulary::read_whole(&record.vocabulary, Landed::NOW) else { return false };
    are_mixed(&found_in_page(&vocabulary, &record.page))
}
