//! What the judges are timed on. Each maker takes a number of quarters of the full size.

use crate::slices::slice;

pub type Pair = (Vec<u8>, Vec<u8>);
type Maker = fn(usize) -> Pair;

pub const GROWING: [(&str, Maker); 5] = [
    ("wide", wide),
    ("nested", nested),
    ("many clauses", clauses),
    ("many clauses, shapes in turn", shapes),
    ("half blank text", blank),
];

const MOST: usize = 65_535;

/// The page records of a file: two slices each.
pub fn records(mut bytes: &[u8]) -> Vec<Pair> {
    std::iter::from_fn(|| Some((slice(&mut bytes)?, slice(&mut bytes)?))).collect()
}

/// Element 1 holds text and elements 2; element 2 has attribute 3 of a set, text, and order clauses.
fn rules(extra: usize) -> Vec<u8> {
    let mut v = vec![0x01, 1, 0x02, 0, 0x03, 0, 0x03, 1, 0x03, 2];
    v.extend([0x04, 0x11, 0x15, 2, 0x12, 0x15, 5]);
    v.extend([0x01, 2, 0x02, 3, 0x03, 0]);
    v.extend([0x04, 0x17, 3, 0, 0, 0, 0, 0, 0, 0, 0xFE]);
    v.extend([0x04, 0x10, 0x16, 0, 2, 0x14, 3]);
    for i in 0..extra {
        v.extend([0x04, 0x11, 0x16, (i % 60) as u8, 2, 0x12, 0x15, (i % 50) as u8 + 3]);
    }
    v.extend([0x05, 1]);
    v
}

/// A small element and text. No two that stand side by side are alike.
fn child(i: usize) -> [u8; 8] {
    [0x23, 2, 0x24, 3, 1 + (i % 7) as u8, 0x21, 0x26, 0x21]
}

/// The same, indented: half of it is blank text.
fn indented(i: usize) -> [u8; 16] {
    let string = 1 + (i % 7) as u8;
    [0x29, 0x29, 0x23, 2, 0x24, 3, string, 0x29, 0x29, 0x29, 0x21, 0x29, 0x29, 0x26, 0x29, 0x21]
}

/// One element around as many small ones as fit, and `filling` in what is left.
fn around<const N: usize>(child: fn(usize) -> [u8; N], filling: u8, quarters: usize) -> Pair {
    let size = MOST * quarters / 4;
    let mut page = vec![0x23, 1];
    for i in 0..(size - 4) / N {
        page.extend(child(i));
    }
    page.extend(std::iter::repeat(filling).take(size - page.len() - 2));
    page.extend([0x26, 0x27]);
    (rules(0), page)
}

fn wide(quarters: usize) -> Pair {
    around(child, 0x21, quarters)
}

fn blank(quarters: usize) -> Pair {
    around(indented, 0x29, quarters)
}

/// 1,024 elements in one another, each with text, so that the page has the full size.
fn nested(quarters: usize) -> Pair {
    let depth = 256 * quarters;
    let mut page = Vec::new();
    for _ in 0..depth {
        page.extend([0x23, 1]);
        page.extend([0x21; 60]);
    }
    page.extend(std::iter::repeat(0x26).take(depth));
    page.push(0x27);
    (rules(0), page)
}

/// Small elements under a rule of 1,000 clauses.
fn clauses(quarters: usize) -> Pair {
    let mut page = vec![0x23, 1];
    for i in 0..500 * quarters {
        page.extend(child(i));
    }
    page.extend([0x26, 0x27]);
    (rules(1000), page)
}

/// The same, every other one without text, so that no two that stand side by side have the same contents.
fn shapes(quarters: usize) -> Pair {
    let mut page = vec![0x23, 1];
    for i in 0..500 * quarters {
        let text: &[u8] = if i % 2 == 0 { &[0x21] } else { &[] };
        page.extend([0x23, 2, 0x24, 3, 1 + (i % 7) as u8]);
        page.extend(text);
        page.extend([0x26, 0x21]);
    }
    page.extend([0x26, 0x27]);
    (rules(1000), page)
}
