//! Page records on both sides of each limit.

use crate::random_pages::Record;
use crate::reader::LONGEST;

/// Element 1, the root, allows attribute 0, text and itself, and has text somewhere; element 2 has an empty rule.
pub const RULES: [u8; 13] = [0x01, 2, 0x01, 1, 0x02, 0, 0x03, 0, 0x03, 1, 0x04, 0x15, 0];
pub const ROOT: [u8; 2] = [0x05, 1];
const RIGHT_PAGE: [u8; 5] = [0x23, 1, 0x21, 0x26, 0x27];

pub fn all() -> Vec<Record> {
    let mut records = lengths();
    for clause in nested_formulas() {
        records.push(Record { vocabulary: with_clause(&clause), page: RIGHT_PAGE.to_vec() });
    }
    records.extend(nested_pages());
    records.extend(blank_pages());
    for clause in many_facts() {
        records.push(Record { vocabulary: with_clause(&clause), page: RIGHT_PAGE.to_vec() });
    }
    for clause in many_presences() {
        for attribute in [&[][..], &[0x24, 0, 0], &[0x28, 0]] {
            let page = [&RIGHT_PAGE[..2], attribute, &RIGHT_PAGE[2..]].concat();
            records.push(Record { vocabulary: with_clause(&clause), page });
        }
    }
    records
}

pub fn with_clause(clause: &[u8]) -> Vec<u8> {
    [&RULES[..], &[0x04], clause, &ROOT].concat()
}

/// A vocabulary of `length` bytes whose last clause is `last`; the clauses before it hold always.
pub fn long_vocabulary(length: usize, last: &[u8]) -> Vec<u8> {
    let mut vocabulary = RULES.to_vec();
    let end = [&[0x04][..], last, &ROOT].concat();
    while vocabulary.len() + end.len() < length {
        // Clauses of two and of three bytes reach every length.
        if (length - vocabulary.len() - end.len()).is_multiple_of(2) {
            vocabulary.extend([0x04, 0x13]);
        } else {
            vocabulary.extend([0x04, 0x15, 0]);
        }
    }
    [vocabulary, end].concat()
}

/// One root of texts, `length` bytes in all with the element `inner` last.
fn long_page(length: usize, inner: &[u8]) -> Vec<u8> {
    let mut page = vec![0x23, 1];
    page.resize(length - inner.len() - 2, 0x21);
    page.extend(inner);
    page.extend([0x26, 0x27]);
    page
}

fn lengths() -> Vec<Record> {
    let short = with_clause(&[0x13]);
    let mut records = Vec::new();
    let mut add = |vocabulary: Vec<u8>, page: Vec<u8>| records.push(Record { vocabulary, page });
    for length in [LONGEST, LONGEST + 1] {
        add(long_vocabulary(length, &[0x13]), RIGHT_PAGE.to_vec());
        add(long_vocabulary(length, &[0x14, 0]), RIGHT_PAGE.to_vec());
        add(short.clone(), long_page(length, &[]));
        add(short.clone(), long_page(length, &[0x23, 1, 0x26]));
    }
    add(long_vocabulary(LONGEST, &[0x13]), long_page(LONGEST, &[]));
    add(long_vocabulary(LONGEST, &[0x13]), long_page(LONGEST + 1, &[]));
    add(long_vocabulary(LONGEST + 1, &[0x13]), long_page(LONGEST + 1, &[]));
    // A fault of the vocabulary comes before the page's length.
    add(vec![0x05, 1], long_page(LONGEST + 1, &[]));
    add([&short[..], &[0]].concat(), long_page(LONGEST + 1, &[]));
    // The longest slices that are cut, that go on after their end, or whose last command is at fault.
    let whole = long_page(LONGEST + 1, &[]);
    add(short.clone(), whole[..LONGEST].to_vec());
    add(short.clone(), [&long_page(LONGEST - 1, &[])[..], &[0x27]].concat());
    add(short.clone(), long_page(LONGEST, &[0x23, 3, 0x26]));
    let vocabulary = long_vocabulary(LONGEST + 1, &[0x13]);
    add(vocabulary[..LONGEST].to_vec(), RIGHT_PAGE.to_vec());
    add([&long_vocabulary(LONGEST - 1, &[0x13])[..], &[0]].concat(), RIGHT_PAGE.to_vec());
    let texts = [[0x21].repeat(LONGEST - 1), vec![0x27]].concat();
    add(short, texts);
    records
}

/// Formulas of 16 and 17 nested connectives.
pub fn nested_formulas() -> Vec<Vec<u8>> {
    let mut formulas = Vec::new();
    for depth in [16, 17] {
        formulas.push([vec![0x12; depth], vec![0x13]].concat());
        for connective in [0x10, 0x11] {
            let left = [vec![connective; depth], vec![0x13; depth + 1]].concat();
            let right = [[connective, 0x13].repeat(depth), vec![0x13]].concat();
            formulas.push(left);
            formulas.push(right);
        }
        // The deep side comes second, under connectives of each kind: in turn the first, the third, the second.
        let mut mixed = Vec::new();
        for level in 0..depth {
            mixed.extend([&[0x10, 0x15, 0][..], &[0x11, 0x14, 0], &[0x12]][level * 2 % 3]);
        }
        mixed.push(0x13);
        formulas.push(mixed);
    }
    formulas
}

fn nested(depth: usize, inner: &[u8]) -> Vec<u8> {
    [[0x23, 1, 0x21].repeat(depth), inner.to_vec(), vec![0x26; depth]].concat()
}

fn nested_pages() -> Vec<Record> {
    // At most one text, none after an element, and attribute 0 from a set: strings 1 and 63.
    let strict = [&[0x10, 0x16, 0, 0, 0x10, 0x16, 0, 1, 0x17, 0][..], &(1u64 << 63 | 2).to_be_bytes()].concat();
    let mut records = Vec::new();
    for clause in [vec![0x13], strict] {
        let vocabulary = with_clause(&clause);
        let mut add = |items: Vec<u8>| {
            let page = [items, vec![0x27]].concat();
            records.push(Record { vocabulary: vocabulary.clone(), page });
        };
        for depth in [1024, 1025] {
            add(nested(depth, &[]));
            add(nested(depth, &[0x21]));
            add(nested(depth - 1, &[0x23, 1, 0x24, 0, 63, 0x21, 0x26]));
            add(nested(depth - 1, &[0x23, 1, 0x28, 0, 0x21, 0x26]));
            // An element without a rule comes before nesting, as does one out of range.
            add(nested(depth - 1, &[0x23, 3, 0x26]));
            add(nested(depth - 1, &[0x23, 64, 0x26]));
            let again = nested(depth - 2, &[]);
            add([&[0x23, 1, 0x21], &nested(1022, &[])[..], &again, &[0x26]].concat());
            // Left open, and closed once too often.
            add(nested(depth, &[])[..depth * 3].to_vec());
            add([nested(depth, &[]), vec![0x26]].concat());
        }
    }
    records
}

/// Nearly all blank text: beside the root, in it, or nothing else.
fn blank_pages() -> Vec<Record> {
    // At least one text, and at most one.
    let vocabulary = with_clause(&[0x16, 0, 0]);
    let mut records = Vec::new();
    let mut add = |page: Vec<u8>| records.push(Record { vocabulary: vocabulary.clone(), page });
    let mut fill = |length: usize, before: &[u8], after: &[u8]| {
        let blank = vec![0x29; length - before.len() - after.len()];
        add([before, &blank, after].concat());
    };
    for (before, after) in [
        (&[][..], &[0x23, 1, 0x21, 0x26, 0x27][..]),
        (&[0x23, 1], &[0x21, 0x26, 0x27]),
        (&[0x23, 1, 0x21], &[0x26, 0x27]),
        (&[0x23, 1, 0x21, 0x26], &[0x27]),
        (&[], &[0x27]),
        (&[0x21], &[0x23, 1, 0x21, 0x26, 0x27]),
        (&[0x23, 1, 0x21, 0x26], &[0x21, 0x27]),
        (&[0x23, 1, 0x21, 0x26], &[0x23, 1, 0x21, 0x26, 0x27]),
        (&[0x23, 1], &[0x26, 0x27]),
        (&[0x23, 1, 0x21], &[0x21, 0x26, 0x27]),
        (&[0x23, 1, 0x21], &[0x23, 1, 0x26, 0x26, 0x27]),
        // An attribute after blank text, blank text after the end, and no end.
        (&[0x23, 1], &[0x24, 0, 0, 0x21, 0x26, 0x27]),
        (&[0x23, 1, 0x21, 0x26, 0x27], &[]),
        (&[0x23, 1, 0x21, 0x26], &[]),
    ] {
        fill(LONGEST, before, after);
    }
    fill(LONGEST + 1, &[], &RIGHT_PAGE);
    fill(LONGEST + 1, &RIGHT_PAGE[..4], &[0x27]);
    for depth in [1024, 1025] {
        let nested = [[0x23, 1, 0x29, 0x21, 0x29].repeat(depth), [0x26, 0x29].repeat(depth)].concat();
        add([&nested[..], &[0x27]].concat());
    }
    records
}

/// Clauses of eight and of nine facts.
pub fn many_facts() -> Vec<Vec<u8>> {
    let content = |c: u8| vec![0x15, c];
    let order = |c: u8, d: u8| vec![0x16, c, d];
    let value = |a: u8, m: u64| [&[0x17, a][..], &m.to_be_bytes()].concat();
    let one_each = |from: u8, to: u8| (from..to).map(content).collect::<Vec<_>>();
    let unique = |to: u8| (0..to).map(|c| order(c, c)).collect::<Vec<_>>();
    let pairs = |count: usize| {
        let all = [(0, 0), (0, 1), (1, 0), (1, 2), (2, 1), (2, 2)];
        all[..count].iter().map(|&(c, d)| order(c, d)).collect::<Vec<_>>()
    };
    let sets = |count: u32| (0..count).map(|i| value(0, 1 << i)).collect::<Vec<_>>();
    let attributes = |count: u8| (0..count).map(|a| value(a, 1)).collect::<Vec<_>>();
    let lists = [
        one_each(0, 8),
        one_each(0, 9),
        unique(4),
        [unique(4), vec![content(4)]].concat(),
        [unique(4), vec![content(3), order(1, 1)]].concat(),
        [unique(4), vec![order(0, 1)]].concat(),
        [unique(4), vec![value(31, u64::MAX)]].concat(),
        pairs(5),
        pairs(6),
        [pairs(5), one_each(0, 3)].concat(),
        [pairs(5), one_each(0, 4)].concat(),
        sets(8),
        sets(9),
        [sets(8), sets(8)].concat(),
        attributes(8),
        attributes(9),
        [sets(4), pairs(2), vec![content(0), content(1)]].concat(),
        [sets(4), pairs(2), vec![content(0), content(2)]].concat(),
        [sets(5), pairs(2)].concat(),
        [sets(8), vec![vec![0x14, 0], vec![0x14, 1], vec![0x13]]].concat(),
    ];
    lists.into_iter().flat_map(|list| [under(0x10, list.clone()), under(0x11, list)]).collect()
}

/// Clauses of eight and of nine facts, attributes that are there among them.
pub fn many_presences() -> Vec<Vec<u8>> {
    let there = |from: u8, to: u8| (from..to).map(|a| vec![0x14, a]).collect::<Vec<_>>();
    let sets =
        |count: u64| (0..count).map(|i| [&[0x17, 0][..], &(1u64 << i).to_be_bytes()].concat()).collect::<Vec<_>>();
    let contents = |to: u8| (0..to).map(|c| vec![0x15, c]).collect::<Vec<_>>();
    let unique = |to: u8| (0..to).map(|c| vec![0x16, c, c]).collect::<Vec<_>>();
    let lists = [
        there(0, 8),
        there(24, 32),
        there(0, 9),
        [there(0, 8), there(0, 8), vec![vec![0x13]]].concat(),
        there(0, 32),
        [sets(7), there(0, 1)].concat(),
        [sets(7), there(0, 1), there(0, 1), sets(3)].concat(),
        [sets(8), there(0, 1)].concat(),
        [sets(7), there(0, 2)].concat(),
        [contents(7), there(31, 32)].concat(),
        [contents(8), there(31, 32)].concat(),
        [unique(3), there(0, 2)].concat(),
        [unique(3), there(0, 3)].concat(),
        [unique(2), sets(2), there(0, 2), contents(2)].concat(),
        [unique(2), sets(2), there(0, 2), contents(3)].concat(),
    ];
    lists.into_iter().flat_map(|list| [under(0x10, list.clone()), under(0x11, list)]).collect()
}

/// The formulas under one connective, halves on each side, so that it does not nest too deep.
fn under(connective: u8, mut formulas: Vec<Vec<u8>>) -> Vec<u8> {
    if formulas.len() == 1 {
        return formulas.pop().unwrap();
    }
    let right = formulas.split_off(formulas.len() / 2);
    [vec![connective], under(connective, formulas), under(connective, right)].concat()
}
