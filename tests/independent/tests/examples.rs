//! Job J1 of document 01 with its variants, and small pages.

use independent::{check, judge};

const VOCABULARY: &str = "01 01 02 00 03 02 04 16 02 02 04 15 02 01 02 03 00 05 01";
const TEMPLATES: &str = "20 23 01 22 00 26 27 20 23 02 21 26 27 2F";
const PROGRAM: &str = "31 00 01 01 01 31 01 02 02 02 35 00 00 00 01 03 03 37 00 04 04 38 3F";
const PROPOSAL: &str = "40 00 00 41 00 40 00 01 41 00 40 01 00 41 01 45 00 01 40 01 01 41 00 \
    40 02 00 41 01 45 00 01 40 02 01 41 02 40 03 00 41 01 42 01 00 02 40 03 01 41 02 \
    40 04 00 41 01 42 01 00 02 40 04 01 41 02 4F";

fn bytes(text: &str) -> Vec<u8> {
    text.split_whitespace().map(|byte| u8::from_str_radix(byte, 16).unwrap()).collect()
}

fn j1() -> String {
    [VOCABULARY, TEMPLATES, PROGRAM, PROPOSAL].join(" ").split_whitespace().collect::<Vec<_>>().join(" ")
}

/// J1 with parts of its text put in place of others, each found once.
fn variant(changes: &[(&str, &str)]) -> [u32; 4] {
    let mut text = j1();
    for (old, new) in changes {
        assert_eq!(text.matches(old).count(), 1, "{old}");
        text = text.replace(old, new);
    }
    check(&bytes(&text))
}

#[test]
fn j1_is_accepted() {
    assert_eq!(bytes(&j1()).len(), 121);
    assert_eq!(variant(&[]), [0, 0, 0, 0]);
}

#[test]
fn cut_or_lengthened() {
    assert_eq!(check(&[]), [2, 0, 0, 0]);
    assert_eq!(check(&bytes(&j1())[..120]), [2, 120, 0, 0]);
    assert_eq!(check(&[bytes(&j1()), vec![0]].concat()), [3, 121, 0, 0]);
}

#[test]
fn not_covered() {
    assert_eq!(variant(&[("40 00 00 41 00 ", "40 00 00 ")]), [9, 0, 0, 0]);
    assert_eq!(variant(&[("40 02 00 41 01 45 00 01 ", "40 02 00 41 01 ")]), [10, 1, 2, 0]);
    assert_eq!(variant(&[("40 03 00 41 01 42 01 00 02 ", "40 03 00 41 01 ")]), [10, 2, 3, 0]);
}

#[test]
fn wrong_pages() {
    let copied = [
        ("35 00 00 00 01 03 03", "30 00 00 03 03"),
        ("40 03 00 41 01 42 01 00 02", "40 03 00 41 01 42 01 00 02 45 00 01"),
        ("40 04 00 41 01 42 01 00 02", "40 04 00 41 01 42 01 00 02 45 00 01"),
    ];
    assert_eq!(variant(&copied), [15, 3, 1, 20]);
    assert_eq!(variant(&[("22 00", "22 00 22 00")]), [15, 3, 0, 20]);
    assert_eq!(variant(&[("37 00 04 04", "37 01 04 04")]), [11, 3, 2, 0]);
}

#[test]
fn templates_without_pages() {
    let third = [
        ("27 2F", "27 20 22 01 27 2F"),
        ("40 03 00 41 01 42 01 00 02", "40 03 00 41 01 41 03 42 01 00 02"),
        ("40 04 00 41 01 42 01 00 02", "40 04 00 41 01 41 03 42 01 00 02"),
    ];
    assert_eq!(variant(&third), [0, 0, 0, 0]);
    let open = [
        third[0],
        ("40 03 00 41 01 42 01 00 02", "40 03 00 41 01 41 03 42 01 00 02 45 01 03"),
        ("40 04 00 41 01 42 01 00 02", "40 04 00 41 01 41 03 42 01 00 02 45 01 03"),
    ];
    assert_eq!(variant(&open), [11, 3, 3, 0]);
}

/// Attribute 0 is in the set, or it is not: true of any string, though neither is.
#[test]
fn facts_are_tested_together() {
    let set = "17 00 00 00 00 00 00 00 00 06";
    let rest = "20 23 01 25 00 00 26 27 2F 31 00 01 01 01 34 00 02 02 36 00 00 00 00 03 03 37 00 04 04 38 3F \
        40 00 00 41 00 40 00 04 47 00 40 01 00 41 01 46 00 01 40 01 04 47 00 40 02 00 41 01 46 00 01 40 02 04 48 \
        40 03 00 41 01 44 01 00 40 03 04 48 40 04 00 41 01 44 01 00 40 04 04 48 4F";
    let job = |formula: &str| bytes(&format!("01 01 02 00 04 {formula} 05 01 {rest}"));
    assert_eq!(check(&job(&format!("11 {set} 12 {set}"))), [0, 0, 0, 0]);
    assert_eq!(check(&job(set)), [15, 3, 0, 18]);
}

fn page(vocabulary: &str, page: &str) -> [u32; 4] {
    judge(&bytes(vocabulary), &bytes(page))
}

#[test]
fn pages() {
    assert_eq!(page(VOCABULARY, "23 01 23 02 21 26 26 27"), [0, 0, 0, 0]);
    assert_eq!(page(VOCABULARY, "23 01 26 27"), [15, 0, 1, 0]);
    assert_eq!(page(VOCABULARY, "23 01 23 02 26 23 02 26 26 27"), [15, 0, 0, 0]);
    assert_eq!(page(VOCABULARY, "23 01 23 02 28 00 26 26 27"), [12, 0, 0, 2]);
    assert_eq!(page(VOCABULARY, "23 01 28 00 23 02 26 26 27"), [0, 0, 0, 0]);
    assert_eq!(page(VOCABULARY, "23 01 28 00 24 00 01 26 27"), [5, 4, 1, 0]);
    assert_eq!(page(VOCABULARY, "23 02 26 27"), [11, 0, 0, 0]);
    assert_eq!(page(VOCABULARY, "27"), [11, 0, 0, 0]);
    assert_eq!(page(VOCABULARY, "23 01 25 00 00 26 27"), [3, 2, 1, 0]);
    assert_eq!(page(VOCABULARY, "23 01"), [2, 2, 1, 0]);
    assert_eq!(page("05 01", "23 01"), [8, 0, 0, 0]);
}

/// Strings of the set and the absent attribute pass, all others fail, one outside 0-63 too.
#[test]
fn values() {
    let vocabulary = "01 3F 02 1F 04 17 1F 80 00 00 00 00 00 00 01 05 3F";
    assert_eq!(page(vocabulary, "23 3F 26 27"), [0, 0, 0, 0]);
    assert_eq!(page(vocabulary, "23 3F 24 1F 00 26 27"), [0, 0, 0, 0]);
    assert_eq!(page(vocabulary, "23 3F 24 1F 3F 26 27"), [0, 0, 0, 0]);
    assert_eq!(page(vocabulary, "23 3F 24 1F 3E 26 27"), [15, 0, 0, 0]);
    assert_eq!(page(vocabulary, "23 3F 28 1F 26 27"), [15, 0, 0, 0]);
}
