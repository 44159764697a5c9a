//! Request F-6: the number tells what is wrong with the lowest wrong element.

use independent::check::check_as;
use independent::exhaustive::{found, found_in_page, Faults, Found};
use independent::job::Job;
use independent::judge::judge_as;
use independent::landed::Landed;
use independent::least::with_least;
use independent::making::Much;
use independent::program::Statement;
use independent::random::Random;
use independent::trials::Trials;
use independent::vocabulary::{Node, Vocabulary};
use independent::{check, exhaustive, job_limits, judge, page_limits, random_jobs, random_pages};

fn bytes(text: &str) -> Vec<u8> {
    text.split_whitespace().map(|byte| u8::from_str_radix(byte, 16).unwrap()).collect()
}

/// Element 1, the root, allows attribute 0 and contents 0 and 2; element 2 allows attribute 1 and text.
fn vocabulary(root: &[&str], inner: &[&str]) -> Vec<u8> {
    let clauses = |list: &[&str]| list.iter().map(|clause| format!("04 {clause} ")).collect::<String>();
    bytes(&format!("01 01 02 00 03 00 03 02 {} 01 02 02 01 03 00 {} 05 01", clauses(root), clauses(inner)))
}

/// With clauses on the root.
fn page(root: &[&str], page: &str) -> [u32; 4] {
    judge(&vocabulary(root, &[]), &bytes(page))
}

const NEVER: &str = "12 13";

#[test]
fn a_page_of_each_kind() {
    // An attribute, with a string of 0-63 and with another; a content; a clause.
    assert_eq!(page(&[], "23 01 24 01 05 26 27"), [12, 0, 0, 0]);
    assert_eq!(page(&[], "23 01 28 1F 26 27"), [12, 0, 0, 0]);
    assert_eq!(page(&[], "23 01 23 01 26 26 27"), [14, 0, 0, 0]);
    assert_eq!(page(&[], "23 01 23 02 23 02 26 26 26 27"), [14, 0, 0, 2]);
    assert_eq!(page(&["15 00"], "23 01 26 27"), [15, 0, 0, 0]);
    assert_eq!(page(&["13", "13", "15 00"], "29 23 01 29 26 27"), [15, 0, 2, 1]);
    assert_eq!(page(&["15 00"], "23 01 21 26 27"), [0, 0, 0, 0]);
    // 11 comes before all.
    for wrong in ["21 23 01 24 01 05 26 27", "23 01 23 01 26 26 21 27", "23 02 23 02 26 26 27", "27"] {
        assert_eq!(page(&[NEVER], wrong), [11, 0, 0, 0], "{wrong}");
    }
}

#[test]
fn the_order_in_one_element() {
    let attribute_and_content = "23 01 24 01 05 23 01 26 26 27";
    assert_eq!(page(&[], attribute_and_content), [12, 0, 0, 0]);
    assert_eq!(page(&["12 14 01", "12 15 01"], attribute_and_content), [12, 0, 0, 0]);
    assert_eq!(page(&[NEVER], "23 01 24 01 05 26 27"), [12, 0, 0, 0]);
    assert_eq!(page(&[NEVER, "12 15 01"], "23 01 23 01 26 26 27"), [14, 0, 0, 0]);
    // The lowest clause that fails.
    assert_eq!(page(&["13", "15 02", "15 00", NEVER], "23 01 21 26 27"), [15, 0, 1, 0]);
    assert_eq!(page(&["13", "15 02", "15 00", NEVER], "23 01 23 02 26 26 27"), [15, 0, 2, 0]);
    assert_eq!(page(&["13", "15 02", "15 00", NEVER], "23 01 23 02 26 21 26 27"), [15, 0, 3, 0]);
}

#[test]
fn the_lowest_element_first() {
    // The inner one carries attribute 0.
    let inner = "23 01 23 02 24 00 05 26 26 27";
    assert_eq!(page(&[], inner), [12, 0, 0, 2]);
    assert_eq!(page(&["13", "15 00"], inner), [15, 0, 1, 0]);
    assert_eq!(page(&[], "23 01 23 01 24 01 05 26 26 27"), [14, 0, 0, 0]);
    // Beside each other: by a clause, by its content, by an attribute.
    let clause = "23 02 26";
    let content = "23 02 21 23 02 21 26 26";
    let attribute = "23 02 24 00 05 21 26";
    let verdict = |first, second| {
        judge(&vocabulary(&[], &["13", "15 00"]), &bytes(&format!("23 01 23 02 21 26 {first} {second} 26 27")))
    };
    for other in [clause, content, attribute] {
        assert_eq!(verdict(clause, other), [15, 0, 1, 6], "{other}");
        assert_eq!(verdict(content, other), [14, 0, 0, 6], "{other}");
        assert_eq!(verdict(attribute, other), [12, 0, 0, 6], "{other}");
    }
    // Each clause is counted in its own rule, whatever rules stand before.
    let rules = bytes("01 02 04 13 04 13 04 15 00 01 01 03 02 04 13 05 01");
    assert_eq!(judge(&rules, &bytes("23 01 23 02 26 26 27")), [15, 0, 2, 2]);
}

#[test]
fn long_rules() {
    for count in [1, 2, 63, 64, 65, 300, 5000] {
        let mut clauses = vec!["13"; count];
        for place in [count - 1, count / 2, 0] {
            clauses[place] = "15 00";
            assert_eq!(page(&clauses, "23 01 26 27"), [15, 0, place as u32, 0]);
            assert_eq!(page(&clauses, "23 01 21 26 27"), [0, 0, 0, 0]);
            let verdict = job(&clauses, &[], &["23 01 26"], OPEN);
            assert_eq!(verdict[..3], [15, 1, place as u32]);
        }
    }
}

/// A script.
fn start(vocabulary: &[u8], templates: &[&str], program: &str) -> Vec<u8> {
    let templates: String = templates.iter().map(|items| format!("20 {items} 27 ")).collect();
    [vocabulary, &bytes(&format!("{templates} 2F {program} 3F"))].concat()
}

/// The verdict with the least proposal. The clauses are those of elements 1 and 2; the offset is told from the first
/// template's first item on.
fn job(root: &[&str], inner: &[&str], templates: &[&str], program: &str) -> [u32; 4] {
    holding("", root, inner, templates, program)
}

/// With the least proposal that holds what is given.
fn holding(held: &str, root: &[&str], inner: &[&str], templates: &[&str], program: &str) -> [u32; 4] {
    let vocabulary = vocabulary(root, inner);
    let job = with_least(&start(&vocabulary, templates, program), &bytes(held)).unwrap();
    Trials::default().of_languages(&job);
    let [number, a, b, c] = check(&job);
    let items = if number > 11 { vocabulary.len() as u32 + 1 } else { 0 };
    [number, a, b, c - items]
}

/// Loads template 1 and shows it.
const OPEN: &str = "31 00 01 01 01 37 00 02 02 38";
/// Plugs string 5 or 6 into attribute gap 0 before, or perhaps does.
const STRINGS: &str = "31 00 01 01 01 33 00 05 03 02 33 00 06 03 03 36 00 00 00 00 04 04 37 00 05 05 38";
const STRINGS_OR_NONE: &str = "31 00 01 01 01 33 00 05 03 02 33 00 06 03 04 36 00 00 00 00 04 04 37 00 05 05 38";
/// Plugs template 2 or 3 into gap 0 before, or perhaps does.
const TEMPLATES: &str = "31 00 01 01 01 31 01 02 03 02 31 01 03 03 03 35 00 00 00 01 04 04 37 00 05 05 38";
const TEMPLATES_OR_NONE: &str = "31 00 01 01 01 31 01 02 03 02 31 01 03 03 04 35 00 00 00 01 04 04 37 00 05 05 38";

const NOT_5: &str = "12 10 14 00 17 00 00 00 00 00 00 00 00 20";
const NOT_6: &str = "12 10 14 00 17 00 00 00 00 00 00 00 00 40";

#[test]
fn a_job_of_each_kind() {
    assert_eq!(job(&[], &[], &["23 01 24 01 05 26"], OPEN), [12, 1, 1, 0]);
    assert_eq!(job(&[], &[], &["23 01 23 01 26 26"], OPEN), [14, 1, 1, 0]);
    assert_eq!(job(&["13", "15 00"], &[], &["23 01 26"], OPEN), [15, 1, 1, 0]);
    assert_eq!(job(&["13", "15 00"], &[], &["23 01 21 26"], OPEN), [0, 0, 0, 0]);
    assert_eq!(job(&[NEVER], &[], &["23 01 24 01 05 23 01 26 26 21"], OPEN), [11, 1, 1, 0]);
    // The template is told for an attribute and a content, not for a clause.
    let templates = ["23 01 22 00 26", "23 02 26", "23 02 26"];
    assert_eq!(job(&[], &[], &[templates[0], templates[1], "23 02 24 00 00 26"], TEMPLATES), [12, 4, 3, 12]);
    assert_eq!(job(&[], &[], &[templates[0], templates[1], "23 02 23 02 26 26"], TEMPLATES), [14, 4, 3, 12]);
    assert_eq!(job(&[], &["13", "15 00"], &[templates[0], "23 02 21 26", templates[2]], TEMPLATES), [15, 4, 1, 13]);
}

#[test]
fn in_different_pages() {
    // Attribute 1 is there in some pages; in others it is absent, and a clause or a content is wrong then too.
    let attribute = "23 01 25 01 00 22 00 26";
    assert_eq!(job(&["14 01"], &[], &[attribute], STRINGS_OR_NONE), [12, 4, 1, 0]);
    assert_eq!(job(&["14 01"], &[], &[attribute], OPEN), [15, 1, 0, 0]);
    assert_eq!(job(&[NEVER], &[], &["23 01 25 01 00 23 01 26 26"], STRINGS_OR_NONE), [12, 4, 1, 0]);
    assert_eq!(job(&[NEVER], &[], &["23 01 25 01 00 23 01 26 26"], OPEN), [14, 1, 1, 0]);
    // Element 1 or text is plugged in. Of the clauses each fails somewhere.
    let root = &["12 15 00", "12 15 01"];
    assert_eq!(job(root, &[], &["23 01 22 00 26", "21", "23 01 26"], TEMPLATES), [14, 4, 1, 0]);
    assert_eq!(job(root, &[], &["23 01 22 00 26", "21", "23 02 26"], TEMPLATES), [15, 4, 0, 0]);
}

#[test]
fn the_lowest_clause_of_all_pages() {
    let strings = "23 01 25 00 00 26";
    assert_eq!(job(&["13", NOT_5, NOT_6], &[], &[strings], STRINGS), [15, 4, 1, 0]);
    assert_eq!(job(&["13", NOT_6, NOT_5], &[], &[strings], STRINGS), [15, 4, 1, 0]);
    assert_eq!(job(&["14 00", NOT_6, NOT_5], &[], &[strings], STRINGS), [15, 4, 1, 0]);
    assert_eq!(job(&["14 00", NOT_6, NOT_5], &[], &[strings], STRINGS_OR_NONE), [15, 4, 0, 0]);
    assert_eq!(job(&[NOT_6, NOT_5, "14 00"], &[], &[strings], OPEN), [15, 1, 2, 0]);
    let templates = ["23 01 22 00 26", "21", "23 02 26"];
    assert_eq!(job(&["13", "12 15 02", "12 15 00"], &[], &templates, TEMPLATES), [15, 4, 1, 0]);
    assert_eq!(job(&["13", "12 15 00", "12 15 02"], &[], &templates, TEMPLATES), [15, 4, 1, 0]);
    assert_eq!(job(&["13", "11 15 00 15 02", "12 15 02"], &[], &templates, TEMPLATES), [15, 4, 2, 0]);
    assert_eq!(job(&["13", "11 15 00 15 02", "12 15 02"], &[], &templates, TEMPLATES_OR_NONE), [15, 4, 1, 0]);
    // Clauses with different facts, in each order.
    let facts = ["12 14 00", "12 15 00", "16 00 00", "12 16 00 00", "12 15 02", NOT_5, "12 11 14 00 15 00"];
    for first in facts {
        for second in facts {
            let verdict = |clause: &str| job(&[clause], &[], &["23 01 25 00 00 22 00 22 00 26", "21", "21"], BOTH)[0];
            let expected = [first, second].iter().position(|clause| verdict(clause) == 15);
            let both = job(&[first, second], &[], &["23 01 25 00 00 22 00 22 00 26", "21", "21"], BOTH);
            assert_eq!(both, expected.map_or([0, 0, 0, 0], |place| [15, 3, place as u32, 0]), "{first}, {second}");
        }
    }
}

/// Perhaps plugs template 2 into gap 0; attribute gap 0 stays open.
const BOTH: &str = "31 00 01 01 01 31 01 02 02 03 35 00 00 00 01 03 03 37 00 04 04 38";

#[test]
fn the_lowest_element_of_a_job_first() {
    // Template 1 by a clause, template 2 by an attribute; and the other way round.
    assert_eq!(job(&["13", "12 15 02"], &[], &["23 01 22 00 26", "23 02 24 00 05 26", ""], TEMPLATES), [15, 4, 1, 0]);
    let second = "31 00 02 01 01 31 01 01 02 02 35 00 00 00 01 03 03 37 00 04 04 38";
    assert_eq!(job(&["13", "12 15 02"], &[], &["23 02 24 00 05 26", "23 01 22 00 26"], second), [12, 3, 1, 0]);
    assert_eq!(job(&["13", "12 15 02"], &[], &["23 02 26", "23 01 24 01 05 22 00 26"], second), [12, 3, 2, 5]);
    // By a content, then by an attribute, inside or in a later template.
    assert_eq!(job(&[], &[], &["23 01 23 01 24 01 05 26 26"], OPEN), [14, 1, 1, 0]);
    assert_eq!(job(&[], &[], &["23 01 22 00 26", "23 01 24 01 05 26", ""], TEMPLATES), [14, 4, 1, 0]);
    // One name at several places, right at the first.
    let places = "23 01 23 02 21 26 23 02 26 23 02 24 00 05 26 26";
    assert_eq!(job(&[], &[], &[places], OPEN), [12, 1, 1, 9]);
    assert_eq!(job(&[], &["13", "15 00", NOT_5], &[places], OPEN), [15, 1, 1, 6]);
    // Two rules: element 2 stands lower than what is wrong by the root's own.
    let two = ["23 02 26", "23 01 22 00 26"];
    assert_eq!(job(&[NEVER], &["13", "13", NEVER], &two, second), [15, 3, 2, 0]);
    assert_eq!(job(&[NEVER], &["13", "13", "13"], &two, second), [15, 3, 0, 5]);
}

#[test]
fn shows() {
    // The first one is right: its gap is open. In the second template 2 stands there.
    let program = "31 00 01 01 01 37 00 02 02 31 01 02 03 03 35 00 00 00 01 04 04 37 00 05 05 38";
    let page = "23 01 22 00 26";
    assert_eq!(job(&["13", "12 15 00"], &[], &[page, "21"], program), [15, 4, 1, 0]);
    assert_eq!(job(&["13", "15 00"], &[], &[page, "21"], program), [15, 1, 1, 0]);
    assert_eq!(job(&[], &[], &[page, "23 01 26"], program), [14, 4, 1, 0]);
    assert_eq!(job(&[], &[], &[page, "23 02 24 00 05 26"], program), [12, 4, 2, 7]);
    // A 15 at the first, 11 and 12 at later ones.
    let later = "31 00 01 01 01 37 00 02 02 31 00 02 03 03 37 00 04 04 38";
    assert_eq!(job(&["15 00"], &[], &[page, "21"], later), [15, 1, 0, 0]);
    assert_eq!(job(&["15 00"], &[], &["23 01 21 26", "23 01 24 01 05 26"], later), [12, 3, 2, 6]);
    // Framed: the frame stands in a later template than the value, or an earlier one.
    let [first, second] = ["31 00 02 01 01 39 00 01 00 02 02 38", "31 00 01 01 01 39 00 02 00 02 02 38"];
    assert_eq!(job(&["12 15 02"], &[], &[page, "23 02 24 00 05 26"], first), [15, 1, 0, 0]);
    assert_eq!(job(&["12 15 02"], &[], &["23 02 24 00 05 26", page], second), [12, 1, 1, 0]);
    assert_eq!(job(&["12 15 02"], &["13", NEVER], &["23 02 26", page], second), [15, 1, 1, 0]);
}

/// What stands in no page is wrong in none.
#[test]
fn only_what_pages_have() {
    let templates = ["23 01 26", "23 01 24 01 05 23 01 26 22 00 26"];
    let held = |items: &str| holding(&format!("40 01 00 41 02 {items}"), &["13", "12 15 01"], &[], &templates, OPEN);
    assert_eq!(held(""), [0, 0, 0, 0]);
    assert_eq!(held("45 00 02"), [12, 1, 2, 5]);
    let held =
        |items: &str| holding(&format!("40 01 00 {items}"), &["13", NOT_5], &[], &["23 01 25 00 00 25 01 01 26"], OPEN);
    assert_eq!(held(""), [0, 0, 0, 0]);
    assert_eq!(held("43 01 00 05"), [15, 1, 1, 0]);
    assert_eq!(held("43 01 00 06"), [0, 0, 0, 0]);
    assert_eq!(held("43 01 00 05 43 01 01 05"), [12, 1, 1, 0]);
    assert_eq!(held("44 01 00"), [15, 1, 1, 0]);
}

/// The same pass. Where 12 was, it is 12, 14 or 15 with the same point and offset; and B is the template still, but for
/// 15 a clause of the rule.
#[derive(Default, Debug)]
struct Moved {
    passed: usize,
    numbers: [usize; 16],
}

impl Moved {
    fn note(&mut self, before: [u32; 4], now: [u32; 4], clauses: impl FnOnce() -> u32) {
        let expected = match now {
            [14, a, b, c] => [12, a, b, c],
            [15, a, b, c] => {
                assert!(b < clauses());
                [12, a, before[2], c]
            }
            _ => now,
        };
        assert_eq!(before, expected, "{now:?}");
        self.passed += (now == [0; 4]) as usize;
        self.numbers[now[0] as usize] += 1;
    }

    fn page(&mut self, record: &random_pages::Record) {
        let before = judge_as(&record.vocabulary, &record.page, Landed::F5);
        let now = record.verdict();
        self.note(before, now, || {
            let Ok(vocabulary) = Vocabulary::read_whole(&record.vocabulary, Landed::NOW) else { unreachable!() };
            vocabulary.rules[record.page[now[3] as usize + 1] as usize].clauses
        });
    }

    fn job(&mut self, bytes: &[u8]) {
        let before = check_as(bytes, Landed::F5);
        let now = check(bytes);
        self.note(before, now, || {
            let Ok(job) = Job::read(bytes) else { unreachable!() };
            assert!(job.templates.list[before[2] as usize].bytes.contains(&(now[3] as usize)));
            job.vocabulary.rules[bytes[now[3] as usize + 1] as usize].clauses
        });
    }
}

#[test]
fn nothing_else_moves() {
    let mut random = Random::new(51);
    let [mut pages, mut jobs] = [Moved::default(), Moved::default()];
    for much in [Much::Nothing, Much::Blank, Much::Frames, Much::Absent, Much::Kinds] {
        (0..1500).for_each(|_| pages.page(&random_pages::record(&mut random, much)));
        (0..800).for_each(|_| jobs.job(&random_jobs::job(&mut random, much)));
    }
    page_limits::all().iter().for_each(|record| pages.page(record));
    job_limits::all().iter().for_each(|job| jobs.job(job));
    for moved in [pages, jobs] {
        println!("{moved:?}");
        assert!(moved.passed > 500 && [11, 12, 14, 15].iter().all(|number| moved.numbers[*number] > 150));
    }
}

/// How often each of these was met, in refused records.
#[derive(Default, Debug)]
struct Met {
    numbers: [usize; 16],
    /// With the lowest wrong element in one page: attribute, content and clause; two of them, each pair; two clauses.
    all_together: usize,
    attribute_and_content: usize,
    attribute_and_clause: usize,
    content_and_clause: usize,
    two_clauses: usize,
    /// Two kinds, or two clauses, that no page has together.
    never_together: usize,
    never_two_clauses: usize,
    /// A page in which it is wrong, but not by the attribute, the content, or the clause that is told.
    attribute_elsewhere: usize,
    content_elsewhere: usize,
    clause_elsewhere: usize,
    /// The lowest by a clause, one after it by an attribute, by a content; the lowest by a content, one after it by an
    /// attribute; the same with the later one in another template, or inside the lowest.
    clause_then_attribute: usize,
    clause_then_content: usize,
    content_then_attribute: usize,
    clause_then_attribute_elsewhere: usize,
    content_then_attribute_inside: usize,
    /// The element's name stands at a lower place too, where nothing is wrong.
    right_before: usize,
    /// The clause is at a place from 6 on, from 24 on; of a rule that is not the vocabulary's first.
    sixth: usize,
    dozens: usize,
    later_rule: usize,
    /// Its facts are strings, presence, contents.
    strings: usize,
    presence: usize,
    contents: usize,
    /// Shows: a later one, after one that is right; a framed one.
    later_show: usize,
    framed_show: usize,
}

impl Met {
    fn note(&mut self, found: &Found, vocabulary: &Vocabulary, bytes: &[u8]) {
        let [number, _, b, _] = found.verdict;
        let mut wrong = found.wrong.iter();
        let Some((&(offset, template), faults)) = wrong.next() else { return };
        let later: Vec<_> = wrong.map(|(at, faults)| (*at, Faults::union(faults))).collect();
        let clause = |faults: &Faults| !faults.clauses.is_empty();
        let pairs = |faults: &Faults| {
            let [attribute, content, clause] = [faults.attribute, faults.content, clause(faults)];
            [
                attribute && content && clause,
                attribute && content && !clause,
                attribute && !content && clause,
                !attribute && content && clause,
                !attribute && !content && faults.clauses.len() > 1,
            ]
        };
        let in_a_page = |index: usize| faults.iter().any(|faults| pairs(faults)[index]);
        let union = Faults::union(faults);
        let over_pages = |index: usize| pairs(&union)[index] && !in_a_page(index);
        for (count, met) in [
            (&mut self.all_together, in_a_page(0)),
            (&mut self.attribute_and_content, in_a_page(1)),
            (&mut self.attribute_and_clause, in_a_page(2)),
            (&mut self.content_and_clause, in_a_page(3) && number == 14),
            (&mut self.two_clauses, in_a_page(4) && number == 15),
            (&mut self.never_together, (1..4).any(over_pages)),
            (&mut self.never_two_clauses, over_pages(4)),
            (&mut self.attribute_elsewhere, number == 12 && faults.iter().any(|faults| !faults.attribute)),
            (&mut self.content_elsewhere, number == 14 && faults.iter().any(|faults| !faults.content)),
            (&mut self.clause_elsewhere, number == 15 && faults.iter().any(|faults| !faults.clauses.contains(&b))),
        ] {
            *count += met as usize;
        }
        let attribute = |at: &((u32, usize), Faults)| at.1.attribute;
        let elsewhere = |at: &((u32, usize), Faults)| attribute(at) && at.0 .1 != template;
        // The page's own element, with all others of its template inside.
        let first = bytes[..offset as usize].iter().rev().find(|byte| **byte != 0x29).is_none_or(|byte| *byte == 0x20);
        let inside = |at: &((u32, usize), Faults)| attribute(at) && at.0 .1 == template && first;
        let content = |at: &((u32, usize), Faults)| at.1.content && !at.1.attribute;
        self.clause_then_attribute += (number == 15 && later.iter().any(attribute)) as usize;
        self.clause_then_content += (number == 15 && later.iter().any(content)) as usize;
        self.content_then_attribute += (number == 14 && later.iter().any(attribute)) as usize;
        self.clause_then_attribute_elsewhere += (number == 15 && later.iter().any(elsewhere)) as usize;
        self.content_then_attribute_inside += (number == 14 && later.iter().any(inside)) as usize;
        if number == 15 {
            self.note_clause(vocabulary, bytes[offset as usize + 1], b);
        }
    }

    fn note_clause(&mut self, vocabulary: &Vocabulary, name: u8, place: u32) {
        let rule = &vocabulary.rules[name as usize];
        let nodes = &vocabulary.nodes[rule.from as usize..rule.to as usize];
        let clause = nodes.split(|node| *node == Node::Clause).nth(place as usize + 1).unwrap();
        self.sixth += (place >= 6) as usize;
        self.dozens += (place >= 24) as usize;
        self.later_rule += (rule.from > 0) as usize;
        self.strings += clause.iter().any(|node| matches!(node, Node::Value(..))) as usize;
        self.presence += clause.iter().any(|node| matches!(node, Node::Attribute(_))) as usize;
        self.contents += clause.iter().any(|node| matches!(node, Node::Content(_) | Node::Order(..))) as usize;
    }

    /// Those that pages and jobs have.
    fn least(&self) -> usize {
        let together = [self.all_together, self.attribute_and_content, self.attribute_and_clause];
        let more = [self.content_and_clause, self.two_clauses, self.right_before];
        let later = [self.clause_then_attribute, self.clause_then_content, self.content_then_attribute];
        let inside = [self.content_then_attribute_inside, self.later_rule];
        let clauses = [self.sixth, self.dozens, self.strings, self.presence, self.contents];
        let numbers = [0, 11, 12, 14, 15].map(|number| self.numbers[number]);
        let all = together.into_iter().chain(more).chain(later).chain(inside).chain(clauses).chain(numbers);
        all.min().unwrap()
    }

    /// Those that only jobs have.
    fn least_of_jobs(&self) -> usize {
        let elsewhere = [self.attribute_elsewhere, self.content_elsewhere, self.clause_elsewhere];
        let pages = [self.never_together, self.never_two_clauses, self.clause_then_attribute_elsewhere];
        let shows = [self.later_show, self.framed_show];
        elsewhere.into_iter().chain(pages).chain(shows).min().unwrap()
    }
}

#[test]
fn made_pages_are_wrong_in_every_way() {
    let mut random = Random::new(52);
    let mut met = Met::default();
    for _ in 0..4000 {
        let record = random_pages::record(&mut random, Much::Kinds);
        let verdict = record.verdict();
        exhaustive::assert_page(&record.vocabulary, &record.page, verdict);
        met.numbers[verdict[0] as usize] += 1;
        if verdict[0] < 12 {
            continue;
        }
        let Ok(vocabulary) = Vocabulary::read_whole(&record.vocabulary, Landed::NOW) else { unreachable!() };
        met.note(&found_in_page(&vocabulary, &record.page), &vocabulary, &record.page);
        let name = [0x23, record.page[verdict[3] as usize + 1]];
        met.right_before += record.page[..verdict[3] as usize].windows(2).any(|two| two == name) as usize;
    }
    println!("{met:?}");
    assert!(met.least() > 20);
    assert!([12, 14, 15].iter().all(|number| met.numbers[*number] > 800));
}

#[test]
fn made_jobs_are_wrong_in_every_way() {
    let mut random = Random::new(53);
    let mut met = Met::default();
    let mut trials = Trials::default();
    for _ in 0..2000 {
        let bytes = random_jobs::job(&mut random, Much::Kinds);
        let verdict = check(&bytes);
        trials.of_languages(&bytes);
        met.numbers[verdict[0] as usize] += 1;
        if verdict[0] < 12 {
            continue;
        }
        let Ok(job) = Job::read(&bytes) else { unreachable!() };
        let point = verdict[1] as usize;
        let found = found(&job, &bytes, point).unwrap();
        met.note(&found, &job.vocabulary, &bytes);
        let shows = |at: &Statement| matches!(at, Statement::Show(_) | Statement::Framed(..));
        met.later_show += job.program.points[..point].iter().any(|at| shows(&at.statement)) as usize;
        met.framed_show += matches!(job.program.points[point].statement, Statement::Framed(..)) as usize;
        let name = bytes[verdict[3] as usize + 1];
        let mut elements = (0..job.templates.list.len()).flat_map(|template| job.templates.elements(template));
        met.right_before += elements.any(|element| element.name == name && element.at < verdict[3]) as usize;
    }
    println!("{met:?}\n{trials}");
    assert!(met.least() > 20 && met.least_of_jobs() > 20);
    assert!([12, 14, 15].iter().all(|number| met.numbers[*number] > 400));
    assert!(trials.complete * 10 > trials.shows * 8);
}
