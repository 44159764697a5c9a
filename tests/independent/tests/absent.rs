//! Request F-5: an attribute gap still open at a show takes its whole attribute away.

use independent::check::shows;
use independent::damage::commands;
use independent::job::Job;
use independent::landed::Landed;
use independent::language::closed;
use independent::least::with_least;
use independent::making::Much;
use independent::program::Statement;
use independent::random::Random;
use independent::random_scripts::script;
use independent::records::Lent;
use independent::run::{Choice, Run};
use independent::summary::{members, ABSENT, ANY_STRING};
use independent::templates::AttributeValue;
use independent::trials::Trials;
use independent::vocabulary::{Node, Vocabulary};
use independent::{check, job_limits, judge, random_jobs, random_pages, read_job};

fn bytes(text: &str) -> Vec<u8> {
    text.split_whitespace().map(|byte| u8::from_str_radix(byte, 16).unwrap()).collect()
}

/// Element 1, the root, allows attributes 0 and 1 and contents 0 and 2; element 2 allows nothing. One clause on the root.
/// The items of template 1 start 16 bytes after the clause's own.
fn start(clause: &str, templates: &[&str], program: &str) -> Vec<u8> {
    let templates: Vec<String> = templates.iter().map(|items| format!("20 {items} 27")).collect();
    bytes(&format!("01 01 02 00 02 01 03 00 03 02 04 {clause} 01 02 05 01 {} 2F {program} 3F", templates.join(" ")))
}

/// With the least proposal that holds what is given.
fn holding(held: &str, start: &[u8]) -> [u32; 4] {
    check(&with_least(start, &bytes(held)).unwrap())
}

fn verdict(clause: &str, template: &str, program: &str) -> [u32; 4] {
    holding("", &start(clause, &[template], program))
}

/// Loads template 1 and shows it; plugs string 5 into attribute gap 0 before, or perhaps does.
const OPEN: &str = "31 00 01 01 01 37 00 02 02 38";
const PLUGGED: &str = "31 00 01 01 01 33 00 05 02 02 36 00 00 00 00 03 03 37 00 04 04 38";
const EITHER: &str = "31 00 01 01 01 33 00 05 02 03 36 00 00 00 00 03 03 37 00 04 04 38";

const ONLY_0: &str = "17 00 00 00 00 00 00 00 00 01";
const ONLY_5: &str = "17 00 00 00 00 00 00 00 00 20";
const ONLY_6: &str = "17 00 00 00 00 00 00 00 00 40";

#[test]
fn string_0_comes_only_where_it_is_held() {
    let open = "23 01 25 00 00 26";
    // An open gap takes no string, so that each set lets it pass.
    for set in [ONLY_0, ONLY_5, ONLY_6] {
        assert_eq!(verdict(set, open, OPEN), [0, 0, 0, 0], "{set}");
    }
    // With string 5, or absent.
    assert_eq!(verdict(ONLY_5, open, EITHER), [0, 0, 0, 0]);
    assert_eq!(verdict(ONLY_6, open, EITHER)[..3], [15, 3, 0]);
    assert_eq!(verdict(ONLY_0, open, EITHER)[..3], [15, 3, 0]);
    // A string variable that no statement has set holds string 0.
    let plugs_0 = "31 00 01 01 01 36 00 00 00 03 02 02 37 00 03 03 38";
    assert_eq!(verdict(ONLY_0, open, plugs_0), [0, 0, 0, 0]);
    assert_eq!(verdict(ONLY_5, open, plugs_0)[..3], [15, 2, 0]);
    // The proposal holds string 0 beside absence.
    let start = start(ONLY_5, &[open], OPEN);
    assert_eq!(holding("40 01 00 43 01 00 05", &start), [0, 0, 0, 0]);
    assert_eq!(holding("40 01 00 43 01 00 00", &start), [15, 1, 0, 26]);
    assert_eq!(holding("40 01 00 44 01 00", &start), [15, 1, 0, 26]);
}

#[test]
fn presence_is_a_fact() {
    let open = "23 01 25 00 00 26";
    for (clause, when_open, when_plugged, when_either) in [
        ("14 00", 15, 0, 15),
        ("12 14 00", 0, 15, 15),
        ("11 14 00 12 14 00", 0, 0, 0),
        // Absence makes every set test true.
        (&format!("11 14 00 {ONLY_6}"), 0, 0, 0),
        (&format!("11 12 14 00 {ONLY_5}"), 0, 0, 0),
        (&format!("10 {ONLY_5} {ONLY_6}"), 0, 15, 15),
        (&format!("11 10 14 00 12 {ONLY_6} 10 12 14 00 {ONLY_6}"), 0, 0, 0),
        (&format!("10 14 00 {ONLY_5}"), 15, 0, 15),
        (&format!("12 10 14 00 {ONLY_6}"), 0, 0, 0),
        // Another attribute stays absent.
        ("14 01", 15, 15, 15),
        ("11 12 14 00 14 01", 0, 15, 15),
    ] {
        let numbers = [OPEN, PLUGGED, EITHER].map(|program| verdict(clause, open, program)[0]);
        assert_eq!(numbers, [when_open, when_plugged, when_either], "{clause}");
    }
}

#[test]
fn presence_and_contents() {
    // The root holds text wherever its gap 0 is plugged, the attribute a string wherever its own is.
    let templates = ["23 01 25 00 00 22 00 26", "21"];
    let both = "31 00 01 01 01 31 01 02 02 03 35 00 00 00 01 03 04 36 00 00 00 00 04 04 37 00 05 05 38";
    let neither_or_both = "31 00 01 01 04 31 01 02 02 02 35 00 00 00 01 03 03 36 00 00 00 00 04 04 37 00 05 05 38";
    for (clause, number) in [
        ("11 14 00 12 14 00", 0),
        ("11 15 00 12 15 00", 0),
        ("11 14 00 15 00", 15),
        ("11 14 00 12 15 00", 15),
        ("11 12 14 00 12 15 00", 15),
        (&format!("11 10 14 00 {ONLY_0} 12 14 00"), 0),
        ("16 00 00", 0),
    ] {
        // A summary does not tie the two together.
        for program in [both, neither_or_both] {
            assert_eq!(holding("", &start(clause, &templates, program))[0], number, "{clause}");
        }
    }
}

#[test]
fn each_attribute_by_itself() {
    let shared = "23 01 25 00 00 25 01 00 26";
    let same = "11 10 14 00 14 01 10 12 14 00 12 14 01";
    // Both open, or both plugged: no page has one alone. Perhaps plugged: one may go without the other.
    assert_eq!(verdict(same, shared, OPEN), [0, 0, 0, 0]);
    assert_eq!(verdict(same, shared, PLUGGED), [0, 0, 0, 0]);
    assert_eq!(verdict(same, shared, EITHER), [15, 3, 0, 29]);
    // Each alone, and its negation, is met somewhere.
    for clause in ["10 14 00 14 01", "10 14 00 12 14 01", "10 12 14 00 14 01", "10 12 14 00 12 14 01"] {
        assert_eq!(verdict(&format!("12 {clause}"), shared, EITHER)[0], 15, "{clause}");
    }
}

#[test]
fn not_allowed() {
    // Attribute 2 is not allowed. No string reaches it, or one does in some page.
    let open = "23 01 25 02 00 26";
    assert_eq!(verdict("13", open, OPEN), [0, 0, 0, 0]);
    assert_eq!(verdict("13", open, PLUGGED), [12, 3, 1, 17]);
    assert_eq!(verdict("13", open, EITHER), [12, 3, 1, 17]);
    assert_eq!(verdict("12 14 02", open, OPEN), [0, 0, 0, 0]);
    assert_eq!(verdict("14 02", open, OPEN), [15, 1, 0, 18]);
    assert_eq!(verdict("13", "23 01 24 02 00 26", OPEN), [12, 1, 1, 17]);
    // Of two on one gap one is allowed.
    assert_eq!(verdict("13", "23 01 25 00 00 25 02 00 26", OPEN), [0, 0, 0, 0]);
    assert_eq!(verdict("13", "23 01 25 00 00 25 02 00 26", EITHER), [12, 3, 1, 17]);
    // A string is held, but nowhere comes a page: gap 0 of the template takes nothing.
    let start = start("13", &["23 01 26", "23 01 25 02 00 22 00 26"], OPEN);
    assert_eq!(holding("40 01 00 41 02 43 02 00 05", &start), [0, 0, 0, 0]);
    assert_eq!(holding("40 01 00 41 02 43 02 00 05 45 00 02", &start), [12, 1, 2, 22]);
    assert_eq!(holding("40 01 00 41 02 45 00 02 46 00 02", &start), [0, 0, 0, 0]);
}

#[test]
fn absence_is_something_to_take() {
    // Template 2 is no page. It matters once each of its attribute gaps has something to take.
    let start = start("13", &["23 01 26", "23 02 25 00 00 25 01 01 26"], OPEN);
    let held = |items: &str| holding(&format!("40 01 00 41 02 {items}"), &start);
    assert_eq!(held(""), [0, 0, 0, 0]);
    assert_eq!(held("46 00 02"), [0, 0, 0, 0]);
    assert_eq!(held("46 01 02"), [0, 0, 0, 0]);
    assert_eq!(held("46 00 02 46 01 02"), [11, 1, 2, 0]);
    assert_eq!(held("43 02 00 05 46 01 02"), [11, 1, 2, 0]);
    assert_eq!(held("43 02 00 05 44 02 01"), [11, 1, 2, 0]);
    assert_eq!(held("43 02 00 05 46 00 02"), [0, 0, 0, 0]);
    // Another template as origin does not help.
    assert_eq!(held("46 00 02 46 01 01"), [0, 0, 0, 0]);
}

#[test]
fn framed_shows() {
    // The frame's own attribute and that of the value, each open in its gap 0.
    let templates = ["23 01 25 00 00 22 00 26", "23 02 25 03 00 26"];
    let program = "31 00 02 01 01 39 00 01 00 02 02 38";
    for (clause, expected) in [
        ("13", [0, 0, 0, 0]),
        ("10 12 14 00 15 02", [0, 0, 0, 0]),
        (ONLY_6, [0, 0, 0, 0]),
        ("14 00", [15, 1, 0, 18]),
        ("10 14 00 14 00", [15, 1, 0, 21]),
    ] {
        assert_eq!(holding("", &start(clause, &templates, program)), expected, "{clause}");
    }
    // A string reaches the attribute in element 2, which allows none.
    let plugged = "31 00 02 01 01 33 00 05 02 02 36 00 00 00 00 03 03 39 00 01 00 04 04 38";
    let start = start("12 14 00", &templates, plugged);
    assert_eq!(holding("", &start), [12, 3, 2, 29]);
}

/// The pages that a run shows which always takes the first next point.
fn pages(templates: &[&str], program: &str) -> Vec<Vec<u8>> {
    let bytes = [&start("13", templates, program)[..], &[0x4F]].concat();
    let Ok(job) = Job::read(&bytes) else { panic!("{bytes:02X?}") };
    let mut run = Run::new(&job, &bytes);
    (0..40).for_each(|_| run.step(Choice { second: false, string: 64 }));
    run.pages
}

#[test]
fn runs_drop_open_attributes() {
    let nested = "29 23 01 25 00 00 24 01 00 22 00 23 02 25 00 01 25 1F 00 21 26 26";
    assert_eq!(pages(&[nested], OPEN), [bytes("29 23 01 24 01 00 23 02 21 26 26 27")]);
    // The variable keeps what its show drops.
    let again = "31 00 01 01 01 37 00 02 02 34 00 03 03 36 00 00 00 00 04 04 37 00 05 05 38";
    let expected = ["23 01 24 01 00 26 27", "23 01 28 00 24 01 00 26 27"].map(bytes);
    assert_eq!(pages(&["23 01 25 00 00 24 01 00 26"], again), expected);
    // String 0 that was plugged in stays.
    let plugs_0 = "31 00 01 01 01 36 00 00 00 03 02 02 37 00 03 03 38";
    assert_eq!(pages(&["23 01 25 00 00 25 01 01 26"], plugs_0), [bytes("23 01 24 00 00 26 27")]);
    // Inside a frame both are dropped.
    let framed = "31 00 02 01 01 39 00 01 00 02 02 38";
    let templates = ["23 01 25 00 00 22 00 26", "23 02 25 03 00 26"];
    assert_eq!(pages(&templates, framed), [bytes("23 01 23 02 26 26 27")]);
}

/// At most 17 formulas, since 16 connectives may nest.
fn conjunction(formulas: &[String]) -> String {
    format!("{}{}", "10 ".repeat(formulas.len() - 1), formulas.join(" "))
}

#[test]
fn facts_are_counted_with_presence() {
    let there = |count: usize| (0..count).map(|a| format!("14 {a:02X}")).collect::<Vec<_>>();
    let sets = |count: usize| (0..count).map(|i| format!("17 00 00 00 00 00 00 00 00 {:02X}", i + 1));
    let with_sets = |count, more: &[&str]| sets(count).chain(more.iter().map(|fact| fact.to_string())).collect();
    let clauses: [(Vec<String>, bool); 12] = [
        (there(8), true),
        (there(9), false),
        ([there(8), there(8)].concat(), true),
        (with_sets(7, &["14 00"]), true),
        (with_sets(7, &["14 00", "14 00", "14 00"]), true),
        (with_sets(7, &["14 00", "14 01"]), false),
        (with_sets(8, &["14 00"]), false),
        (with_sets(4, &["15 00", "16 00 00", "14 00", "14 01"]), true),
        (with_sets(4, &["15 00", "16 00 00", "14 00", "14 01", "14 02"]), false),
        (with_sets(4, &["15 02", "16 00 00", "14 00", "14 01"]), false),
        (with_sets(5, &["16 00 02"]), true),
        (with_sets(5, &["16 00 02", "14 1F"]), false),
    ];
    for (facts, reads) in clauses {
        let clause = conjunction(&facts);
        let expected = |slice| if reads { [0, 0, 0, 0] } else { [7, 10, slice, 0] };
        let script = start(&clause, &["23 01 26"], OPEN);
        assert_eq!(read_job(&[&script[..], &[0x4F]].concat()), expected(0), "{clause}");
        assert_eq!(Lent::default().infer(&script).err(), (!reads).then_some([7, 10, 0, 0]), "{clause}");
        // For a page under a vocabulary that ends after `05 e`; blank text alone is not the root.
        let vocabulary = bytes(&format!("01 01 02 00 02 01 03 00 03 02 04 {clause} 01 02 05 01"));
        assert_eq!(judge(&vocabulary, &bytes("29 27")), if reads { [11, 0, 0, 0] } else { [7, 10, 0, 0] }, "{clause}");
    }
}

/// Eight facts, presence among them, are all looked at together.
#[test]
fn eight_facts_together() {
    let template = "23 01 25 00 00 25 01 00 22 00 26";
    // Attributes 0 and 1 with two sets each, text there, and at most once.
    let facts = format!("14 00 14 01 {ONLY_5} {ONLY_6} 17 01 00 00 00 00 00 00 00 20 17 01 00 00 00 00 00 00 00 40");
    let facts = format!("{facts} 15 00 16 00 00");
    let list = commands(&bytes(&facts));
    let text = |command: &[u8]| command.iter().map(|byte| format!("{byte:02X}")).collect::<Vec<_>>().join(" ");
    let always: Vec<String> = list.iter().map(|fact| format!("11 {0} 12 {0}", text(fact))).collect();
    assert_eq!(verdict(&conjunction(&always), template, EITHER), [0, 0, 0, 0]);
    // Once one of them is to hold, most fail.
    for (index, fact) in list.iter().enumerate() {
        let mut some = always.clone();
        some[index] = text(fact);
        let number = verdict(&conjunction(&some), template, EITHER)[0];
        // String 5 passes its set, and no second text comes.
        assert_eq!(number, if [2, 4, 7].contains(&index) { 0 } else { 15 }, "{fact:02X?}");
    }
}

/// The proposal does not hang on the vocabulary, and thus not on F-5 where the script reads.
#[test]
fn proposals_are_the_same() {
    let mut random = Random::new(41);
    let (mut now, mut before) = (Lent::default(), Lent::of(Landed::F4));
    let mut moved = 0;
    for _ in 0..3000 {
        let script = script(&mut random, Much::Absent);
        let [now, before] = [now.line(&script), before.line(&script)];
        moved += (now != before) as usize;
        assert!(now == before || now.starts_with("7 "), "{script:02X?}");
    }
    println!("{moved} get 7 for presence");
    assert!(moved > 50);
}

#[test]
fn limits_are_judged_as_their_pages() {
    let mut trials = Trials::default();
    // Most jobs of the limits are large; the pages of the smaller ones will do.
    job_limits::all().iter().filter(|job| job.len() < 400).for_each(|job| trials.of_languages(job));
    println!("{trials}");
    assert!(trials.complete > 200);
}

/// How often each of these was met.
#[derive(Default, Debug)]
struct Met {
    /// Attributes at shows from which pages come: absent or with a string, absent alone, two on one gap.
    with_strings: usize,
    without: usize,
    two_on_a_gap: usize,
    /// Not allowed, without a string and with one.
    never_carried: usize,
    carried: usize,
    /// Neither string nor absence, at a template that is held as root or plugged in.
    nothing_to_take: usize,
    /// Framed shows with absence.
    framed: usize,
    /// Clauses that ask for `14`, `17` and contents, under which jobs pass, and fail.
    mixed_passed: usize,
    mixed_failed: usize,
    /// Eight facts, counting `14`, in jobs that pass and fail.
    eight_passed: usize,
    eight_failed: usize,
}

impl Met {
    fn note(&mut self, bytes: &[u8], number: u32) {
        let Ok(job) = &Job::read(bytes) else { return };
        for (point, _) in shows(job) {
            let mut one = Met::default();
            one.note_show(job, point);
            for (count, met) in [
                (&mut self.with_strings, one.with_strings),
                (&mut self.without, one.without),
                (&mut self.two_on_a_gap, one.two_on_a_gap),
                (&mut self.never_carried, one.never_carried),
                (&mut self.carried, one.carried),
                (&mut self.nothing_to_take, one.nothing_to_take),
                (&mut self.framed, one.framed),
            ] {
                *count += (met > 0) as usize;
            }
        }
        let passed = number == 0;
        if !passed && number < 12 {
            return;
        }
        let [mixed, eight] = clauses(&job.vocabulary);
        self.mixed_passed += (mixed && passed) as usize;
        self.mixed_failed += (mixed && !passed) as usize;
        self.eight_passed += (eight && passed) as usize;
        self.eight_failed += (eight && !passed) as usize;
    }

    fn note_show(&mut self, job: &Job, point: usize) {
        let closed = closed(job, point).unwrap();
        let framed = matches!(job.program.points[point].statement, Statement::Framed(..));
        let edges =
            (0..job.templates.list.len()).flat_map(|template| closed.edges(template)).fold(0, |all, to| all | to);
        for template in members(closed.roots | edges) {
            for element in job.templates.elements(template) {
                let allowed = job.vocabulary.rules[element.name as usize].attributes;
                let mut absent_gaps = Vec::new();
                for &(attribute, value) in job.templates.attributes(element) {
                    let AttributeValue::Gap(gap) = value else { continue };
                    let taken = closed.strings(template)[gap as usize];
                    let [absent, string] = [taken & ABSENT != 0, taken & ANY_STRING != 0];
                    let allowed = allowed >> attribute & 1 == 1;
                    self.with_strings += (absent && string) as usize;
                    self.without += (absent && !string) as usize;
                    self.two_on_a_gap += (absent && absent_gaps.contains(&gap)) as usize;
                    self.never_carried += (!allowed && absent && !string) as usize;
                    self.carried += (!allowed && absent && string) as usize;
                    self.nothing_to_take += (taken == 0) as usize;
                    self.framed += (framed && absent) as usize;
                    absent_gaps.push(gap);
                }
            }
        }
    }

    fn least(&self) -> usize {
        let attributes = [self.with_strings, self.without, self.two_on_a_gap, self.never_carried, self.carried];
        let shows = [self.nothing_to_take, self.framed];
        let clauses = [self.mixed_passed, self.mixed_failed, self.eight_passed, self.eight_failed];
        attributes.into_iter().chain(shows).chain(clauses).min().unwrap()
    }
}

/// Whether some clause mixes presence, sets and contents; and whether some has eight facts, presence among them.
fn clauses(vocabulary: &Vocabulary) -> [bool; 2] {
    let mut found = [false; 2];
    for clause in vocabulary.nodes.split(|node| *node == Node::Clause) {
        let has = |of: fn(&Node) -> bool| clause.iter().any(of);
        let presence = has(|node| matches!(node, Node::Attribute(_)));
        let set = has(|node| matches!(node, Node::Value(..)));
        let content = has(|node| matches!(node, Node::Content(_) | Node::Order(..)));
        found[0] |= presence && set && content;
        found[1] |= presence && facts(clause) == 8;
    }
    found
}

fn facts(clause: &[Node]) -> usize {
    let mut facts = Vec::new();
    for node in clause {
        match *node {
            Node::Attribute(_) | Node::Content(_) | Node::Value(..) => facts.push(*node),
            Node::Order(c, d) => facts.extend([*node, Node::Content(c), Node::Content(d)]),
            _ => {}
        }
    }
    facts.sort_by_key(|node| format!("{node:?}"));
    facts.dedup();
    facts.len()
}

#[test]
fn made_jobs_have_absence_of_every_kind() {
    let mut random = Random::new(42);
    let mut met = Met::default();
    let mut trials = Trials::default();
    let mut numbers = [0; 13];
    for _ in 0..3000 {
        let job = random_jobs::job(&mut random, Much::Absent);
        let verdict = check(&job);
        trials.of_languages(&job);
        met.note(&job, verdict[0]);
        // Whatever is wrong with an element.
        numbers[verdict[0].min(12) as usize] += 1;
    }
    println!("{met:?}, verdicts {numbers:?}\n{trials}");
    assert!(met.least() > 20);
    assert!(trials.complete * 10 > trials.shows * 8);
    assert!(numbers[2..].iter().all(|count| *count > 40) && numbers[0] > 600);
}

#[test]
fn made_pages_ask_for_attributes() {
    let mut random = Random::new(43);
    let mut numbers = [0; 13];
    let [mut mixed, mut eight, mut nine] = [[0; 2]; 3];
    for _ in 0..4000 {
        let record = random_pages::record(&mut random, Much::Absent);
        let number = record.verdict()[0].min(12);
        numbers[number as usize] += 1;
        let Ok(vocabulary) = Vocabulary::read_whole(&record.vocabulary, Landed::F4) else { continue };
        if number == 7 {
            let one_more = vocabulary.nodes.split(|node| *node == Node::Clause).any(|clause| facts(clause) == 9);
            nine[0] += one_more as usize;
            continue;
        }
        let [is_mixed, is_eight] = clauses(&vocabulary);
        if number == 0 || number == 12 {
            mixed[(number == 12) as usize] += is_mixed as usize;
            eight[(number == 12) as usize] += is_eight as usize;
        }
    }
    println!("mixed {mixed:?}, eight facts {eight:?}, nine {}, verdicts {numbers:?}", nine[0]);
    assert!(mixed.iter().chain(&eight).all(|count| *count > 50) && nine[0] > 50);
    assert!(numbers[2..=8].iter().chain(&numbers[11..]).all(|count| *count > 50));
}

/// Records of other words go on to be chosen by the verdicts from before.
#[test]
fn other_words_keep_their_records() {
    for (much, moved_at_least) in [(Much::Nothing, 10), (Much::Frames, 10)] {
        let mut random = Random::new(44);
        let jobs: Vec<_> = (0..600).map(|_| random_jobs::job(&mut random, much)).collect();
        let moved = jobs.iter().filter(|job| check(job) != independent::check::check_as(job, Landed::F4)).count();
        println!("{moved} of 600 jobs have another verdict by F-5");
        assert!(moved >= moved_at_least);
    }
}
