//! Request F-3: a show inside a frame is a template load, a plug and a show, and changes no variable.

use independent::apart;
use independent::check::shows;
use independent::damage::commands;
use independent::job::Job;
use independent::landed::Landed;
use independent::least::with_least;
use independent::making::Much;
use independent::program::Statement;
use independent::random::Random;
use independent::random_scripts::script;
use independent::records::Lent;
use independent::run::{Choice, Run};
use independent::summary::Summary;
use independent::{check, job_limits, random_jobs, read_job};

fn bytes(text: &str) -> Vec<u8> {
    text.split_whitespace().map(|byte| u8::from_str_radix(byte, 16).unwrap()).collect()
}

/// A program after one rule and one template. It starts at offset 7; the proposal is empty.
fn read(program: &str) -> [u32; 4] {
    read_job(&bytes(&format!("01 01 05 01 20 27 2F {program} 3F 4F")))
}

#[test]
fn operands() {
    for right in ["39 00 00 00 00 00", "39 03 01 07 00 00"] {
        assert_eq!(read(right), [0, 0, 0, 0], "{right}");
    }
    for out_of_range in ["39 04 01 07 00 00", "39 03 01 08 00 00", "39 04 02 00 09 09", "39 00 02 08 09 09"] {
        assert_eq!(read(out_of_range), [4, 7, 0, 0], "{out_of_range}");
    }
    for not_there in ["39 03 02 07 00 00", "39 00 FF 00 09 09", "39 03 01 07 01 00", "39 03 01 07 00 01"] {
        assert_eq!(read(not_there), [8, 7, 0, 0], "{not_there}");
    }
    // Next points wait until `3F`, and the earliest statement counts.
    assert_eq!(read("39 00 00 00 09 09 39 04 00 00 00 00"), [4, 13, 0, 0]);
    assert_eq!(read("39 00 00 00 00 01 39 00 00 00 02 00 39 00 00 00 09 09"), [8, 19, 0, 0]);
}

#[test]
fn cut_too_many_or_out_of_place() {
    let start = bytes("01 01 05 01 20 27 2F 39 04 02 08 09 09");
    for length in 8..start.len() {
        assert_eq!(read_job(&start[..length]), [2, 7, 0, 0], "{length}");
    }
    assert_eq!(read_job(&start), [4, 7, 0, 0]);
    let after_32 = |statement: &str| read(&format!("{}{statement}", "38 ".repeat(32)));
    assert_eq!(after_32("39 00 01 00 00 00"), [6, 39, 0, 0]);
    assert_eq!(after_32("39 04 01 00 00 00"), [4, 39, 0, 0]);
    assert_eq!(after_32("39 00 02 00 00 00"), [8, 39, 0, 0]);
    for (offset, out_of_place) in [
        (0, "39 00 00 00 00 00"),
        (2, "01 01 39 00 00 00 00 00"),
        (4, "01 01 05 01 39 00 00 00 00 00"),
        (5, "01 01 05 01 20 39 00 00 00 00 00"),
        (7, "01 01 05 01 2F 38 3F 39 00 00 00 00 00"),
        (10, "01 01 05 01 2F 38 3F 40 00 00 39 00 00 00 00 00"),
    ] {
        assert_eq!(read_job(&bytes(out_of_place)), [3, offset, 0, 0], "{out_of_place}");
    }
}

/// A script: element 1, the root, has attribute 0, contents 0, 1 and 2, and one clause; element 2 has content 0. The
/// first template's first item stands at 18 and the clause's length.
fn start(clause: &str, templates: &[&str], program: &str) -> Vec<u8> {
    let templates: String = templates.iter().map(|template| format!("20 {template} 27 ")).collect();
    bytes(&format!("01 01 02 00 03 00 03 01 03 02 04 {clause} 01 02 03 00 05 01 {templates} 2F {program} 3F"))
}

/// The verdict with the least proposal that holds all of `held`.
fn holding(held: &str, start: &[u8]) -> [u32; 4] {
    check(&with_least(start, &bytes(held)).unwrap())
}

fn verdict(clause: &str, templates: &[&str], program: &str) -> [u32; 4] {
    let start = start(clause, templates, program);
    let proposal = Lent::default().infer(&start).unwrap().to_vec();
    let verdict = check(&[&start[..], &proposal].concat());
    assert_eq!(holding("", &start), verdict);
    verdict
}

#[test]
fn the_variable_is_named() {
    let start = bytes("01 01 05 01 2F 39 02 00 00 01 01 38 3F");
    let proposal = "40 00 02 41 00 40 01 02 41 00 4F";
    assert_eq!(Lent::default().infer(&start), Ok(&bytes(proposal)[..]));
    let with = |proposal: &str| check(&[&start[..], &bytes(proposal)].concat());
    assert_eq!(with("4F"), [9, 0, 0, 2]);
    assert_eq!(with("40 00 02 41 00 4F"), [10, 0, 1, 2]);
    assert_eq!(with(proposal), [11, 0, 0, 0]);
}

#[test]
fn no_variable_changes() {
    let start = bytes("01 01 05 01 20 22 00 27 20 21 27 2F 31 00 02 01 01 39 00 01 00 02 02 38 3F");
    let proposal = bytes("40 00 00 41 00 40 01 00 41 02 40 02 00 41 02 4F");
    assert_eq!(Lent::default().infer(&start), Ok(&proposal[..]));
}

/// Loads template 2 into variable 0, and shows it in gap 0 of template 1.
const FRAMED: &str = "31 00 02 01 01 39 00 01 00 02 02 38";

#[test]
fn the_frame_takes_the_value() {
    // At most one element 2, and one at least.
    let clause = "10 16 02 02 15 02";
    assert_eq!(verdict(clause, &["23 01 22 00 26", "23 02 21 26"], FRAMED), [0, 0, 0, 0]);
    assert_eq!(verdict(clause, &["23 01 22 00 22 00 26", "23 02 21 26"], FRAMED), [15, 1, 0, 24]);
    assert_eq!(verdict(clause, &["23 01 22 00 26", "23 02 23 02 26 26"], FRAMED), [14, 1, 2, 31]);
    // Any depth, and both the frame and the value.
    let nested = "23 01 23 01 22 00 26 23 02 26 26";
    assert_eq!(verdict(clause, &[nested, "23 02 21 26"], FRAMED), [0, 0, 0, 0]);
    assert_eq!(verdict(clause, &[nested, "21"], FRAMED), [15, 1, 0, 26]);
    // A gap of another number gets nothing.
    assert_eq!(verdict(clause, &["23 01 22 01 26", "23 02 21 26"], FRAMED), [15, 1, 0, 24]);
    assert_eq!(verdict("13", &["23 01 22 01 22 00 26", "23 02 22 01 26"], FRAMED), [0, 0, 0, 0]);
}

#[test]
fn gaps_of_the_value_are_closed() {
    let clause = "10 16 02 02 15 02";
    // The same gap, another one, both.
    for value in ["22 00 23 02 22 00 26", "23 02 26 22 01", "22 00 23 02 22 01 26"] {
        assert_eq!(verdict(clause, &["23 01 22 00 26", value], FRAMED), [0, 0, 0, 0], "{value}");
    }
    assert_eq!(verdict(clause, &["23 01 22 00 26", "22 00"], FRAMED), [15, 1, 0, 24]);
    // Attributes of the frame and of the value go where their gaps are open.
    let templates = ["23 01 25 00 00 22 00 26", "23 01 25 00 03 26"];
    for clause in ["17 00 00 00 00 00 00 00 00 01", "17 00 00 00 00 00 00 00 00 02", "12 14 00"] {
        assert_eq!(verdict(clause, &templates, FRAMED), [0, 0, 0, 0]);
    }
    assert_eq!(verdict("14 00", &templates, FRAMED), [15, 1, 0, 20]);
    assert_eq!(verdict("14 00", &["23 01 24 00 01 22 00 26", templates[1]], FRAMED), [15, 1, 0, 30]);
}

#[test]
fn not_exactly_the_root() {
    // The empty template, whatever the value.
    assert_eq!(verdict("13", &["23 01 26"], "31 00 01 01 01 39 00 00 00 02 02 38"), [11, 1, 0, 0]);
    assert_eq!(verdict("13", &[], "39 03 00 07 01 01 38"), [11, 0, 0, 0]);
    // The frame is named, though the value is at fault.
    assert_eq!(verdict("13", &["22 00", "23 01 26"], FRAMED), [0, 0, 0, 0]);
    assert_eq!(verdict("13", &["22 00", "23 02 26"], FRAMED), [11, 1, 1, 0]);
    assert_eq!(verdict("13", &["22 00", "29"], FRAMED), [11, 1, 1, 0]);
    assert_eq!(verdict("13", &["22 00 23 01 26", "29"], FRAMED), [0, 0, 0, 0]);
    assert_eq!(verdict("13", &["22 00 23 01 26", "21"], FRAMED), [11, 1, 1, 0]);
    // 11 before 12, and the lowest show first.
    assert_eq!(verdict("15 02", &["22 00", "23 01 26 21"], FRAMED), [11, 1, 1, 0]);
    let two = "39 00 02 00 01 01 39 00 01 00 02 02 38";
    assert_eq!(verdict("15 02", &["21", "23 01 26"], two), [15, 0, 0, 23]);
}

/// Template 2 has gap 1 plugged with a text, template 3, before it is shown in template 1 or in itself.
fn plugged(frame: &str, gap: &str) -> String {
    format!("31 00 02 01 01 31 01 03 02 02 35 00 00 01 01 03 03 39 00 {frame} {gap} 04 04 38")
}

/// Where the value holds the frame's template they are one node, whose gaps take what either takes.
#[test]
fn a_frame_inside_itself() {
    // No text beside an element 1.
    let clause = "12 10 15 01 15 00";
    let page = "23 01 22 00 22 01 26";
    let templates = [page, page, "21"];
    assert_eq!(verdict(clause, &templates, &plugged("01", "00")), [0, 0, 0, 0]);
    assert_eq!(verdict(clause, &templates, &plugged("02", "00")), [15, 3, 0, 33]);
    // Not so in the run.
    assert_eq!(pages(clause, &templates, &plugged("02", "00")), [bytes("23 01 23 01 21 26 26 27")]);
}

#[test]
fn a_frame_that_lacks_the_gap() {
    // No text in the root: a run shows the frame alone, but where the value holds it the graphs join.
    let clause = "12 15 00";
    let page = "23 01 22 01 26";
    let templates = [page, page, "21"];
    assert_eq!(verdict(clause, &templates, &plugged("01", "00")), [0, 0, 0, 0]);
    assert_eq!(verdict(clause, &templates, &plugged("02", "00")), [15, 3, 0, 28]);
    assert_eq!(pages(clause, &templates, &plugged("02", "00")), [bytes("23 01 26 27")]);
    // Else it hangs on the frame alone, whatever is wrong in the value.
    assert_eq!(verdict(clause, &["23 01 26", "23 02 23 01 21 26 26"], FRAMED), [0, 0, 0, 0]);
    assert_eq!(verdict(clause, &["23 01 21 26", "23 02 26"], FRAMED), [15, 1, 0, 21]);
    // Its other gaps are open, as are those that the value brings.
    let origins = "40 01 00 46 00 01";
    let page = start("14 00", &["23 01 25 00 00 26", ""], FRAMED);
    assert_eq!(holding("40 01 00 43 01 00 01", &page), [15, 1, 0, 20]);
    assert_eq!(holding(origins, &page), [15, 1, 0, 20]);
}

#[test]
fn a_value_without_roots() {
    // No run comes to point 1, and nothing is held there.
    let unreached = "38 39 00 01 00 00 00";
    let frame = start("13", &["22 00"], unreached);
    assert_eq!(holding("", &frame), [0, 0, 0, 0]);
    // A page comes if the frame is an origin of the gap, or if an edge leads on from there.
    assert_eq!(holding("40 01 00 45 00 01", &frame), [11, 1, 1, 0]);
    assert_eq!(holding("40 01 00 42 01 00 00", &frame), [11, 1, 1, 0]);
    assert_eq!(holding("40 01 00 45 01 01", &frame), [0, 0, 0, 0]);
    assert_eq!(holding("40 01 00 45 00 00", &frame), [0, 0, 0, 0]);
    assert_eq!(holding("40 01 00 41 00", &frame), [11, 1, 1, 0]);
    // Without the gap a page comes anyhow.
    assert_eq!(verdict("13", &["22 01"], unreached), [11, 1, 1, 0]);
    assert_eq!(verdict("13", &["23 01 26"], unreached), [0, 0, 0, 0]);
}

/// The pages that a run shows which always takes the first next point.
fn pages(clause: &str, templates: &[&str], program: &str) -> Vec<Vec<u8>> {
    let bytes = [&start(clause, templates, program)[..], &[0x4F]].concat();
    let Ok(job) = Job::read(&bytes) else { panic!("{bytes:02X?}") };
    let mut run = Run::new(&job, &bytes);
    for _ in 0..40 {
        let before = (run.values.clone(), run.strings);
        let framed = matches!(job.program.points[run.point].statement, Statement::Framed(..));
        run.step(Choice { second: false, string: 64 });
        assert!(!framed || before == (run.values.clone(), run.strings));
    }
    run.pages
}

#[test]
fn runs() {
    let shown = |frame: &str, value: &str, expected: &str| {
        assert_eq!(pages("13", &[frame, value], FRAMED), [bytes(expected)], "{frame} around {value}");
    };
    shown("23 01 22 00 26", "21", "23 01 21 26 27");
    shown("22 00 23 01 23 02 22 00 26 26 22 00", "21 29", "21 29 23 01 23 02 21 29 26 26 21 29 27");
    shown("23 01 22 01 26", "21", "23 01 26 27");
    shown("29", "21", "29 27");
    // Gaps of the value stay open, the same one too, and then get nothing.
    shown("22 00 21 22 01", "23 01 22 00 22 02 26", "23 01 26 21 27");
    shown("23 01 25 00 00 22 00 26", "23 01 25 00 07 26", "23 01 23 01 26 26 27");
    // The empty template, and a value without items.
    assert_eq!(pages("13", &["21"], "31 00 01 01 01 39 00 00 00 02 02 38"), [bytes("27")]);
    assert_eq!(pages("13", &["23 01 22 00 26"], "39 03 01 00 01 01 38"), [bytes("23 01 26 27")]);
    // Shown again and again, framed and not.
    let program = "31 00 02 01 01 39 00 01 00 02 02 37 00 03 03 39 00 01 00 04 04 38";
    let expected = ["23 01 21 26 27", "21 27", "23 01 21 26 27"].map(bytes);
    assert_eq!(pages("13", &["23 01 22 00 26", "21"], program), expected);
    // A string outside 0-63 in the value, no attribute in the frame.
    let program = "31 00 02 01 01 34 00 02 02 36 00 00 00 00 03 03 39 00 01 00 04 04 38";
    let templates = ["23 01 25 00 00 22 00 26", "23 01 25 00 00 26"];
    assert_eq!(pages("13", &templates, program), [bytes("23 01 23 01 28 00 26 26 27")]);
}

#[test]
fn limits_are_alike_taken_apart() {
    let mut random = Random::new(31);
    let apart: usize = job_limits::all().iter().map(|job| apart::assert_alike(&mut random, job, Landed::NOW)).sum();
    println!("{apart} framed shows taken apart");
    assert!(apart > 100);
}

/// How often each of these was met.
#[derive(Default, Debug)]
struct Met {
    empty_frame: usize,
    lacks_the_gap: usize,
    has_the_gap: usize,
    /// The value holds the frame's template.
    shared: usize,
    shared_and_lacks_the_gap: usize,
    /// The frame lacks the gap, and alone it would get another verdict.
    hangs_on_the_value: usize,
    /// The value has the gap open, or plugged and open no more.
    open: usize,
    plugged: usize,
    no_root: usize,
    no_root_but_origin: usize,
    /// Passed, 11, and a wrong element in the frame and in the value.
    passed: usize,
    not_the_root: usize,
    wrong_frame: usize,
    wrong_value: usize,
    many: usize,
}

impl Met {
    /// A job whose proposal covers. Before F-6 every wrong element is a 12 with its template.
    fn note(&mut self, bytes: &[u8]) {
        let Ok(job) = &Job::read_as(bytes, Landed::F5) else { unreachable!() };
        let mut count = 0;
        for (point, verdict) in shows(job) {
            let [number, _, wrong, _] = verdict;
            let Statement::Framed(x, t, g) = job.program.points[point].statement else { continue };
            let (template, gap) = (t as usize, g as usize);
            let value = job.entries.summary(point, x);
            let has_the_gap = job.templates.list[template].gaps >> gap & 1 == 1;
            let origins = value.origins.iter().chain(&value.attribute_origins).fold(0, |all, set| all | set);
            let edges = (0..32).flat_map(|n| value.edges(n)).fold(0, |all, set| all | set);
            let shared = (value.roots | origins | edges) >> template & 1 == 1 && template != 0;
            let plugged = (0..32).any(|n| value.edges(n)[gap] != 0) && value.origins[gap] == 0;
            count += 1;
            self.empty_frame += (template == 0) as usize;
            self.lacks_the_gap += (template != 0 && !has_the_gap) as usize;
            self.has_the_gap += has_the_gap as usize;
            self.shared += (shared && has_the_gap) as usize;
            self.shared_and_lacks_the_gap += (shared && !has_the_gap) as usize;
            self.hangs_on_the_value += (!has_the_gap && alone(bytes, point, x) != verdict) as usize;
            self.open += (value.origins[gap] != 0) as usize;
            self.plugged += plugged as usize;
            self.no_root += (value.roots == 0 && has_the_gap) as usize;
            self.no_root_but_origin +=
                (value.roots == 0 && has_the_gap && value.origins[gap] >> template & 1 == 1) as usize;
            self.passed += (number == 0) as usize;
            self.not_the_root += (number == 11) as usize;
            self.wrong_frame += (number == 12 && wrong == t as u32) as usize;
            self.wrong_value += (number == 12 && wrong != t as u32) as usize;
            assert!(number != 11 || wrong == t as u32);
        }
        self.many += (count > 2) as usize;
    }

    fn least(&self) -> usize {
        let shows = [self.empty_frame, self.lacks_the_gap, self.has_the_gap, self.shared, self.open, self.plugged];
        let more =
            [self.shared_and_lacks_the_gap, self.hangs_on_the_value, self.no_root, self.no_root_but_origin, self.many];
        let verdicts = [self.passed, self.not_the_root, self.wrong_frame, self.wrong_value];
        shows.into_iter().chain(more).chain(verdicts).min().unwrap()
    }
}

/// The verdict on a show if nothing is held of its variable.
fn alone(bytes: &[u8], point: usize, x: u8) -> [u32; 4] {
    let Ok(mut job) = Job::read_as(bytes, Landed::F5) else { unreachable!() };
    *job.entries.summary_mut(point, x) = Summary::default();
    let verdict = shows(&job).find(|show| show.0 == point).unwrap().1;
    verdict
}

/// The command at which a job or a script was refused is `39`.
fn at_a_frame(bytes: &[u8], [number, at, ..]: [u32; 4]) -> bool {
    (1..=8).contains(&number) && bytes.get(at as usize) == Some(&0x39)
}

#[test]
fn made_jobs_have_frames_of_every_kind() {
    let mut random = Random::new(32);
    let mut met = Met::default();
    let mut apart = 0;
    let mut numbers = [0; 13];
    for _ in 0..4000 {
        let bytes = random_jobs::job(&mut random, Much::Frames);
        let verdict = check(&bytes);
        apart += apart::assert_alike(&mut random, &bytes, Landed::NOW);
        let reads = read_job(&bytes) == [0; 4];
        let framed = reads && commands(&bytes).iter().any(|command| command[0] == 0x39);
        numbers[verdict[0].min(12) as usize] += (framed || at_a_frame(&bytes, verdict)) as usize;
        if verdict[0] == 0 || verdict[0] > 10 {
            met.note(&bytes);
        }
    }
    println!("{met:?}, {apart} taken apart, verdicts {numbers:?}");
    assert!(met.least() > 10 && apart > 4000);
    assert!([2, 3, 4, 6, 8].iter().all(|number| numbers[*number] > 10));
    assert!([0, 9, 10, 11, 12].iter().all(|number| numbers[*number] > 50));
}

#[test]
fn made_scripts_have_frames() {
    let mut random = Random::new(33);
    let mut lent = Lent::default();
    let mut numbers = [0; 9];
    for _ in 0..4000 {
        let script = script(&mut random, Much::Frames);
        match lent.infer(&script) {
            Ok(_) => numbers[0] += commands(&script).iter().any(|command| command[0] == 0x39) as usize,
            Err(verdict) => numbers[verdict[0] as usize] += at_a_frame(&script, verdict) as usize,
        }
    }
    println!("verdicts {numbers:?}");
    assert!([0, 2, 3, 4, 6, 8].iter().all(|number| numbers[*number] > 10) && numbers[0] > 1500);
}

/// Without being asked for, too.
#[test]
fn other_records_have_some() {
    for much in [Much::Nothing, Much::Blank] {
        let mut random = Random::new(34);
        let framed = |bytes: &[u8]| commands(bytes).iter().any(|command| command[0] == 0x39);
        let jobs = (0..1000).filter(|_| framed(&random_jobs::job(&mut random, much))).count();
        let scripts = (0..1000).filter(|_| framed(&script(&mut random, much))).count();
        println!("{jobs} jobs and {scripts} scripts of 1000");
        assert!(jobs > 100 && scripts > 100);
    }
}
