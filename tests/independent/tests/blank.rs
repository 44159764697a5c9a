//! Request F-2: blank text is an item, but no content anywhere.

use independent::blank::{assert_only_moves, without};
use independent::damage::commands;
use independent::job::Job;
use independent::making::Much;
use independent::random::Random;
use independent::random_scripts::whole;
use independent::records::Lent;
use independent::run::{Choice, Run};
use independent::{check, job_limits, judge, page_limits, random_jobs, random_pages};

fn bytes(text: &str) -> Vec<u8> {
    text.split_whitespace().map(|byte| u8::from_str_radix(byte, 16).unwrap()).collect()
}

/// Element 1, the root, allows attribute 0 and contents 0 and 2; element 2 allows nothing. One clause on the root.
fn page(clause: &str, page: &str) -> [u32; 4] {
    judge(&bytes(&format!("01 01 02 00 03 00 03 02 04 {clause} 01 02 05 01")), &bytes(page))
}

#[test]
fn no_content_of_an_element() {
    // Text may not stand in element 2, blank text may.
    assert_eq!(page("13", "23 01 23 02 29 29 26 26 27"), [0, 0, 0, 0]);
    assert_eq!(page("13", "23 01 23 02 29 21 26 26 27"), [14, 0, 0, 2]);
    // Text there, and not there.
    assert_eq!(page("15 00", "23 01 29 26 27"), [15, 0, 0, 0]);
    assert_eq!(page("12 15 00", "23 01 29 26 27"), [0, 0, 0, 0]);
    // At most one text: blank text does not join two, nor count as one.
    assert_eq!(page("16 00 00", "23 01 21 29 21 26 27"), [15, 0, 0, 0]);
    assert_eq!(page("16 00 00", "23 01 29 21 29 29 26 27"), [0, 0, 0, 0]);
    // No text before an element 2.
    assert_eq!(page("16 02 00", "23 01 29 23 02 26 29 21 26 27"), [0, 0, 0, 0]);
    assert_eq!(page("16 02 00", "23 01 21 29 23 02 26 26 27"), [15, 0, 0, 0]);
}

#[test]
fn nothing_beside_the_root() {
    assert_eq!(page("13", "29 23 01 26 29 29 27"), [0, 0, 0, 0]);
    assert_eq!(page("15 00", "29 23 01 26 29 27"), [15, 0, 0, 1]);
    for wrong in ["29 27", "29 29 29 27", "27", "29 21 27", "29 23 02 26 27", "23 01 26 29 23 01 26 27"] {
        assert_eq!(page("13", wrong), [11, 0, 0, 0], "{wrong}");
    }
}

#[test]
fn an_item() {
    assert_eq!(page("13", "23 01 24 00 01 29 26 27"), [0, 0, 0, 0]);
    assert_eq!(page("13", "23 01 29 24 00 01 26 27"), [3, 3, 1, 0]);
    assert_eq!(page("13", "23 01 24 00 01 29 28 01 26 27"), [3, 6, 1, 0]);
    assert_eq!(page("13", "23 29 26 27"), [8, 0, 1, 0]);
    assert_eq!(page("13", "29"), [2, 1, 1, 0]);
    assert_eq!(page("13", "27 29"), [3, 1, 1, 0]);
    assert_eq!(page("29", "27"), [3, 9, 0, 0]);
}

/// Template 1 as given, template 2 plugged into its gaps 0, then shown.
fn job(clause: &str, first: &str, second: &str) -> [u32; 4] {
    let start = format!(
        "01 01 03 00 04 {clause} 05 01 20 {first} 27 20 {second} 27 2F \
        31 00 01 01 01 31 01 02 02 02 35 00 00 00 01 03 03 37 00 04 04 38 3F"
    );
    let start = bytes(&start);
    match Lent::default().infer(&start) {
        Ok(proposal) => check(&[&start[..], proposal].concat()),
        Err(refusal) => refusal,
    }
}

#[test]
fn templates() {
    let empty = "12 15 00";
    // In an element that must be empty, and beside the root.
    assert_eq!(job(empty, "23 01 22 00 26", "29 29"), [0, 0, 0, 0]);
    assert_eq!(job(empty, "23 01 29 22 00 29 26", "29 21"), [15, 3, 0, 11]);
    assert_eq!(job("15 00", "29 23 01 22 00 26", "29"), [15, 3, 0, 11]);
    assert_eq!(job(empty, "22 00 29 23 01 26 29 22 00", "29"), [0, 0, 0, 0]);
    assert_eq!(job(empty, "22 00 29 23 01 26 29 22 00", "29 21"), [11, 3, 1, 0]);
    assert_eq!(job(empty, "29", "29"), [11, 3, 1, 0]);
    assert_eq!(job(empty, "22 00", "29 23 01 29 26 29"), [0, 0, 0, 0]);
    // Blank text does not join two texts.
    assert_eq!(job("16 00 00", "23 01 22 00 29 22 00 26", "29 21 29"), [15, 3, 0, 11]);
    // It ends the attributes.
    assert_eq!(job("13", "23 01 29 24 00 00 26", ""), [3, 12, 0, 0]);
    assert_eq!(job("13", "23 01 24 00 00 29 25 01 00 26", ""), [3, 15, 0, 0]);
    assert_eq!(job("13", "23 01 26 27 29", ""), [3, 13, 0, 0]);
}

/// The pages shown with blank text are those without, but for it; and it is kept.
#[test]
fn runs_keep_it() {
    let mut random = Random::new(21);
    let (mut shown, mut blank) = (0, 0);
    for _ in 0..1500 {
        let bytes = random_jobs::job(&mut random, Much::Blank);
        let Ok(job) = Job::read(&bytes) else { continue };
        let bare_bytes = without(&bytes);
        let Ok(bare_job) = Job::read(&bare_bytes) else { panic!("{bytes:02X?}") };
        let mut run = Run::new(&job, &bytes);
        let mut bare = Run::new(&bare_job, &bare_bytes);
        for _ in 0..40 {
            if run.values.iter().any(|value| value.len() > 5_000) {
                break;
            }
            let choice = Choice { second: random.percent(50), string: random.below(65) as u8 };
            run.step(choice);
            bare.step(choice);
        }
        assert_eq!(run.pages.iter().map(|page| without(page)).collect::<Vec<_>>(), bare.pages, "{bytes:02X?}");
        shown += run.pages.len();
        blank += run.pages.iter().flatten().filter(|byte| **byte == 0x29).count();
    }
    assert!(shown > 1000 && blank > 10_000, "{shown} pages, {blank} bytes");
}

#[test]
fn proposals_are_the_same() {
    let mut random = Random::new(22);
    let mut lent = Lent::default();
    for _ in 0..2000 {
        let script = whole(&mut random, Much::Blank).concat();
        assert_eq!(lent.line(&script), lent.line(&without(&script)), "{script:02X?}");
    }
}

#[test]
fn only_offsets_move() {
    for record in page_limits::all() {
        assert_only_moves(&record.page, record.verdict(), |page| judge(&record.vocabulary, page));
    }
    for job in job_limits::all() {
        assert_only_moves(&job, check(&job), check);
    }
}

/// Which of these kinds of places blank text has, in a page or in a job's templates.
fn places(bytes: &[u8]) -> [bool; 8] {
    let mut list = commands(bytes);
    // Blank text in a row counts as one.
    list.dedup_by(|later, earlier| later[0] == 0x29 && earlier[0] == 0x29);
    let mut met = [false; 8];
    let mut depth = 0;
    for at in 0..list.len() {
        let before = if at == 0 { 0x20 } else { list[at - 1][0] };
        let after = list.get(at + 1).map_or(0, |command| command[0]);
        match list[at][0] {
            0x23 => depth += 1,
            0x26 => depth -= 1,
            0x29 => {
                let kinds = [
                    matches!((before, after), (0x21 | 0x22, 0x21 | 0x22)),
                    matches!(before, 0x24 | 0x25 | 0x28) && matches!(after, 0x21..=0x23 | 0x26),
                    matches!(after, 0x24 | 0x25 | 0x28),
                    before == 0x20,
                    after == 0x27,
                    before == 0x20 && after == 0x27,
                    depth == 0 && after == 0x23,
                    depth == 0 && before == 0x26,
                ];
                met.iter_mut().zip(kinds).for_each(|(met, kind)| *met |= kind);
            }
            _ => {}
        }
    }
    met
}

/// Every kind of place and every verdict number, each often enough.
#[test]
fn made_records_have_it_everywhere() {
    let mut random = Random::new(23);
    let mut pages = Seen::default();
    let mut jobs = Seen::default();
    for _ in 0..4000 {
        let record = random_pages::record(&mut random, Much::Blank);
        let verdict = record.verdict();
        assert_only_moves(&record.page, verdict, |page| judge(&record.vocabulary, page));
        pages.note(&record.page, verdict);
    }
    for _ in 0..2500 {
        let job = random_jobs::job(&mut random, Much::Blank);
        let verdict = check(&job);
        assert_only_moves(&job, verdict, check);
        jobs.note(&job, verdict);
    }
    for seen in [&pages, &jobs] {
        println!("places {:?}, verdicts {:?}", seen.places, seen.numbers);
        assert!(seen.places.iter().all(|count| *count > 10));
        assert!(seen.numbers[2..=8].iter().all(|count| *count > 10));
        assert!([0, 11, 12].iter().all(|number| seen.numbers[*number] > 50));
    }
    assert!(jobs.numbers[9] > 10 && jobs.numbers[10] > 10);
}

#[derive(Default)]
struct Seen {
    places: [usize; 8],
    /// Records with blank text, by verdict number: 12 whatever is wrong with an element.
    numbers: [usize; 13],
}

impl Seen {
    fn note(&mut self, bytes: &[u8], verdict: [u32; 4]) {
        let met = places(bytes);
        self.places.iter_mut().zip(met).for_each(|(count, met)| *count += met as usize);
        let blank = commands(bytes).iter().any(|command| command[0] == 0x29);
        self.numbers[verdict[0].min(12) as usize] += blank as usize;
    }
}
