//! Verdicts on shows against pages of their languages, drawn at random and judged one by one.

use independent::job::Job;
use independent::language::draw;
use independent::making::Much;
use independent::program::Statement;
use independent::random::Random;
use independent::random_jobs;
use independent::{check, judge};

const JOBS: usize = 1500;
const DRAWS: usize = 400;

/// A page drawn at this show that is not right, if one comes.
fn wrong_page(random: &mut Random, job: &Job, bytes: &[u8], point: usize) -> Option<[u32; 4]> {
    let vocabulary = &bytes[..job.vocabulary_end];
    (0..DRAWS).filter_map(|_| draw(random, job, bytes, point)).map(|page| judge(vocabulary, &page)).find(|v| v[0] != 0)
}

#[test]
fn shows_are_judged_as_their_pages() {
    judged_as_their_pages(7, Much::Nothing, JOBS / 4);
}

#[test]
fn with_much_blank_text_too() {
    judged_as_their_pages(8, Much::Blank, JOBS / 4);
}

#[test]
fn with_many_framed_shows_too() {
    judged_as_their_pages(9, Much::Frames, JOBS / 4);
}

#[test]
fn with_absent_attributes_too() {
    judged_as_their_pages(10, Much::Absent, JOBS / 4);
}

#[test]
fn with_elements_wrong_in_several_ways_too() {
    judged_as_their_pages(11, Much::Kinds, JOBS / 20);
}

fn judged_as_their_pages(seed: u64, much: Much, least_accepted: usize) {
    let mut random = Random::new(seed);
    let (mut accepted, mut refused, mut unseen) = (0, 0, 0);
    for _ in 0..JOBS {
        let bytes = random_jobs::job(&mut random, much);
        let verdict = check(&bytes);
        if (1..11).contains(&verdict[0]) {
            continue;
        }
        let Ok(job) = Job::read(&bytes) else { unreachable!() };
        for (point, at) in job.program.points.iter().enumerate() {
            if !matches!(at.statement, Statement::Show(_) | Statement::Framed(..)) {
                continue;
            }
            let wrong = wrong_page(&mut random, &job, &bytes, point);
            if verdict[0] == 0 || point < verdict[1] as usize {
                assert_eq!(wrong, None, "accepted, but a page is wrong: {bytes:02X?}");
                accepted += 1;
            } else if point == verdict[1] as usize {
                refused += 1;
                unseen += wrong.is_none() as usize;
            }
        }
    }
    println!("{accepted} shows passed, {refused} refused, of these {unseen} without a wrong page drawn");
    assert!(accepted > least_accepted && refused > JOBS / 8);
    // A wrong page may be rare, but not often.
    assert!(unseen * 50 < refused, "{unseen} of {refused}");
}
