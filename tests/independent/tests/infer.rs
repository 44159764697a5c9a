//! Request F-1: the smallest covering proposal, where it is written, and what else changes.

use independent::damage::commands;
use independent::infer::WORK;
use independent::landed::Landed;
use independent::least::with_least;
use independent::making::Much;
use independent::random::Random;
use independent::random_scripts::{of_length, whole};
use independent::reader::LONGEST;
use independent::records::Lent;
use independent::{check, infer, large_scripts, random_jobs, Inferred};

const DIRT: u64 = 0xA5A5_5A5A_0F0F_F0F1;
const BYTE: u8 = 0xEE;

fn j1() -> Vec<u8> {
    let [j1, ..] = large_scripts::all();
    j1
}

fn inferred(script: &[u8]) -> Result<Vec<u8>, [u32; 4]> {
    Lent::default().infer(script).map(<[u8]>::to_vec)
}

fn bytes(text: &str) -> Vec<u8> {
    text.split_whitespace().map(|byte| u8::from_str_radix(byte, 16).unwrap()).collect()
}

/// A script of one rule.
fn script(templates: &str, program: &str) -> Vec<u8> {
    bytes(&format!("01 01 05 01 {templates} 2F {program} 3F"))
}

#[test]
fn j1_has_its_own_proposal() {
    let proposal = bytes(
        "40 00 00 41 00 40 00 01 41 00 40 01 00 41 01 45 00 01 40 01 01 41 00 40 02 00 41 01 45 00 01 40 02 01 41 02 \
        40 03 00 41 01 42 01 00 02 40 03 01 41 02 40 04 00 41 01 42 01 00 02 40 04 01 41 02 4F",
    );
    assert_eq!(inferred(&j1()), Ok(proposal));
}

#[test]
fn small_proposals() {
    let proposal = |program: &str, expected: &str| {
        assert_eq!(inferred(&script("20 22 00 23 01 25 00 01 26 27", program)), Ok(bytes(expected)), "{program}");
    };
    // No variable is named.
    proposal("38", "4F");
    // Point 1 comes from no point, and yet its statement counts.
    proposal("38 33 02 05 02 02 38", "40 00 06 47 00 40 02 06 47 05 4F");
    // Listed strings are left out beside any string.
    proposal("33 00 05 01 01 34 00 00 00", "40 00 04 48 40 01 04 47 05 4F");
    // A value into itself: the gap takes its own template, and stays open.
    proposal("31 00 01 01 01 35 00 00 00 00 01 01", "40 00 00 41 00 40 01 00 41 01 42 01 00 01 45 00 01 46 01 01 4F");
    // A gap that is absent: nothing but the graphs and the origins are joined.
    proposal(
        "31 01 01 01 01 35 00 00 07 01 02 02 38",
        "40 00 00 41 00 40 00 01 41 00 40 01 00 41 00 40 01 01 41 01 45 00 01 46 01 01 \
        40 02 00 41 00 45 00 01 46 01 01 40 02 01 41 01 45 00 01 46 01 01 4F",
    );
    // Strings at an attribute gap.
    proposal(
        "31 00 01 01 01 36 00 00 01 03 02 02 38",
        "40 00 00 41 00 40 00 07 47 00 40 01 00 41 01 45 00 01 46 01 01 40 01 07 47 00 \
        40 02 00 41 01 43 01 01 00 45 00 01 40 02 07 47 00 4F",
    );
}

#[test]
fn strings_that_are_listed_stay_listed() {
    let statements: Vec<String> = (0..32).map(|point| format!("33 00 {:02X} 00 {point:02X}", point + 32)).collect();
    let proposal = inferred(&script("", &statements.join(" "))).unwrap();
    assert_eq!(proposal.iter().filter(|byte| **byte == 0x48).count(), 0);
    assert_eq!(proposal.iter().filter(|byte| **byte == 0x40).count(), 32);
    assert_eq!(proposal[3..5], [0x47, 0]);
    assert_eq!(proposal[5..69], (32..64).flat_map(|string| [0x47, string]).collect::<Vec<u8>>());
}

/// Work area and buffer, dirty, before a call; `check` gets the answer and both after it.
fn lend(script: &[u8], work: usize, buffer: usize, place: usize, check: impl Fn(Inferred, &[u64], &[u8])) {
    let mut work = vec![DIRT; work];
    let mut buffer = vec![BYTE; buffer];
    let answer = infer(script, &mut work, &mut buffer, place);
    check(answer, &work, &buffer);
}

fn all_zero(work: &[u64]) -> bool {
    work.iter().all(|word| *word == 0)
}

fn dirty(work: &[u64]) -> bool {
    work.iter().all(|word| *word == DIRT)
}

fn kept(buffer: &[u8]) -> bool {
    buffer.iter().all(|byte| *byte == BYTE)
}

#[test]
fn the_proposal_stands_at_its_place() {
    let proposal = inferred(&j1()).unwrap();
    let length = proposal.len();
    for (place, after) in [(0, 0), (0, 7), (5, 0), (1, 1), (100, 300)] {
        for work in [WORK, WORK + 1, 2 * WORK] {
            lend(&j1(), work, place + length + after, place, |answer, work, buffer| {
                assert_eq!(answer, Inferred { verdict: [0; 4], written: length });
                assert!(kept(&buffer[..place]) && kept(&buffer[place + length..]));
                assert_eq!(buffer[place..place + length], proposal);
                assert!(all_zero(work));
            });
        }
    }
}

#[test]
fn no_room_in_the_buffer() {
    let length = inferred(&j1()).unwrap().len();
    let too_small = [(0, 0), (length - 1, 0), (length, 1), (length + 9, 10), (length, length)];
    let past_the_end = [(0, 1), (length, length + 1), (500, 501), (500, usize::MAX), (500, usize::MAX - length + 1)];
    for (buffer, place) in too_small.into_iter().chain(past_the_end) {
        for work in [WORK, WORK + 3] {
            lend(&j1(), work, buffer, place, |answer, work, buffer| {
                assert_eq!(answer, Inferred { verdict: [13, length as u32, 0, 0], written: 0 });
                assert!(kept(buffer) && all_zero(work));
            });
        }
    }
}

fn refused(script: &[u8], work: usize, verdict: [u32; 4]) {
    for (buffer, place) in [(1000, 0), (1000, 1001), (0, 0)] {
        lend(script, work, buffer, place, |answer, work, buffer| {
            assert_eq!(answer, Inferred { verdict, written: 0 });
            assert!(kept(buffer) && dirty(work));
        });
    }
}

#[test]
fn too_small_a_work_area() {
    for work in [0, 1, WORK - 1] {
        refused(&j1(), work, [13, WORK as u32, 0, 0]);
        // Reading comes first.
        refused(&[], work, [2, 0, 0, 0]);
    }
}

#[test]
fn reading_refusals_change_nothing() {
    let refused = |script: &[u8], verdict| refused(script, WORK, verdict);
    let with = |more: &[u8]| [&j1()[..], more].concat();
    for length in 0..j1().len() {
        let Err(verdict) = inferred(&j1()[..length]) else { panic!("cut at {length}") };
        assert_eq!(verdict[0], 2, "cut at {length}");
        refused(&j1()[..length], verdict);
    }
    refused(&j1()[..55], [2, 55, 0, 0]);
    refused(&with(&[0x4F]), [3, 56, 0, 0]);
    refused(&with(&[0]), [3, 56, 0, 0]);
    // A next point that is not there, before the byte after `3F`.
    let mut wrong = with(&[0x4F]);
    wrong[36] = 5;
    refused(&wrong, [8, 33, 0, 0]);
    refused(&of_length(LONGEST + 1, 0x21), [1, 0, 0, 0]);
    refused(&script("", "31 04 00 00 00"), [4, 5, 0, 0]);
    refused(&script("", "31 00 01 00 00"), [8, 5, 0, 0]);
    refused(&script("", ""), [3, 5, 0, 0]);
    refused(&bytes("01 01 02 01 02 01"), [5, 4, 0, 0]);
    refused(&script("", &"38 ".repeat(33)), [6, 37, 0, 0]);
    refused(&bytes("01 01 04 10 10 16 01 01 16 02 02 10 16 03 03 10 16 04 04 15 05 05 01"), [7, 2, 0, 0]);
}

/// Together with the job they could not be checked.
#[test]
fn proposals_of_any_length() {
    let [_, largest, many_rounds] = large_scripts::all();
    let long = [0x21, 0x29].map(|item| (of_length(LONGEST, item), 8));
    for (script, length) in long.into_iter().chain([(largest, 2_214_657), (many_rounds, 138_380)]) {
        let proposal = inferred(&script).unwrap();
        assert_eq!(proposal.len(), length);
        assert!(script.len() + length > LONGEST);
    }
}

#[test]
fn the_same_as_by_rounds() {
    let mut random = Random::new(11);
    // Some clauses have too many facts by now.
    let mut lent = Lent::of(Landed::F4);
    let much = |index: usize| [Much::Nothing, Much::Frames, Much::Absent][index % 3];
    let scripts = (0..6000).map(|index| whole(&mut random, much(index)).concat()).chain(large_scripts::all());
    for script in scripts {
        let by_rounds = with_least(&script, &[]).unwrap();
        assert_eq!(lent.infer(&script), Ok(&by_rounds[script.len()..]), "{script:02X?}");
    }
}

/// Covering, and no longer so without any one of the items.
#[test]
fn the_proposal_is_the_smallest() {
    let mut random = Random::new(12);
    let (mut covered, mut taken) = (0, 0);
    for _ in 0..400 {
        let script = whole(&mut random, Much::Nothing).concat();
        let proposal = commands(&inferred(&script).unwrap());
        assert!(!proposal.windows(2).any(|two| two[0][0] == 0x40 && [0x40, 0x4F].contains(&two[1][0])));
        if script.len() + proposal.concat().len() > LONGEST {
            continue;
        }
        covered += 1;
        let number = check(&[&script[..], &proposal.concat()].concat())[0];
        assert!(number == 0 || number > 10, "{script:02X?}");
        for (index, item) in proposal.iter().enumerate().filter(|(_, item)| !matches!(item[0], 0x40 | 0x4F)) {
            let smaller = [&script[..], &proposal[..index].concat(), &proposal[index + 1..].concat()].concat();
            assert!(matches!(check(&smaller)[0], 9 | 10), "{item:02X?} is too much: {script:02X?}");
            taken += 1;
        }
    }
    println!("{covered} proposals cover, and no longer without any of {taken} items");
    assert!(covered > 350);
}

/// Whatever proposal an accepted job has, the smallest will do.
#[test]
fn accepted_whenever_another_proposal_is() {
    let mut random = Random::new(13);
    let mut accepted = 0;
    for _ in 0..1500 {
        let job = random_jobs::job(&mut random, Much::Nothing);
        if check(&job) != [0; 4] {
            continue;
        }
        let script = commands(&job).into_iter().take_while(|command| !matches!(command[0], 0x40 | 0x4F)).flatten();
        let script: Vec<u8> = script.collect();
        let proposal = inferred(&script).unwrap();
        assert!(script.len() + proposal.len() <= job.len());
        assert_eq!(check(&[script, proposal].concat()), [0; 4], "{job:02X?}");
        accepted += 1;
    }
    assert!(accepted > 300);
}
