//! Jobs on both sides of each limit.

use crate::least::with_least;
use crate::page_limits::*;
use crate::reader::LONGEST;

const TEMPLATES: [u8; 7] = [0x20, 0x23, 1, 0x21, 0x26, 0x27, 0x2F];
/// Shows template 1.
const PROGRAM: [u8; 11] = [0x31, 0, 1, 1, 1, 0x37, 0, 2, 2, 0x38, 0x3F];

/// Shows template 1 with template 2 in its gaps 0.
const PLUGGING: [u8; 23] = [0x31, 0, 1, 1, 1, 0x31, 1, 2, 2, 2, 0x35, 0, 0, 0, 1, 3, 3, 0x37, 0, 4, 4, 0x38, 0x3F];

pub fn all() -> Vec<Vec<u8>> {
    let mut jobs = lengths();
    for clause in nested_formulas().into_iter().chain(many_facts()) {
        jobs.push(job(&with_clause(&clause), &TEMPLATES, &PROGRAM));
    }
    jobs.extend(nested_templates());
    jobs.extend(many_templates());
    jobs.extend(many_points());
    jobs.extend(blank_templates());
    jobs.extend(framed_operands());
    jobs.extend(framed_points());
    jobs.extend(framed_gaps());
    jobs.extend(absent_attributes());
    jobs
}

/// With the least proposal, or an empty one where the rest doesn't read.
fn job(vocabulary: &[u8], templates: &[u8], program: &[u8]) -> Vec<u8> {
    let start = [vocabulary, templates, program].concat();
    with_least(&start, &[]).unwrap_or_else(|| [&start[..], &[0x4F]].concat())
}

fn shortest() -> Vec<u8> {
    with_clause(&[0x13])
}

fn long_in_vocabulary(length: usize, last: &[u8]) -> Vec<u8> {
    let other = job(&shortest(), &TEMPLATES, &PROGRAM).len() - shortest().len();
    let vocabulary = long_vocabulary(length - other, last);
    // Too long a job is not read, and so has no least proposal; the short one has the same.
    let start = [&vocabulary[..], &TEMPLATES, &PROGRAM].concat();
    let short = job(&shortest(), &TEMPLATES, &PROGRAM);
    let proposal = &short[shortest().len() + TEMPLATES.len() + PROGRAM.len()..];
    [&start, proposal].concat()
}

fn long_in_template(length: usize, inner: &[u8]) -> Vec<u8> {
    long_in_templates(length, 3, 0x21, inner)
}

/// Filled up with an item and then `inner`, at a place in the templates.
fn long_in_templates(length: usize, place: usize, item: u8, inner: &[u8]) -> Vec<u8> {
    let short = job(&shortest(), &TEMPLATES, &PROGRAM);
    let items = vec![item; length - short.len() - inner.len()];
    let (start, end) = short.split_at(shortest().len() + place);
    [start, &items, inner, end].concat()
}

/// Every point follows itself, so that any proposal covers which starts well. It is filled up to a length.
fn long_in_proposal(length: usize) -> Vec<u8> {
    let templates = [[0x20, 0x27].repeat(31), vec![0x2F]].concat();
    let program: Vec<u8> = (0..32).flat_map(|point| [0x30, 0, 0, point, point]).chain([0x3F]).collect();
    let mut bytes = [&shortest()[..], &templates, &program].concat();
    let room = |bytes: &Vec<u8>| length - 1 - bytes.len();
    for point in 0..32 {
        bytes.extend([0x40, point, 0, 0x41, 0]);
        for edge in 0..32 * 8 * 8u16 {
            if room(&bytes) < 10 {
                break;
            }
            bytes.extend([0x42, (edge / 64) as u8, (edge / 8 % 8) as u8, (edge % 8) as u8]);
        }
        if room(&bytes) < 10 {
            break;
        }
    }
    // Items of four bytes and of three fill what is left.
    for string in 0.. {
        if room(&bytes) % 3 == 0 {
            break;
        }
        bytes.extend([0x43, 0, 0, string]);
    }
    for gap in 0..(room(&bytes) / 3) as u8 {
        bytes.extend([0x44, 0, gap]);
    }
    bytes.push(0x4F);
    bytes
}

fn lengths() -> Vec<Vec<u8>> {
    let mut jobs = Vec::new();
    for length in [LONGEST, LONGEST + 1] {
        jobs.push(long_in_vocabulary(length, &[0x13]));
        jobs.push(long_in_vocabulary(length, &[0x14, 0]));
        jobs.push(long_in_template(length, &[]));
        jobs.push(long_in_template(length, &[0x23, 1, 0x26]));
        jobs.push(vec![0x01; length]);
        jobs.push(long_in_proposal(length));
    }
    let one_more = long_in_template(LONGEST + 1, &[]);
    jobs.push(one_more[..LONGEST].to_vec());
    jobs.push([&long_in_template(LONGEST - 1, &[])[..], &[0x4F]].concat());
    jobs
}

fn nested_templates() -> Vec<Vec<u8>> {
    let nested = |depth: usize, inner: &[u8]| [&[0x23, 1, 0x21].repeat(depth), inner, &vec![0x26; depth]].concat();
    let mut jobs = Vec::new();
    for depth in [16, 17] {
        let lists = [
            nested(depth, &[]),
            nested(depth - 1, &[0x23, 1, 0x26]),
            nested(depth - 1, &[0x23, 2, 0x26, 0x23, 2, 0x26]),
            // An element without a rule comes before nesting, as does one out of range.
            nested(depth - 1, &[0x23, 3, 0x26]),
            nested(depth - 1, &[0x23, 0, 0x26]),
            [&[0x23, 1, 0x21], &nested(15, &[])[..], &nested(depth - 1, &[]), &[0x26]].concat(),
            [nested(16, &[]), nested(depth, &[])].concat(),
        ];
        for list in lists {
            let templates = [&[0x20], &list[..], &[0x27, 0x2F]].concat();
            jobs.push(job(&shortest(), &templates, &PROGRAM));
        }
    }
    jobs
}

fn many_templates() -> Vec<Vec<u8>> {
    let page = &TEMPLATES[..6];
    let mut jobs = Vec::new();
    for count in [31, 32] {
        let templates = [&[0x20, 0x27].repeat(count - 1), page, &[0x2F]].concat();
        for loaded in [1, 30, 31, 32] {
            let mut program = PROGRAM;
            program[2] = loaded;
            jobs.push(job(&shortest(), &templates, &program));
        }
        jobs.push(chain(count));
    }
    jobs
}

/// The page's gap takes template 2, whose gap takes template 3, and so on up to a text; at most one text may stand there.
fn chain(count: usize) -> Vec<u8> {
    let vocabulary = [0x01, 1, 0x03, 0, 0x04, 0x16, 0, 0, 0x05, 1];
    let mut templates = vec![0x20, 0x23, 1, 0x22, 0, 0x26, 0x27];
    templates.extend([0x20, 0x22, 0, 0x27].repeat(count - 2));
    templates.extend([0x20, 0x21, 0x27, 0x2F]);
    let mut held = vec![0x40, 3, 0];
    held.extend((2..count as u8).flat_map(|template| [0x42, template, 0, template + 1]));
    let start = [&vocabulary[..], &templates, &PLUGGING].concat();
    with_least(&start, &held).unwrap_or_else(|| [&start[..], &held, &[0x4F]].concat())
}

fn many_points() -> Vec<Vec<u8>> {
    let mut jobs = Vec::new();
    for count in [32, 33] {
        // Load and show at the end, stops before.
        let first = [0x31, 0, 1, count as u8 - 2, count as u8 - 2];
        let stops = vec![0x38; count - 3];
        let last = count as u8 - 1;
        for end in [&[0x37, 0, last, last, 0x38][..], &[0x37, 0, last, 0, 0x37, 0, last, last]] {
            jobs.push(job(&shortest(), &TEMPLATES, &[&first[..], &stops, end, &[0x3F]].concat()));
        }
        for fault in
            [[0x31, 0, 9, 0, 0], [0x31, 4, 1, 0, 0], [0x31, 0, 1, 32, 0], [0x31, 0, 1, 0, 31], [0x3A, 0, 0, 0, 0]]
        {
            let program = [&vec![0x38; count - 1][..], &fault, &[0x3F]].concat();
            jobs.push(job(&shortest(), &TEMPLATES, &program));
        }
    }
    for head in [[0x40, 31, 0], [0x40, 31, 7], [0x40, 32, 0], [0x40, 31, 8], [0x40, 32, 8]] {
        let program = [vec![0x38; 32], vec![0x3F]].concat();
        jobs.push([&shortest()[..], &TEMPLATES, &program, &head, &[0x4F]].concat());
    }
    jobs
}

/// Nearly all blank text: before, in and after the root, and outside the template.
fn blank_templates() -> Vec<Vec<u8>> {
    let mut jobs = Vec::new();
    for place in 0..=TEMPLATES.len() {
        jobs.push(long_in_templates(LONGEST, place, 0x29, &[]));
    }
    for place in [1, 3, 5] {
        for inner in [&[0x21][..], &[0x23, 1, 0x26], &[0x23, 1, 0x21, 0x29, 0x26], &[0x24, 0, 0]] {
            jobs.push(long_in_templates(LONGEST, place, 0x29, inner));
        }
        jobs.push(long_in_templates(LONGEST + 1, place, 0x29, &[]));
    }
    for fragment in [&[0x29][..], &[0x29; 9_000], &[0x29, 0x21, 0x29], &[0x29, 0x22, 0], &[]] {
        for beside in [&[][..], &[0x29, 0x22, 0]] {
            jobs.push(gaps_among_blank(15_000, beside, fragment));
        }
    }
    jobs
}

/// The root may have no content. It holds many gaps, blank text after each; a gap may stand beside it. All of them take
/// the fragment.
fn gaps_among_blank(count: usize, beside: &[u8], fragment: &[u8]) -> Vec<u8> {
    let vocabulary = [0x01, 1, 0x03, 0, 0x04, 0x12, 0x15, 0, 0x05, 1];
    let gaps = [0x22, 0, 0x29].repeat(count);
    let templates = [&[0x20], beside, &[0x23, 1], &gaps, &[0x26, 0x27, 0x20], fragment, &[0x27, 0x2F]].concat();
    job(&vocabulary, &templates, &PLUGGING)
}

/// Variable, template and gap of a framed show on both sides of their limits, and the job's end in it.
fn framed_operands() -> Vec<Vec<u8>> {
    let page = &TEMPLATES[..6];
    let mut jobs = Vec::new();
    for count in [1, 31] {
        let templates = [page, &[0x20, 0x27].repeat(count - 1), &[0x2F]].concat();
        for x in [0, 3, 4, 255] {
            for t in [0, 1, count as u8, count as u8 + 1, 255] {
                for gap in [0, 7, 8, 255] {
                    let program = [0x39, x, t, gap, 1, 1, 0x38, 0x3F];
                    jobs.push(job(&shortest(), &templates, &program));
                    // Faults in operands that are there don't count where others are not.
                    if gap == 8 {
                        let whole = [&shortest()[..], &templates, &program].concat();
                        jobs.extend((2..8).map(|fewer| whole[..whole.len() - fewer].to_vec()));
                    }
                }
            }
        }
    }
    jobs
}

/// Framed shows as the last point that there may be, and as one too many; next points there and not.
fn framed_points() -> Vec<Vec<u8>> {
    let mut jobs = Vec::new();
    for count in [1, 2, 31, 32, 33] {
        let stops = vec![0x38; count - 1];
        for next in [0, count as u8 - 1, count as u8, 255] {
            for [p, q] in [[next, 0], [0, next], [next, next]] {
                for [x, t, gap] in [[0, 1, 0], [3, 0, 7], [4, 1, 0], [0, 2, 0], [0, 1, 8], [4, 2, 8]] {
                    let program = [&stops[..], &[0x39, x, t, gap, p, q, 0x3F]].concat();
                    jobs.push(job(&shortest(), &TEMPLATES, &program));
                }
            }
        }
        // Every point a framed show.
        let shows: Vec<u8> = (0..count as u8).flat_map(|point| [0x39, point % 4, 1, point % 8, 0, point]).collect();
        jobs.push(job(&shortest(), &TEMPLATES, &[&shows[..], &[0x3F]].concat()));
    }
    jobs
}

/// Clauses that ask for attributes. The root lacks them or has one, whose gap is open, plugged, or either.
fn absent_attributes() -> Vec<Vec<u8>> {
    let open = [&TEMPLATES[..3], &[0x25, 0, 0], &TEMPLATES[3..]].concat();
    let plugging = |q: u8| [0x31, 0, 1, 1, q, 0x36, 0, 0, 0, 0, 2, 2, 0x37, 0, 3, 3, 0x38, 0x3F];
    let mut jobs = Vec::new();
    for clause in many_presences() {
        let vocabulary = with_clause(&clause);
        jobs.push(job(&vocabulary, &TEMPLATES, &PROGRAM));
        jobs.push(job(&vocabulary, &open, &PROGRAM));
        jobs.push(job(&vocabulary, &open, &plugging(1)));
        jobs.push(job(&vocabulary, &open, &plugging(2)));
    }
    jobs
}

/// The root may hold one text at most. Its gaps, many or one, take template 2, or the frame itself, or both.
fn framed_gaps() -> Vec<Vec<u8>> {
    let vocabulary = [0x01, 1, 0x03, 0, 0x03, 1, 0x04, 0x16, 0, 0, 0x05, 1];
    let mut jobs = Vec::new();
    for count in [1, 2, 32_000] {
        for fragment in [&[0x29][..], &[0x21], &[0x22, 0], &[0x22, 0, 0x21], &[0x23, 1, 0x22, 0, 0x26]] {
            let gaps = [0x22, 0].repeat(count);
            let templates = [&[0x20, 0x23, 1], &gaps[..], &[0x26, 0x27, 0x20], fragment, &[0x27, 0x2F]].concat();
            for [loaded, p, q] in [[2, 1, 1], [1, 1, 1], [2, 0, 1], [1, 0, 1]] {
                let program = [0x31, 0, loaded, p, q, 0x39, 0, 1, 0, 2, 1, 0x38, 0x3F];
                jobs.push(job(&vocabulary, &templates, &program));
            }
            // Both, since either may have been loaded last.
            let program = [0x31, 0, 1, 1, 2, 0x31, 0, 2, 2, 0, 0x39, 0, 1, 0, 3, 0, 0x38, 0x3F];
            jobs.push(job(&vocabulary, &templates, &program));
        }
    }
    jobs
}
