//! Checks the job on standard input and prints its verdict; then judges one page under one vocabulary and prints that; then works out the
//! proposal of a script behind it, prints the verdict and the bytes written, and checks the job that the two make.
use std::io::Read;

#[link(name = "exports", kind = "static")]
extern "C" {
    fn page_check_job(job: *const u8, job_length: usize, verdict: &mut [u64; 4]);
    fn page_check_judge(
        vocabulary: *const u8,
        vocabulary_length: usize,
        page: *const u8,
        page_length: usize,
        verdict: &mut [u64; 4],
    );
    fn page_check_infer(
        job: *const u8,
        job_length: usize,
        work: *mut u64,
        work_length: usize,
        buffer: *mut u8,
        buffer_length: usize,
        place: usize,
        answer: &mut [u64; 5],
    );
}

/// The numbers that the work area has at least.
const WORK: usize = 131072;

fn check(job: &[u8]) -> [u64; 4] {
    let mut verdict = [0; 4];
    unsafe { page_check_job(job.as_ptr(), job.len(), &mut verdict) };
    verdict
}

fn judge(vocabulary: &[u8], page: &[u8]) -> [u64; 4] {
    let mut verdict = [0; 4];
    unsafe { page_check_judge(vocabulary.as_ptr(), vocabulary.len(), page.as_ptr(), page.len(), &mut verdict) };
    verdict
}

fn infer(job: &[u8], work: &mut [u64], buffer: &mut [u8], place: usize) -> [u64; 5] {
    let mut answer = [0; 5];
    unsafe {
        page_check_infer(
            job.as_ptr(),
            job.len(),
            work.as_mut_ptr(),
            work.len(),
            buffer.as_mut_ptr(),
            buffer.len(),
            place,
            &mut answer,
        )
    };
    answer
}

fn print(numbers: &[u64]) {
    let numbers: Vec<String> = numbers.iter().map(u64::to_string).collect();
    println!("{}", numbers.join(" "));
}

fn main() {
    let vocabulary = [0x01, 1, 0x02, 0, 0x03, 2, 0x04, 0x16, 2, 2, 0x04, 0x15, 2, 0x01, 2, 0x03, 0, 0x05, 1];
    let page = [0x23, 1, 0x23, 2, 0x21, 0x26, 0x26, 0x27];
    let mut job = Vec::new();

    // One byte more than a job may have: a job that fills it is too long, whatever follows.
    if let Err(error) = std::io::stdin().take(65536).read_to_end(&mut job) {
        eprintln!("standard input: {error}");
        std::process::exit(1);
    }
    print(&check(&job));
    print(&judge(&vocabulary, &page));

    let script = [
        0x01, 1, 0x02, 0, 0x03, 2, 0x04, 0x16, 2, 2, 0x04, 0x15, 2, 0x01, 2, 0x03, 0, 0x05, 1, //
        0x20, 0x23, 1, 0x22, 0, 0x26, 0x27, 0x20, 0x23, 2, 0x21, 0x26, 0x27, 0x2F, //
        0x31, 0, 1, 1, 1, 0x31, 1, 2, 2, 2, 0x35, 0, 0, 0, 1, 3, 3, 0x37, 0, 4, 4, 0x38, 0x3F,
    ];
    let mut whole = [0; 65535];
    whole[..script.len()].copy_from_slice(&script);
    let answer = infer(&script, &mut vec![0; WORK], &mut whole, script.len());
    print(&answer);
    if answer[0] == 0 {
        print(&check(&whole[..script.len() + answer[4] as usize]));
    }
}
