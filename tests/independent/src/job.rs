//! A job as read: its four parts.

use crate::landed::Landed;
use crate::program::Program;
use crate::proposal::Entries;
use crate::reader::*;
use crate::templates::Templates;
use crate::vocabulary::Vocabulary;

pub struct Job {
    pub landed: Landed,
    pub vocabulary: Vocabulary,
    pub templates: Templates,
    pub program: Program,
    pub entries: Entries,
    /// Bytes of the vocabulary.
    pub vocabulary_end: usize,
    /// Bytes up to the proposal.
    pub program_end: usize,
}

impl Job {
    pub fn read(bytes: &[u8]) -> Result<Job, Fault> {
        Job::read_as(bytes, Landed::NOW)
    }

    pub fn read_as(bytes: &[u8], landed: Landed) -> Result<Job, Fault> {
        let mut reader = Reader::new(bytes)?;
        let vocabulary = Vocabulary::read(&mut reader, landed)?;
        let vocabulary_end = reader.at;
        let templates = Templates::read(&mut reader, &vocabulary)?;
        let program = Program::read(&mut reader, &templates)?;
        let program_end = reader.at;
        let entries = Entries::read(&mut reader, &templates, &program)?;
        reader.end()?;
        Ok(Job { landed, vocabulary, templates, program, entries, vocabulary_end, program_end })
    }
}

/// The verdict on reading alone.
pub fn read_job(job: &[u8]) -> Verdict {
    read_job_as(job, Landed::NOW)
}

pub fn read_job_as(job: &[u8], landed: Landed) -> Verdict {
    match Job::read_as(job, landed) {
        Ok(_) => ACCEPTED,
        Err(fault) => fault.verdict(0),
    }
}
