//! The page check of document 01: reading a job, checking it, judging one page. And of document 02: working out the
//! proposal (F-1), blank text (F-2), shows inside a frame (F-3), attributes that disappear (F-5), what is wrong
//! with an element (F-6).

pub mod check;
pub mod cover;
pub mod flow;
pub mod graph;
pub mod held;
pub mod infer;
pub mod job;
pub mod judge;
pub mod landed;
pub mod patterns;
pub mod plugged;
pub mod program;
pub mod proposal;
pub mod reader;
pub mod records;
pub mod summary;
pub mod templates;
pub mod vocabulary;
pub mod writer;
pub mod wrong;

pub mod absent_facts;
pub mod absent_jobs;
pub mod apart;
pub mod blank;
pub mod blank_jobs;
pub mod damage;
pub mod exhaustive;
pub mod frame_jobs;
pub mod job_limits;
pub mod kind_jobs;
pub mod kind_pages;
pub mod kind_rules;
pub mod language;
pub mod large_scripts;
pub mod least;
pub mod making;
pub mod page_limits;
pub mod random;
pub mod random_jobs;
pub mod random_pages;
pub mod random_scripts;
pub mod random_vocabulary;
pub mod run;
pub mod trials;

pub use check::check;
pub use infer::{infer, Inferred};
pub use job::read_job;
pub use judge::judge;
