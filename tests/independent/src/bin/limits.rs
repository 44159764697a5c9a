//! limits OUT.bin OUT.verdicts

use independent::blank::assert_only_moves;
use independent::exhaustive::assert_page;
use independent::records::{line, push};
use independent::{judge, page_limits};

fn main() -> std::io::Result<()> {
    let arguments: Vec<String> = std::env::args().skip(1).collect();
    let [records_path, verdicts_path] = &arguments[..] else {
        panic!("limits OUT.bin OUT.verdicts");
    };
    let mut records = Vec::new();
    let mut verdicts = String::new();
    for record in page_limits::all() {
        push(&mut records, &record.vocabulary);
        push(&mut records, &record.page);
        let verdict = record.verdict();
        assert_only_moves(&record.page, verdict, |page| judge(&record.vocabulary, page));
        assert_page(&record.vocabulary, &record.page, verdict);
        verdicts.push_str(&line(verdict));
    }
    std::fs::write(records_path, records)?;
    std::fs::write(verdicts_path, verdicts)
}
