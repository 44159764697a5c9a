//! make-pages SEED COUNT OUT.bin OUT.verdicts [blank|absent|kinds]
//!
//! Each page that reads is judged without its blank text besides, and each of its elements by itself.

use independent::blank::assert_only_moves;
use independent::exhaustive::assert_page;
use independent::judge;
use independent::making::{Making, Much};
use independent::random_pages::{record, too_long};
use independent::records::line;

const USAGE: &str = "make-pages SEED COUNT OUT.bin OUT.verdicts [blank|absent|kinds]";

fn main() -> std::io::Result<()> {
    let mut making = Making::from_arguments(USAGE, &[Much::Blank, Much::Absent, Much::Kinds]);
    for index in 0..making.count {
        // One vocabulary and one page that are too long; more of them would fill the file.
        let record = match index {
            100 | 200 => too_long(&mut making.random, making.much, index == 200),
            _ => record(&mut making.random, making.much),
        };
        let verdict = record.verdict();
        assert_only_moves(&record.page, verdict, |page| judge(&record.vocabulary, page));
        assert_page(&record.vocabulary, &record.page, verdict);
        making.add(&[&record.vocabulary, &record.page], &line(verdict));
    }
    making.write()
}
