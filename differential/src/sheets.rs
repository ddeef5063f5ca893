//! The check of a sheet's layout by itself: without definitions, 7 says that none of 1, 2 and 3 is the answer.
use crate::commands::report;
use crate::compare::check;
use crate::gen::sheets::{sheet, CHANGES};
use crate::gen::Case;
use crate::model::{Limits, GENEROUS};
use crate::rng::Rng;
use crate::stats::{codes, Stats};
use crate::subject::Subject;
use std::ops::Range;

/// Sheets by number; whether all agree. Nothing is lent, since the check asks for nothing.
pub fn compare(seed: u64, numbers: Range<u64>, subject: &mut Option<Box<dyn Subject>>) -> bool {
    let mut stats = Stats::new();
    let mut answers = [[0; 19]; CHANGES.len()];
    for n in numbers {
        let (change, sheet) = sheet(&mut Rng::of(seed ^ 0x5EED_54EE, n));
        let case = Case { alone: false, sheet, schema: Vec::new(), limits: Limits { work: 0, out: 0, records: 0 } };
        let generous = case.within(&GENEROUS);
        answers[change][generous.code() as usize] += 1;
        if let Err(e) = check(&case, &generous, subject, &mut stats) {
            println!("DIFFERENCE in sheet {n} of seed {seed}: {e}");
            report(&case, subject);
            return false;
        }
    }
    for (what, by_code) in CHANGES.iter().zip(&answers) {
        println!("{what:<25} {}", codes(by_code));
    }
    println!("library                   {} compared, and {} with the root alone", stats.tested[0], stats.tested[1]);
    true
}
