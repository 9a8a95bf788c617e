//! The made filings: every answer of the check is met.

use std::collections::BTreeMap;

use reference::check::check;
use reference::made_filings::filings;

#[test]
fn every_answer_is_met() {
    let mut met: BTreeMap<u16, usize> = BTreeMap::new();
    for filing in filings() {
        let said = check(filing.kind, &filing.sheet, filing.k as u64, &filing.cover);
        *met.entry(said.err().unwrap_or(0)).or_default() += 1;
    }
    for answer in [0, 11, 12, 13, 14, 15, 16, 21, 31, 32, 33, 34, 35] {
        assert!(met.get(&answer).is_some_and(|&count| count > 1), "{answer} of {met:?}");
    }
}
