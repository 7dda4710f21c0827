//! One comparison: the library's calls for one query against the reference, and the sheet's bytes
//! before and after.

use crate::{library, reference, Point, Single};
use std::collections::BTreeMap;

/// How often each number occurred.
#[derive(Default)]
pub struct Tally(BTreeMap<u32, u64>);

impl Tally {
    pub fn compare(&mut self, sheet: &[u8], query: Point) -> Single {
        let lent = sheet.to_vec();
        let found = library::single(&lent, query);
        assert!(lent == sheet, "the sheet's bytes changed{}", case(sheet, query));
        expect(sheet, query, found);
        self.count(found.answer.number);
        found
    }

    pub fn count(&mut self, number: u32) {
        *self.0.entry(number).or_default() += 1;
    }

    /// Prints what was compared, and fails if it was too little or a number did not occur.
    pub fn report(&self, what: &str, at_least: u64, numbers: impl IntoIterator<Item = u32>) {
        let compared: u64 = self.0.values().sum();
        let each: Vec<String> = self.0.iter().map(|(n, times)| format!("{n}:{times}")).collect();
        println!("{what}: {compared} compared ({})", each.join(" "));
        assert!(compared >= at_least, "{what}: only {compared} compared");
        for number in numbers {
            assert!(self.0.contains_key(&number), "{what}: {number} did not occur");
        }
    }
}

/// Fails, with the sheet, the query and both answers, if the reference says something else.
pub fn expect(sheet: &[u8], query: Point, found: Single) {
    let expected = reference::single(sheet, query);
    let case = || case(sheet, query);
    assert!(found == expected, "{}\n    library   {found:?}\n    reference {expected:?}", case());
}

fn case(sheet: &[u8], query: Point) -> String {
    let hex: String = sheet.iter().map(|byte| format!("{byte:02x}")).collect();
    format!("\n    sheet {hex}\n    query {query:?}")
}
