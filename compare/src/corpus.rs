//! The sheets that the test program `score_test` is run on, and what it has to write: the reference implementation's reports, words and
//! refusals. A sheet that is small enough is first scored by the enumeration as well, and a sheet worked out by hand is held to that.

use std::io;
use std::path::Path;

use crate::calls::Call;
use crate::families::{self, Growth};
use crate::outcome::Outcome;
use crate::random::Random;
use crate::test_program::{self, Case};
use crate::{damage, worked};

/// How many sheets of each kind; the largest ones are few, for the files stand in the repository.
const SMALL: usize = 40;
const DAMAGED: usize = 6;

/// Sheets from the generators, with their names.
fn random_sheets(seed: u64) -> Vec<(String, Vec<u8>)> {
    let random = &mut Random::new(seed);
    let mut sheets = vec![("nothing".to_string(), Vec::new()), ("one-byte".to_string(), vec![b'x'])];
    for i in 1..=SMALL {
        sheets.push((format!("small-{i:02}"), families::any(random, 9, 8).text()));
    }
    for transfers in [6, 8] {
        sheets.push((format!("dense-{transfers}"), families::dense(random, transfers, 6).text()));
    }
    for (name, growth) in [("deep", Growth::Deep), ("wide", Growth::Wide), ("anywhere", Growth::Anywhere)] {
        sheets.push((format!("largest-{name}"), families::largest(random, 31, growth).text()));
    }
    for number in 3..=13 {
        for i in 1..=DAMAGED {
            sheets.push((format!("damaged-{number:02}-{i}"), damage::aimed(random, number)));
        }
    }
    sheets
}

/// Renews the files of the test program: the sheets in its data/, their names in its arguments, and what it has to write.
pub fn write(seed: u64, folder: &Path) -> io::Result<()> {
    let by_hand = worked::sheets().into_iter().map(|worked| {
        let output = worked.outcome().lines();
        Case::new(worked.name, &worked.call, output)
    });
    let at_random = random_sheets(seed).into_iter().map(|(name, sheet)| {
        let call = Call::plain(sheet);
        let output = Outcome::of(&call).lines();
        Case::new(name, &call, output)
    });
    test_program::renew(folder, by_hand.chain(at_random))
}
