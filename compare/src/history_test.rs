//! The sheets of the test program `history_test`, and what it has to write: the reference implementation's reports with their histories, or
//! refusals, and the words. Every history is replayed, and where a family has few of them it is the first of all
//! cheapest ones.

use std::io;
use std::path::Path;

use crate::calls::Call;
use crate::families::{self, Growth};
use crate::outcome::Outcome;
use crate::random::Random;
use crate::test_program::{self, Case};
use crate::{damage, extremes, worked, worked_history};

/// How many sheets of each kind are made at random.
const SMALL: usize = 20;
const LARGER: usize = 4;
const DAMAGED: usize = 2;

/// Renews the files of `history_test`.
pub fn write(seed: u64, folder: &Path) -> io::Result<()> {
    let by_hand = worked_history::cases().into_iter().map(|told| {
        let output = told.outcome().lines();
        Case::new(told.name.to_string(), &told.call, output)
    });
    let others = refused().into_iter().chain(random_calls(seed)).map(|(name, call)| {
        let output = Outcome::of(&call).lines();
        Case::new(name, &call, output)
    });
    test_program::renew(folder, by_hand.chain(others))
}

/// The sheets worked out for the plain call that it refuses.
fn refused() -> Vec<(String, Call)> {
    let refused = |case: &worked::Worked| case.name.starts_with("refused-");
    let with_history = |case: worked::Worked| match case.call {
        Call::Plain(sheet) => Some((case.name, Call::History(sheet))),
        Call::History(_) | Call::Newick { .. } => None,
    };
    worked::sheets().into_iter().filter(refused).filter_map(with_history).collect()
}

fn random_calls(seed: u64) -> Vec<(String, Call)> {
    let random = &mut Random::new(seed);
    let mut calls = vec![("nothing".to_string(), Call::history([]))];
    for i in 1..=SMALL {
        calls.push((format!("small-{i:02}"), families::any(random, 7, 4).history()));
        calls.push((format!("many-ties-{i:02}"), families::tying(random, 7, 4).history()));
    }
    for i in 1..=LARGER {
        calls.push((format!("larger-{i}"), families::any(random, 30, 30).history()));
        calls.push((format!("larger-many-ties-{i}"), families::tying(random, 30, 30).history()));
    }
    calls.push(("largest".to_string(), families::largest(random, 31, Growth::Anywhere).history()));
    calls.push(("longest".to_string(), extremes::longest_history().history()));
    for number in 3..=13 {
        for i in 1..=DAMAGED {
            calls.push((format!("damaged-{number:02}-{i}"), Call::history(damage::aimed(random, number))));
        }
    }
    calls
}
