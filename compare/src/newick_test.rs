//! The sheets and trees that the test programs `newick_test` and `newick_faults` are run on, and what they have to write: the reference
//! implementation's reports, words and refusals.

use std::io;
use std::path::Path;

use crate::calls::Call;
use crate::families::{self, Growth};
use crate::outcome::Outcome;
use crate::random::Random;
use crate::reference::{RESULT_BYTES, SCRATCH_WORDS};
use crate::test_program::{self, Case};
use crate::{damage, limits, trees, worked_newick};

/// How many sheets of each kind are made at random.
const SMALL: usize = 20;
const DAMAGED: usize = 3;

/// The trees of which `newick_faults` makes every single fault, each beside the sheet of that name among the cases of `newick_test`.
const FAULTED: [(&str, &str, &str); 2] =
    [("pairs", "k", "((3,2),(1,2));"), ("six-digits", "bytes-574", "999999;")];

/// Renews the files of `newick_test`.
pub fn write(seed: u64, folder: &Path) -> io::Result<()> {
    let by_hand = worked_newick::cases().into_iter().chain(limits::cases()).map(|worked| {
        let output = worked.outcome().lines();
        Case::new(worked.name, &worked.call, output)
    });
    let at_random = random_calls(seed).into_iter().map(|(name, call)| {
        let output = Outcome::of(&call).lines();
        Case::new(name, &call, output)
    });
    test_program::renew(folder, by_hand.chain(at_random))
}

fn random_calls(seed: u64) -> Vec<(String, Call)> {
    let random = &mut Random::new(seed);
    let mut calls = vec![];
    for i in 1..=SMALL {
        calls.push((format!("small-{i:02}"), families::any(random, 9, 8).newick()));
    }
    for (name, growth) in [("deep", Growth::Deep), ("wide", Growth::Wide)] {
        calls.push((format!("largest-{name}"), families::largest(random, 31, growth).newick()));
    }
    for number in (3..=15).filter(|&number| number != 12) {
        for i in 1..=DAMAGED {
            calls.push((format!("damaged-{number:02}-{i}"), damage::aimed_newick(random, number)));
        }
    }
    calls
}

/// Renews the files of `newick_faults`: of every single fault of a tree the answer.
pub fn write_faults(folder: &Path) -> io::Result<()> {
    let cases = worked_newick::cases().into_iter().chain(limits::cases());
    let sheets: Vec<_> = cases.map(|case| (case.name, case.call)).collect();
    let faulted = FAULTED.map(|(name, of, tree)| {
        let named = sheets.iter().find(|(name, _)| name == of).map(|(_, call)| call);
        let Some(Call::Newick { sheet, .. }) = named else {
            unreachable!("a case has the name {of}");
        };
        let answers = trees::single_faults(tree.as_bytes()).map(|tree| answer(sheet, tree));
        Case::new(name.to_string(), &Call::newick(&sheet[..], tree), answers.collect())
    });
    test_program::renew(folder, faulted)
}

/// The answer of a call, in six columns and a line feed.
fn answer(sheet: &[u8], tree: Vec<u8>) -> String {
    let (mut result, mut scratch) = (vec![0; RESULT_BYTES], vec![0; SCRATCH_WORDS]);
    format!("{:6}\n", Call::newick(sheet, tree).reference(&mut result, &mut scratch).number())
}
