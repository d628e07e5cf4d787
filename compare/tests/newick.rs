//! The call that takes the gene tree as text: known sheets, the numbering of genes, the order of the refusals, and the limits of the text.

use compare::calls::Call;
use compare::comparing::{Comparison, Enumerate, Lengths};
use compare::families::{self, Family, Gene};
use compare::outcome::Outcome;
use compare::random::Random;
use compare::reference::{RESULT_BYTES, Refusal, SCRATCH_WORDS, newick};
use compare::worked::{self, K_GENES, K_NETWORK};
use compare::{damage, limits, trees, worked_newick};

const K_TREE: &str = "(1,(2,3));";

/// The proved entry and the reference agree on the calls, in all that they leave.
fn agreed<'a>(calls: impl IntoIterator<Item = &'a Call>, lengths: Lengths) {
    let mut comparison = Comparison::new(&mut Random::new(1));
    calls.into_iter().for_each(|call| comparison.compare(call, lengths, Enumerate::No));
    assert_eq!(comparison.tally.mismatches, 0);
}

/// The report, or the refusal's number, on which both implementations agree.
fn outcome(call: &Call) -> String {
    agreed([call], Lengths::LEAST);
    Outcome::of(call).text
}

fn refused(call: &Call, number: u32) {
    assert_eq!(outcome(call), format!("{number:6}\n"), "{call}");
}

/// K with other costs, without gene lines.
fn k(costs: [u32; 3]) -> Vec<u8> {
    let mut sheet = worked::text(costs, &K_NETWORK, &[[1, 0, 1, 0, 0]]);
    sheet.truncate(31 * 8);
    sheet
}

/// Cases 1 to 9 are among the sheets worked out by hand, and come to the same as text.
#[test]
fn worked_out_by_hand() {
    for case in worked_newick::cases().iter().chain(&limits::cases()) {
        case.outcome();
        agreed([&case.call], Lengths::LEAST);
    }
    let known = ["k", "k-transfer-4", "k-transfer-5", "pair-first", "pair-first-transfer-2", "one-gene"];
    let others = ["one-node-one-gene", "one-node-three-genes", "refused-7-secondary-earlier"];
    let as_text = worked_newick::as_text();
    for name in known.iter().chain(&others) {
        let plain = worked::sheets().into_iter().find(|case| case.name == *name).expect("a known sheet");
        let newick = as_text.iter().find(|case| case.name == *name).expect("a known sheet as text");
        assert_eq!(newick.call.as_plain().as_ref(), Some(&plain.call), "{name}");
        assert_eq!(outcome(&newick.call), outcome(&plain.call), "{name}");
    }
}

#[test]
fn case_10_a_species_that_is_not_in_the_network() {
    let mut genes = K_GENES;
    genes[3][2] = 4;
    let newick = Call::newick(k([2, 3, 1]), "(1,(4,3));");
    let plain = Call::plain(worked::text([2, 3, 1], &K_NETWORK, &genes));
    assert_eq!(newick.as_plain().as_ref(), Some(&plain));
    refused(&plain, 13);
    refused(&newick, 13);
}

#[test]
fn case_11_costs_at_their_limit() {
    let plain = |costs| outcome(&Call::plain(worked::text(costs, &K_NETWORK, &K_GENES)));
    assert_eq!(outcome(&Call::newick(k([99, 3, 1]), K_TREE)), plain([2, 3, 1]));
    refused(&Call::newick(k([100, 3, 1]), K_TREE), 4);
}

/// Case 12, and 1 and 2 before all others.
#[test]
fn case_12_buffers_at_their_limits() {
    let sound = Call::newick(k([2, 3, 1]), K_TREE);
    let others = [
        Call::newick([], K_TREE),
        Call::newick(k([2, 3, 1]), "1"),
        Call::newick(k([2, 3, 1]), "1".repeat(575)),
        Call::newick(k([2, 3, 1]), "4;"),
    ];
    let answer = |call: &Call, result: usize, scratch: usize| {
        agreed([call], Lengths { result, scratch });
        call.reference(&mut vec![7; result], &mut vec![7; scratch]).number()
    };
    assert_eq!(answer(&sound, RESULT_BYTES, SCRATCH_WORDS), 248);
    for call in others.iter().chain([&sound]) {
        assert_eq!(answer(call, RESULT_BYTES - 1, SCRATCH_WORDS), 2);
        assert_eq!(answer(call, RESULT_BYTES, SCRATCH_WORDS - 1), 1);
        assert_eq!(answer(call, RESULT_BYTES - 1, SCRATCH_WORDS - 1), 1);
        assert_eq!(answer(call, 0, 0), 1);
    }
    let numbers = others.map(|call| answer(&call, RESULT_BYTES, SCRATCH_WORDS));
    assert_eq!(numbers, [3, 14, 15, 13]);
}

/// A sheet's refusal stands before those of the text, and 13 behind them.
#[test]
fn the_order_of_the_refusals() {
    for case in worked_newick::in_order_of_checking() {
        case.outcome();
        agreed([&case.call], Lengths::LEAST);
    }
    refused(&Call::newick(k([2, 3, 1]), "(1,(2,4))"), 14);
    refused(&Call::newick(k([2, 3, 1]), trees::left_comb(&[4; 65])), 15);
    refused(&Call::newick(k([2, 3, 1]), trees::left_comb(&[4; 64])), 13);
}

#[test]
fn genes_are_numbered_as_they_are_met() {
    let genes = |text: &str| newick::read(text.as_bytes()).map(|genes| genes.iter().map(numbers).collect());
    fn numbers(gene: &Gene) -> (u32, u32) {
        (gene.parent, gene.species)
    }
    assert_eq!(genes("7;"), Ok(vec![(0, 7)]));
    assert_eq!(genes("999999;"), Ok(vec![(0, 999_999)]));
    assert_eq!(genes(K_TREE), Ok(vec![(0, 0), (1, 1), (1, 0), (3, 2), (3, 3)]));
    let left = vec![(0, 0), (1, 0), (2, 0), (3, 30), (3, 20), (2, 10), (1, 5)];
    assert_eq!(genes("(((30,20),10),5);"), Ok(left));
    let both = vec![(0, 0), (1, 0), (2, 4), (2, 3), (1, 0), (5, 2), (5, 1)];
    assert_eq!(genes("((4,3),(2,1));"), Ok(both));
    assert_eq!(genes("(1,(2,3))"), Err(Refusal::TreeForm));
}

/// What is written for a family is read as its genes, in the order of the text.
#[test]
fn texts_are_read_back() {
    let mut random = Random::new(7);
    for _ in 0..2_000 {
        let family = families::any(&mut random, 40, 64);
        let genes = trees::in_order_of_text(&family.genes);
        let read = Family::from(&family.newick().read().expect("a sound text"));
        assert_eq!(read.text(), Family { genes, ..family }.text());
    }
}

#[test]
fn every_single_fault() {
    for (sheet, tree) in [(k([2, 3, 1]), "((3,2),(1,2));"), (k([2, 3, 1]), "2;")] {
        let damaged = trees::single_faults(tree.as_bytes()).chain(trees::cut_off_or_longer(tree.as_bytes()));
        let calls: Vec<Call> = damaged.map(|tree| Call::newick(sheet.as_slice(), tree)).collect();
        assert_eq!(calls.len(), tree.len() * 12 + tree.len() + 10);
        agreed(&calls, Lengths::LEAST);
    }
}

#[test]
fn aimed_damage_hits() {
    let mut random = Random::new(7);
    let (mut result, mut scratch) = (vec![0; RESULT_BYTES], vec![0; SCRATCH_WORDS]);
    for number in (3..=15).filter(|&number| number != 12) {
        let mut answer =
            || damage::aimed_newick(&mut random, number).reference(&mut result, &mut scratch).number();
        let hits = (0..300).filter(|_| answer() == number).count();
        assert!(hits >= 30, "refusal {number}: {hits} of 300");
    }
}
