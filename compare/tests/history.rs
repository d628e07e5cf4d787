//! The call that writes a history behind the report: known sheets, the surprises of the order, the limits of the buffers, the longest history;
//! and that the checker of histories finds faults, and the list of all histories has them all.

use std::fs;

use compare::calls::Call;
use compare::comparing::{Comparison, Enumerate, Lengths};
use compare::families::{self, Family};
use compare::outcome::Outcome;
use compare::random::Random;
use compare::reference::{HISTORY_BYTES, RESULT_BYTES, SCRATCH_WORDS};
use compare::replay::{self, replay};
use compare::worked::{self, K_GENES, K_NETWORK};
use compare::worked_history::{self, Told};
use compare::{extremes, histories};

/// The proved entry and the reference agree on the calls, in all that they leave, and the lines are replayed.
fn agreed<'a>(calls: impl IntoIterator<Item = &'a Call>, lengths: impl Fn(&Call) -> Lengths) -> Comparison {
    let mut comparison = Comparison::new(&mut Random::new(1));
    calls.into_iter().for_each(|call| comparison.compare(call, lengths(call), Enumerate::Yes));
    assert_eq!(comparison.tally.mismatches, 0);
    comparison
}

fn told(name: &str) -> Told {
    worked_history::cases().into_iter().find(|told| told.name == name).expect("a case of that name")
}

fn family(call: &Call) -> Family {
    Family::from(&call.read().expect("a sheet that can be read"))
}

#[test]
fn worked_out_by_hand() {
    let cases = worked_history::cases();
    cases.iter().for_each(|told| drop(told.outcome()));
    let calls: Vec<Call> = cases.into_iter().map(|told| told.call).collect();
    agreed(&calls, Lengths::least);
}

/// The first eleven cases of the rules are the sheets of sheets/, and come to the reports there with the histories worked out here, which stand
/// together in sheets/history/.
#[test]
fn known_sheets() {
    let names = [
        "k",
        "02-transfer-4",
        "03-transfer-5",
        "04-pair-first",
        "05-pair-first-transfer-2",
        "06-one-gene",
        "07-one-node-one-gene",
        "08-one-node-three-genes",
        "09-node-4-stamped-1",
        "10-gene-of-species-4",
        "11-duplication-99",
        "11-duplication-100",
        "lca-not-least",
    ];
    for name in names {
        let told = told(name);
        let file = |name: &str| fs::read_to_string(format!("../sheets/{name}")).expect("a file of sheets/");
        assert_eq!(told.call, Call::history(file(&format!("{name}.sheet"))), "{name}");
        let (reply, report) = (told.outcome().reply(), file(&format!("{name}.report")));
        assert!(reply.starts_with(&report), "{name}: {reply}");
        if reply.starts_with("refused") {
            assert_eq!(reply, report, "{name}");
        } else {
            assert_eq!(reply.len() - report.len(), 31 * told.lines.len(), "{name}");
            assert_eq!(reply, file(&format!("history/{name}.report")), "{name}");
        }
    }
}

/// Case 12, for this call, and 1 and 2 before all others.
#[test]
fn case_12_buffers_at_their_limits() {
    let k = told("k").call;
    let others = [Call::history([]), told("11-duplication-100").call, told("09-node-4-stamped-1").call];
    let answer = |call: &Call, result: usize, scratch: usize| {
        agreed([call], |_| Lengths { result, scratch });
        call.reference(&mut vec![7; result], &mut vec![7; scratch]).number()
    };
    assert_eq!(answer(&k, HISTORY_BYTES, SCRATCH_WORDS), 31 * (8 + 8));
    for call in others.iter().chain([&k]) {
        assert_eq!(answer(call, HISTORY_BYTES - 1, SCRATCH_WORDS), 2);
        assert_eq!(answer(call, RESULT_BYTES, SCRATCH_WORDS), 2);
        assert_eq!(answer(call, 0, SCRATCH_WORDS), 2);
        assert_eq!(answer(call, HISTORY_BYTES, SCRATCH_WORDS - 1), 1);
        assert_eq!(answer(call, HISTORY_BYTES - 1, SCRATCH_WORDS - 1), 1);
        assert_eq!(answer(call, 0, 0), 1);
    }
    assert_eq!(others.map(|call| answer(&call, HISTORY_BYTES, SCRATCH_WORDS)), [3, 4, 7]);
}

/// The networks that the plain call refuses are refused by the same numbers.
#[test]
fn refusals_of_networks() {
    let mut numbers = vec![];
    for case in worked::sheets().into_iter().filter(|case| case.name.starts_with("refused-")) {
        let Call::Plain(sheet) = case.call else {
            unreachable!("{}: a sheet alone", case.name);
        };
        let call = Call::History(sheet);
        agreed([&call], Lengths::least);
        assert_eq!(Outcome::of(&call).text.trim(), case.lines[0], "{}", case.name);
        numbers.push(case.lines[0]);
    }
    numbers.dedup();
    assert_eq!(numbers, ["6", "7", "9", "8", "10", "11"]);
}

#[test]
fn the_longest_history() {
    let call = extremes::longest_history().history();
    let comparison = agreed([&call], Lengths::least);
    let outcome = Outcome::of(&call);
    let lines = outcome.text.lines().count() - (2 + 31 + 127);
    assert_eq!((lines, comparison.tally.histories.most_lines), (6_143, extremes::LONGEST_HISTORY));
    assert!(lines <= replay::MOST_LINES && outcome.text.len() <= replay::MOST_BYTES);
    assert_eq!((replay::MOST_LINES, replay::MOST_BYTES), (16_129, 505_951));
}

/// No history has more lines than genes and, for each leaf gene, arcs on the longest path: the bound of the longest history.
#[test]
fn histories_are_within_their_bound() {
    let mut random = Random::new(7);
    let (mut result, mut scratch) = (vec![0; HISTORY_BYTES], vec![0; SCRATCH_WORDS]);
    for _ in 0..1_000 {
        let family = families::tying(&mut random, 63, 64);
        let answer = family.history().reference(&mut result, &mut scratch).number() as usize;
        let replayed = replay(&family, &result[..answer]).expect("no fault");
        let leaf_genes = family.genes.len().div_ceil(2);
        assert!(replayed.lines <= family.genes.len() + leaf_genes * longest_path(&family));
    }
    let longest = extremes::longest_history();
    assert_eq!(127 + 64 * longest_path(&longest), extremes::LONGEST_HISTORY);
}

/// The arcs of the longest path from the root.
fn longest_path(family: &Family) -> usize {
    let mut depths = vec![0; family.nodes.len() + 1];
    for _ in &family.nodes {
        for (v, node) in (1..).zip(&family.nodes) {
            for parent in [node.principal, node.secondary].into_iter().filter(|&parent| parent != 0) {
                depths[v] = depths[v].max(1 + depths[parent as usize]);
            }
        }
    }
    depths.into_iter().max().expect("a node")
}

/// Counted by hand. K: gene 1 has its event at the root. It parts, and gene 3 has three histories from 4 (a duplication, and two transfers); or it
/// duplicates, and gene 3 has six from the root: those three after a loss, one where it parts, and two where it duplicates. Of the nine the two
/// with a transfer below a speciation cost least. A gene of species 2 has two from the root and one from each of 2, 3, 4 and 6, of which those
/// from 3 and 6 cost nothing.
#[test]
fn all_histories_are_listed() {
    let counts = |name: &str| {
        let sheet = told(name).call.read().expect("a sheet that can be read");
        histories::list(&sheet).map(|listed| (listed.histories, listed.cheapest))
    };
    assert_eq!(counts("k"), Some((9, 2)));
    assert_eq!(counts("06-one-gene"), Some((6, 2)));
    assert_eq!(counts("07-one-node-one-gene"), Some((1, 1)));
    assert_eq!(counts("08-one-node-three-genes"), Some((1, 1)));
}

/// The proved entry and the reference write the first of all cheapest histories of small families; many have several, and genes of one parent
/// between those of another.
#[test]
fn the_first_of_all_cheapest_histories() {
    let mut random = Random::new(7);
    let families: Vec<Family> =
        (0..4_000)
            .map(|i| {
                if i % 2 == 0 { families::any(&mut random, 7, 5) } else { families::tying(&mut random, 7, 4) }
            })
            .collect();
    let calls: Vec<Call> = families.iter().map(Family::history).collect();
    let tally = agreed(&calls, Lengths::least).tally.histories;
    assert!(tally.listed > 3_800 && tally.tied > 1_500 && tally.in_lists > 250_000);
    assert!(tally.codes.iter().all(|&lines| lines > 400), "{:?}", tally.codes);
    let interleaved = |family: &&Family| family.genes.windows(2).any(|pair| pair[1].parent < pair[0].parent);
    assert!(families.iter().filter(interleaved).count() > 1_000);
}

fn line(numbers: &str) -> String {
    let numbers: Vec<String> = numbers.split(' ').map(|number| format!("{number:>6}")).collect();
    numbers.concat() + "\n"
}

/// What the checker says of a history in which some lines, one after the other, are replaced by others.
fn replayed(name: &str, old: &[&str], new: &[&str]) -> Result<usize, String> {
    let told = told(name);
    let text = told.outcome().text;
    let [old, new] = [old, new].map(|lines| lines.iter().copied().map(line).collect::<String>());
    assert_eq!(text.matches(&old).count(), 1, "{name}: {old}");
    replay(&family(&told.call), text.replacen(&old, &new, 1).as_bytes()).map(|replayed| replayed.lines)
}

#[test]
fn other_cheapest_histories_have_no_fault() {
    assert_eq!(replayed("k", &["5 1 4 6 0", "5 2 7 0 0"], &["5 1 7 0 0"]), Ok(7));
    assert_eq!(replayed("06-one-gene", &["1 1 3 6 0", "1 2 6 0 0"], &["1 1 6 0 0"]), Ok(1));
    let duplicates_below = ["1 1 3 6 0", "1 2 6 2 2", "2 1 6 0 0", "3 1 6 0 0"];
    let told = told("duplication-at-a-reticulation");
    assert_eq!(replayed(told.name, &told.lines, &duplicates_below), Ok(4));
}

#[test]
fn faults_are_found() {
    let found = |name: &str, old: &[&str], new: &[&str], fault: &str| {
        let said = replayed(name, old, new).expect_err(fault);
        assert!(said.contains(fault), "{name}, {old:?} by {new:?}: {said}");
    };
    let in_k = |old: &[&str], new: &[&str], fault: &str| found("k", old, new, fault);
    // Costs: of a step, and of all.
    in_k(&["2 1 2 4 1"], &["2 1 2 4 0"], "costs 1");
    in_k(&["5 2 7 0 0"], &["5 2 7 0 1"], "costs 0");
    in_k(&["4 7 5 1 1"], &["5 7 5 1 1"], "the lines cost 4, the second line says 5");
    // Steps that are not allowed where the gene stands: without a secondary arc, with one principal arc, at an inner node, by a leaf gene.
    in_k(&["2 1 2 4 1"], &["2 1 2 5 4"], "is not allowed");
    in_k(&["2 1 2 4 1"], &["2 1 2 6 0"], "is not allowed");
    in_k(&["5 1 4 6 0"], &["5 1 4 4 1"], "is not allowed");
    in_k(&["2 1 2 4 1", "2 2 5 0 0"], &["2 1 2 0 0"], "is not allowed");
    in_k(&["2 2 5 0 0"], &["2 2 5 2 2"], "is not allowed");
    in_k(&["3 1 4 3 3"], &["3 1 4 1 0"], "is not allowed");
    in_k(&["3 1 4 3 3"], &["3 1 4 0 0"], "is not allowed");
    in_k(&["3 1 4 3 3"], &["3 1 4 7 0"], "in the place of");
    // A gene of species 3 that rests at the leaf of species 2.
    in_k(
        &["5 1 4 6 0", "5 2 7 0 0"],
        &["5 1 4 5 4", "5 2 3 6 0", "5 3 6 0 0"],
        "[5, 3, 6, 0, 0] is not allowed",
    );
    // Another second line.
    in_k(&["4 7 5 1 1"], &["4 7 5 2 1"], "[7, 5, 2] of the report");
    // No such node, and a gene that moves on to a node other than where its step leads.
    found("06-one-gene", &["1 1 3 6 0"], &["1 1 8 6 0"], "no node 8");
    found("06-one-gene", &["1 1 3 6 0"], &["1 1 0 6 0"], "no node 0");
    in_k(&["2 2 5 0 0"], &["2 2 7 0 0"], "on to");
    in_k(&["5 1 4 6 0", "5 2 7 0 0"], &["5 1 4 6 0", "5 2 3 6 0", "5 3 6 0 0"], "on to");
    // Children that start elsewhere than they were sent: by a transfer, a speciation, a duplication.
    in_k(&["4 1 3 6 0", "4 2 6 0 0"], &["4 1 6 0 0"], "the children [4, 5] start at [6, 4]");
    in_k(&["4 1 3 6 0", "4 2 6 0 0"], &["4 1 4 5 4", "4 2 3 6 0", "4 3 6 0 0"], "start at [4, 4]");
    in_k(&["2 1 2 4 1", "2 2 5 0 0"], &["2 1 5 0 0"], "the children [2, 3] start at [5, 4]");
    found(
        "lca-not-least",
        &["2 1 2 5 2", "2 2 3 6 0", "2 3 5 0 0"],
        &["2 1 3 6 0", "2 2 5 0 0"],
        "start at [3, 3]",
    );
    let below = ["2 1 6 0 0", "3 1 3 6 0"];
    found(
        "duplication-at-a-reticulation",
        &["2 1 3 6 0", "2 2 6 0 0", "3 1 3 6 0"],
        &below,
        "start at [6, 3]",
    );
    // The order of lines and their numbers.
    in_k(&["2 2 5 0 0"], &["2 3 5 0 0"], "in the place of step 2 of gene 2");
    in_k(&["4 1 3 6 0"], &["4 3 3 6 0"], "in the place of step 1 of gene 4");
    in_k(&["2 2 5 0 0"], &["2 2 5 0 0", "2 3 5 0 0"], "in the place of step 1 of gene 3");
    in_k(&["1 1 1 1 0", "2 1 2 4 1"], &["2 1 2 4 1", "1 1 1 1 0"], "in the place of step 1 of gene 1");
    in_k(&["5 1 4 6 0", "5 2 7 0 0"], &[], "lines of 4 genes");
    in_k(&["5 2 7 0 0"], &[], "is the last line");
    in_k(&["5 2 7 0 0"], &["5 2 7 0 0", "6 1 7 0 0"], "lines of 6 genes");
}

/// Lines are written as those of the report.
#[test]
fn malformed_lines_are_found() {
    let k = told("k");
    let (family, text) = (family(&k.call), k.outcome().text);
    let malformed =
        |text: String| replay(&family, text.as_bytes()).is_err_and(|fault| fault.contains("is no line"));
    assert_eq!(k.call, Call::history(worked::text([2, 3, 1], &K_NETWORK, &K_GENES)));
    assert!(malformed(format!("{text}\n")));
    assert!(malformed(text.trim_end().to_string()));
    assert!(malformed(text.replace("     5     2     7", "     5    02     7")));
    assert!(malformed(text.replace("     5     2     7", "     5     2    7 ")));
    assert!(malformed(text.replace('\n', "\r")));
}
