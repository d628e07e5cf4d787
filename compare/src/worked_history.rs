//! Sheets whose histories were worked out by hand, each with the reason for its lines. Those of sheet K, of case 4 and of case 4 where nothing
//! costs are also what the prover computed (crates/tellings/proofs/KnownHistories.antt).

use crate::calls::Call;
use crate::enumeration;
use crate::outcome::Outcome;
use crate::worked::{K_GENES, K_NETWORK, Line, PAIR_FIRST, line_fits, text};

/// A call and the lines of its history: gene, step, node, event code, cost.
pub struct Told {
    /// Of a known sheet of the rules the name of its file in sheets/.
    pub name: &'static str,
    pub call: Call,
    /// All lines, or the refusal's number alone.
    pub lines: Vec<&'static str>,
}

impl Told {
    /// The outcome of the call, which has to be as worked out.
    pub fn outcome(&self) -> Outcome {
        let outcome = Outcome::of(&self.call);
        assert!(self.fits(&outcome), "{}: {:?}\nfound:\n{}", self.name, self.lines, outcome.text);
        outcome
    }

    /// Whether the lines behind the report, or the refusal's line, are those worked out here.
    fn fits(&self, outcome: &Outcome) -> bool {
        let report = match (&outcome.scratch, self.call.read()) {
            (Some(_), Some(sheet)) => enumeration::report_lines(&sheet),
            _ => 0,
        };
        let found: Vec<&str> = outcome.text.lines().skip(report).collect();
        found.len() == self.lines.len()
            && self.lines.iter().zip(found).all(|(worked, found)| line_fits(worked, found))
    }
}

pub fn cases() -> Vec<Told> {
    let mut cases = known();
    cases.extend(of_k());
    cases.extend(of_other_networks());
    cases
}

fn told(name: &'static str, sheet: Vec<u8>, lines: &[&'static str]) -> Told {
    Told { name, call: Call::history(sheet), lines: lines.to_vec() }
}

fn one_gene(species: u32) -> [Line; 1] {
    [[1, 0, species, 0, 0]]
}

fn pair(one: u32, other: u32) -> [Line; 3] {
    [[1, 0, 0, 0, 0], [2, 1, one, 0, 0], [3, 1, other, 0, 0]]
}

/// K's. Gene 1 parts at the root, gene 2 down to 2 and gene 3 down to 4. Gene 2 leaves node 2 for leaf 5 and loses the other side. Gene 3
/// sends gene 4 along the secondary arc to 3. Gene 5 might start at leaf 7, but node 4, where gene 3 is, has the lower number: it stays,
/// and passes on free.
const K_HISTORY: [&str; 8] =
    ["1 1 1 1 0", "2 1 2 4 1", "2 2 5 0 0", "3 1 4 3 3", "4 1 3 6 0", "4 2 6 0 0", "5 1 4 6 0", "5 2 7 0 0"];

/// The same lines but for one, at another cost of a transfer.
fn but(lines: &[&'static str], i: usize, line: &'static str) -> Vec<&'static str> {
    let mut lines = lines.to_vec();
    lines[i] = line;
    lines
}

/// Case 4's. Gene 1 parts at the root, gene 2 down to 4, where both its species are below, and gene 5 down to 2. Gene 2 is a transfer: gene 3 is
/// of leaf 7 and stays at 4, as that is lower than 7, so that gene 4 is the one that is sent to 3. Gene 5 leaves node 2 for 3 with a loss.
const PAIR_FIRST_HISTORY: [&str; 9] = [
    "1 1 1 1 0",
    "2 1 4 3 3",
    "3 1 4 6 0",
    "3 2 7 0 0",
    "4 1 3 6 0",
    "4 2 6 0 0",
    "5 1 2 4 1",
    "5 2 3 6 0",
    "5 3 6 0 0",
];

/// The twelve cases of the rules, but for case 12, which is one of lengths.
fn known() -> Vec<Told> {
    let k = |costs| text(costs, &K_NETWORK, &K_GENES);
    let (leaf, mut stamped, mut genes) = ([[1, 0, 0, 0, 1]], K_NETWORK, K_GENES);
    stamped[3][3] = 1;
    genes[3][2] = 4;
    vec![
        told("k", k([2, 3, 1]), &K_HISTORY),
        // To part at the root costs 1 + 4, to duplicate there 2 + 2 + 1 (gene 3 parts at the root too): at equal cost the lower code.
        told("02-transfer-4", k([2, 4, 1]), &but(&K_HISTORY, 3, "3 1 4 3 4")),
        // Now the duplication is cheaper. Gene 2 loses a side at 1 and one at 2. Gene 3 parts at the root, and gene 4 loses a side at 2; gene 5
        // passes node 4 free, as it has one principal arc.
        told(
            "03-transfer-5",
            k([2, 5, 1]),
            &[
                "1 1 1 2 2",
                "2 1 1 4 1",
                "2 2 2 4 1",
                "2 3 5 0 0",
                "3 1 1 1 0",
                "4 1 2 4 1",
                "4 2 3 6 0",
                "4 3 6 0 0",
                "5 1 4 6 0",
                "5 2 7 0 0",
            ],
        ),
        told("04-pair-first", text([2, 3, 1], &K_NETWORK, &PAIR_FIRST), &PAIR_FIRST_HISTORY),
        told(
            "05-pair-first-transfer-2",
            text([2, 2, 1], &K_NETWORK, &PAIR_FIRST),
            &but(&PAIR_FIRST_HISTORY, 1, "2 1 4 3 2"),
        ),
        // Free from the leaf 6 and from 3 above it, which has the lower number: the gene starts there, above its leaf, and passes down.
        told("06-one-gene", text([2, 3, 1], &K_NETWORK, &one_gene(2)), &["1 1 3 6 0", "1 2 6 0 0"]),
        told("07-one-node-one-gene", text([2, 3, 1], &leaf, &one_gene(1)), &["1 1 1 0 0"]),
        told(
            "08-one-node-three-genes",
            text([2, 3, 1], &leaf, &pair(1, 1)),
            &["1 1 1 2 2", "2 1 1 0 0", "3 1 1 0 0"],
        ),
        told("09-node-4-stamped-1", text([2, 3, 1], &stamped, &K_GENES), &["7"]),
        told("10-gene-of-species-4", text([2, 3, 1], &K_NETWORK, &genes), &["13"]),
        told("11-duplication-99", k([99, 3, 1]), &K_HISTORY),
        told("11-duplication-100", k([100, 3, 1]), &["4"]),
    ]
}

/// K's network with the numbers of two nodes exchanged.
fn exchanged(x: u32, y: u32) -> Vec<Line> {
    let renamed = |v: u32| {
        if v == x {
            y
        } else if v == y {
            x
        } else {
            v
        }
    };
    let mut network = K_NETWORK
        .map(|[v, principal, secondary, stamp, species]| {
            [renamed(v), renamed(principal), renamed(secondary), stamp, species]
        })
        .to_vec();
    network.sort_unstable();
    network
}

fn of_k() -> Vec<Told> {
    let interleaved = [
        [1, 0, 0, 0, 0],
        [2, 1, 0, 0, 0],
        [3, 1, 0, 0, 0],
        [4, 2, 1, 0, 0],
        [5, 3, 3, 0, 0],
        [6, 2, 2, 0, 0],
        [7, 3, 3, 0, 0],
    ];
    vec![
        // The leaf is 3 and the reticulation above it 6: the gene starts at the leaf.
        told("leaf-below-a-higher-number", text([2, 3, 1], &exchanged(3, 6), &one_gene(2)), &["1 1 3 0 0"]),
        // The donor is 7 and the leaf below it 4: gene 5 takes the principal arc at once.
        told(
            "child-takes-the-principal-arc",
            text([2, 3, 1], &exchanged(4, 7), &K_GENES),
            &["1 1 1 1 0", "2 1 2 4 1", "2 2 5 0 0", "3 1 7 3 3", "4 1 3 6 0", "4 2 6 0 0", "5 1 4 0 0"],
        ),
        // The donor is 1, and from there two genes of the species beyond the secondary arc cost nothing where transfers and losses do not: one is
        // sent, the other stays and follows. Either may be the one; the lower-numbered gets the lower node.
        told(
            "lower-numbered-child-stays",
            text([9, 0, 0], &exchanged(1, 4), &pair(2, 2)),
            &["1 1 1 3 0", "2 1 1 5 0", "2 2 3 6 0", "2 3 6 0 0", "3 1 3 6 0", "3 2 6 0 0"],
        ),
        // Two genes of leaf 6 cost a duplication, at 6 or above it at 3. The gene starts at 3, and a duplication goes before a free pass.
        told(
            "duplication-at-a-reticulation",
            text([2, 3, 1], &K_NETWORK, &pair(2, 2)),
            &["1 1 3 2 2", "2 1 3 6 0", "2 2 6 0 0", "3 1 3 6 0", "3 2 6 0 0"],
        ),
        // Where nothing costs gene 2 duplicates at 4 (2), which goes before the transfer (3). Gene 4 goes along the secondary arc alone.
        told(
            "pair-first-where-nothing-costs",
            text([0, 0, 0], &K_NETWORK, &PAIR_FIRST),
            &[
                "1 1 1 1 0",
                "2 1 4 2 0",
                "3 1 4 6 0",
                "3 2 7 0 0",
                "4 1 4 5 0",
                "4 2 3 6 0",
                "4 3 6 0 0",
                "5 1 2 4 0",
                "5 2 3 6 0",
                "5 3 6 0 0",
            ],
        ),
        // Genes 4 and 6 are gene 2's, of leaves 5 and 6: it parts at 2. Genes 5 and 7 are gene 3's, both of leaf 7: it duplicates at 4, before it
        // passes on. Lines go by gene, whoever the parent is.
        told(
            "subtrees-interleaved",
            text([2, 3, 1], &K_NETWORK, &interleaved),
            &[
                "1 1 1 1 0",
                "2 1 2 1 0",
                "3 1 4 2 2",
                "4 1 5 0 0",
                "5 1 4 6 0",
                "5 2 7 0 0",
                "6 1 3 6 0",
                "6 2 6 0 0",
                "7 1 4 6 0",
                "7 2 7 0 0",
            ],
        ),
    ]
}

/// Reticulation 3 below 1 and 2, reticulation 7 below 5 and 4: from donor 2 leaf 9 is reached by its secondary arc (3, 5, 7) as by its principal
/// one (4, and from there along a secondary arc to 7).
const TWO_WAYS: [Line; 9] = [
    [1, 0, 0, 0, 0],
    [2, 1, 0, 1, 0],
    [3, 1, 2, 1, 0],
    [4, 2, 0, 3, 0],
    [5, 3, 0, 2, 0],
    [6, 4, 0, 9, 1],
    [7, 5, 4, 3, 0],
    [8, 5, 0, 9, 2],
    [9, 7, 0, 9, 3],
];

fn of_other_networks() -> Vec<Told> {
    let small = [[1, 0, 0, 0, 0], [2, 1, 0, 1, 0], [3, 1, 2, 1, 0], [4, 2, 0, 9, 1], [5, 3, 0, 9, 2]];
    vec![
        // Where transfers and losses cost nothing the gene starts at the root and goes down to 2, lower than 3. There it goes along the secondary
        // arc (5), though a free pass (6) down to 4 leads to leaf 9 at no cost as well.
        told(
            "secondary-arc-before-free-pass",
            text([5, 0, 0], &TWO_WAYS, &one_gene(3)),
            &["1 1 1 4 0", "1 2 2 5 0", "1 3 3 6 0", "1 4 5 4 0", "1 5 7 6 0", "1 6 9 0 0"],
        ),
        // With T = 1 the way by 2 costs 1: from the root down to 3, free of transfers.
        told(
            "principal-arcs-where-transfers-cost",
            text([5, 1, 0], &TWO_WAYS, &one_gene(3)),
            &["1 1 1 4 0", "1 2 3 6 0", "1 3 5 4 0", "1 4 7 6 0", "1 5 9 0 0"],
        ),
        // Two genes of leaf 5 part at the root. Whichever goes down to 2 comes to 3 by transfer with a loss, at 2: so gene 2 has the lower node.
        told(
            "lca-not-least",
            text([9, 1, 1], &small, &pair(2, 2)),
            &["1 1 1 1 0", "2 1 2 5 2", "2 2 3 6 0", "2 3 5 0 0", "3 1 3 6 0", "3 2 5 0 0"],
        ),
    ]
}
