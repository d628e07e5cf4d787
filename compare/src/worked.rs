//! Sheets whose outcomes were worked out by hand, as far as the lines beside them say. They come first in the
//! input of the test program `score_test`.

use crate::calls::Call;
use crate::families::push_line;
use crate::outcome::Outcome;
use crate::reference::whole::NO_HISTORY;

/// The five numbers of a line.
pub type Line = [u32; 5];

/// A call and what was worked out of its outcome.
pub struct Worked {
    /// The name of its files.
    pub name: String,
    pub call: Call,
    /// The first lines of the report, or the refusal's number alone. A field that was not worked out is `*`.
    pub lines: Vec<&'static str>,
    /// The words of the whole-network table, if they were worked out.
    pub table: Option<Vec<u32>>,
    /// How many settings cost as little as the one reported, if they were counted.
    pub cheapest: Option<usize>,
}

impl Worked {
    fn new(name: &str, sheet: Vec<u8>, lines: &[&'static str]) -> Worked {
        Worked::of(name, Call::plain(sheet), lines)
    }

    pub fn of(name: &str, call: Call, lines: &[&'static str]) -> Worked {
        Worked { name: name.to_string(), call, lines: lines.to_vec(), table: None, cheapest: None }
    }

    fn table(self, words: &[u32]) -> Worked {
        Worked { table: Some(words.to_vec()), ..self }
    }

    fn cheapest(self, settings: usize) -> Worked {
        Worked { cheapest: Some(settings), ..self }
    }

    /// The outcome of the call, which has to be as worked out.
    pub fn outcome(&self) -> Outcome {
        let outcome = Outcome::of(&self.call);
        assert!(self.fits(&outcome.text), "{}: {:?}\nfound:\n{}", self.name, self.lines, outcome.text);
        if let Some(table) = &self.table {
            let scratch = outcome.scratch.as_ref().expect("a scored sheet");
            assert_eq!(scratch[..table.len()], table[..]);
        }
        if let Some(cheapest) = self.cheapest {
            assert_eq!(outcome.settled.as_ref().map(|settled| settled.cheapest), Some(cheapest));
        }
        outcome
    }

    /// Whether a report, or a refusal's line, has the lines worked out here.
    pub fn fits(&self, outcome: &str) -> bool {
        let mut lines = outcome.lines();
        self.lines.iter().all(|worked| lines.next().is_some_and(|line| line_fits(worked, line)))
    }
}

/// Whether a line has the numbers worked out, where `*` stands for any.
pub fn line_fits(worked: &str, line: &str) -> bool {
    let (worked, line): (Vec<_>, Vec<_>) = (worked.split(' ').collect(), line.split_whitespace().collect());
    worked.len() == line.len()
        && worked.iter().zip(line).all(|(&field, found)| field == "*" || field == found)
}

pub fn text(costs: [u32; 3], network: &[Line], genes: &[Line]) -> Vec<u8> {
    let [d, t, l] = costs;
    let mut text = Vec::new();
    push_line(&mut text, [network.len() as u32, genes.len() as u32, d, t, l]);
    network.iter().chain(genes).for_each(|&line| push_line(&mut text, line));
    text
}

/// The network of sheet K: reticulation 3 below 2 and 4, inner nodes 1, 2 and 4, leaves 5, 6 and 7.
pub const K_NETWORK: [Line; 7] = [
    [1, 0, 0, 0, 0],
    [2, 1, 0, 1, 0],
    [3, 2, 4, 2, 0],
    [4, 1, 0, 2, 0],
    [5, 2, 0, 9, 1],
    [6, 3, 0, 9, 2],
    [7, 4, 0, 9, 3],
];

/// The genes of sheet K, (1,(2,3)) by species.
pub const K_GENES: [Line; 5] =
    [[1, 0, 0, 0, 0], [2, 1, 1, 0, 0], [3, 1, 0, 0, 0], [4, 3, 2, 0, 0], [5, 3, 3, 0, 0]];

/// The genes of case 4, ((3,2),2).
pub const PAIR_FIRST: [Line; 5] =
    [[1, 0, 0, 0, 0], [2, 1, 0, 0, 0], [3, 2, 3, 0, 0], [4, 2, 2, 0, 0], [5, 1, 2, 0, 0]];

/// One gene, for sheets that are refused for their network.
const ONE_GENE: [Line; 1] = [[1, 0, 1, 0, 0]];

const K_REPORT: [&str; 8] =
    ["3 0 1 0 2", "4 7 5 1 1", "3 4 1 1 1", "1 1 1 0 0", "2 5 0 0 0", "3 4 3 0 0", "4 6 0 1 0", "5 7 0 0 0"];

/// The least of the costs of all histories of each gene (downwards) from each node (across), listed by the
/// words of the rules.
const K_TABLE: [[u32; 7]; 5] = {
    const N: u32 = NO_HISTORY;
    [
        [4, N, N, N, N, N, N],
        [2, 1, N, N, 0, N, N],
        [1, N, N, 3, N, N, N],
        [2, 1, 0, 4, N, 0, N],
        [1, N, N, 0, N, N, 0],
    ]
};

pub fn sheets() -> Vec<Worked> {
    let mut sheets = known();
    sheets.extend(refused());
    sheets.extend(searched());
    sheets
}

/// Cases 1 to 8 of the rules, and case 4 with costs by which its other placement is reported.
fn known() -> Vec<Worked> {
    let (leaf, three) = ([[1, 0, 0, 0, 5]], [[1, 0, 0, 0, 0], [2, 1, 5, 0, 0], [3, 1, 5, 0, 0]]);
    vec![
        // Secondary: gene 3 at 4, from which a secondary arc leaves: a transfer; gene 1 at 1, a speciation.
        // Gene 2 passes node 2, one of whose arcs is off: no loss. Gene 4 goes along the secondary arc: one
        // transfer.
        Worked::new("k", text([2, 3, 1], &K_NETWORK, &K_GENES), &K_REPORT).table(&K_TABLE.concat()),
        // The same placement, cheaper than the principal one by 1.
        Worked::new(
            "k-transfer-4",
            text([2, 4, 1], &K_NETWORK, &K_GENES),
            &[&["4 0 1 0 2", "5 7 5 1 1"], &K_REPORT[2..]].concat(),
        ),
        // The settings tie. Principal: gene 3 at 1, the lowest above 6 and 7; gene 1 at 1 too, a duplication
        // with one child elsewhere. Gene 2 passes node 2 and leaves the duplication: two losses. Gene 4
        // passes 3 and 2: one, at 2. Gene 5 passes 4, one of whose arcs is off: none.
        Worked::new(
            "k-transfer-5",
            text([2, 5, 1], &K_NETWORK, &K_GENES),
            &[
                "5 1 0 3 2",
                "5 7 5 1 1",
                "3 2 0 1 1",
                "1 1 2 0 0",
                "2 5 0 0 2",
                "3 1 1 0 0",
                "4 6 0 0 1",
                "5 7 0 0 0",
            ],
        )
        .cheapest(2),
        // Principal: gene 2 at 1 and gene 1 at 1: a duplication. Gene 4 passes 2: one loss; gene 5 passes 2
        // and leaves the duplication: two.
        Worked::new("pair-first", text([2, 3, 1], &K_NETWORK, &PAIR_FIRST), &pair_first("4 7 5 1 1")),
        Worked::new(
            "pair-first-transfer-2",
            text([2, 2, 1], &K_NETWORK, &PAIR_FIRST),
            &pair_first("3 7 5 1 1"),
        ),
        // Secondary: gene 2 at 4, a transfer; gene 1 at 4 too: it fits both clauses and is a duplication.
        // Genes 4 and 5 take the secondary arc, gene 5 with the loss at the duplication: 2 + 2 × 1 + 2,
        // against 2 + 3 × 2. With all arcs on, genes 5 and 4 are sent along it from 4: 1 + 1.
        Worked::new(
            "pair-first-secondary",
            text([2, 1, 2], &K_NETWORK, &PAIR_FIRST),
            &[
                "6 1 2 1 2",
                "2 7 5 1 1",
                "3 4 1 1 1",
                "1 4 2 0 0",
                "2 4 3 0 0",
                "3 7 0 0 0",
                "4 6 0 1 0",
                "5 6 0 1 1",
            ],
        )
        .cheapest(1),
        // One gene costs nothing under either setting.
        Worked::new(
            "one-gene",
            text([2, 3, 1], &K_NETWORK, &[[1, 0, 2, 0, 0]]),
            &["0 0 0 0 2", "0 7 1 1 1", "3 2 0 1 1", "1 6 0 0 0"],
        )
        .cheapest(2),
        // One node, a leaf that is also the root: nothing to try.
        Worked::new(
            "one-node-one-gene",
            text([2, 3, 1], &leaf, &[[1, 0, 5, 0, 0]]),
            &["0 0 0 0 0", "0 1 1 0 0", "1 1 0 0 0"],
        ),
        // A duplication at a leaf, both children there: no loss.
        Worked::new(
            "one-node-three-genes",
            text([2, 3, 1], &leaf, &three),
            &["2 1 0 0 0", "2 1 3 0 0", "1 1 2 0 0", "2 1 0 0 0", "3 1 0 0 0"],
        ),
    ]
}

/// Case 4's report on principal; the whole-network cost stands in the second line.
fn pair_first(second: &'static str) -> [&'static str; 8] {
    ["5 1 0 3 2", second, "3 2 0 1 1", "1 1 2 0 0", "2 1 1 0 0", "3 7 0 0 0", "4 6 0 0 1", "5 6 0 0 2"]
}

/// Fields of a node's line.
const PRINCIPAL: usize = 1;
const SECONDARY: usize = 2;
const STAMP: usize = 3;
const SPECIES: usize = 4;

/// K with one number of one node changed: name, node, field, number, refusal.
const K_BUT: [(&str, usize, usize, u32, &str); 12] = [
    // Leaf 7 below node 8, which is none.
    ("refused-6-principal-above-n", 7, PRINCIPAL, 8, "6"),
    ("refused-6-secondary-above-n", 3, SECONDARY, 8, "6"),
    // Its own parent.
    ("refused-6-own-parent", 2, PRINCIPAL, 2, "6"),
    // A second root.
    ("refused-6-second-root", 4, PRINCIPAL, 0, "6"),
    // No root: node 1 is below leaf 7.
    ("refused-6-no-root", 1, PRINCIPAL, 7, "6"),
    // The root with a secondary parent.
    ("refused-6-root-with-secondary", 1, SECONDARY, 4, "6"),
    // The secondary parent of node 3 earlier than node 3 (case 9).
    ("refused-7-secondary-earlier", 4, STAMP, 1, "7"),
    // Node 2 stamped as the root, its principal parent.
    ("refused-7-principal-not-below", 2, STAMP, 0, "7"),
    // Node 4 as both parents of node 3: its stamp would have to be below 2 and to be 2.
    ("refused-7-both-parents-one", 3, PRINCIPAL, 4, "7"),
    // A leaf without species, an inner node with one, two leaves alike.
    ("refused-9-leaf-without-species", 7, SPECIES, 0, "9"),
    ("refused-9-inner-node-with-species", 2, SPECIES, 4, "9"),
    ("refused-9-two-leaves-of-a-species", 7, SPECIES, 1, "9"),
];

/// Networks that refusals 6 to 11 apply to.
fn refused() -> Vec<Worked> {
    let k_but = K_BUT.map(|(name, node, field, number, refusal)| {
        let mut network = K_NETWORK;
        network[node - 1][field] = number;
        Worked::new(name, text([2, 3, 1], &network, &K_GENES), &[refusal])
    });
    let of =
        |name, network: &[Line], refusal| Worked::new(name, text([2, 3, 1], network, &ONE_GENE), &[refusal]);
    let mut sheets = Vec::from(k_but);
    sheets.extend([
        // Nodes 2 and 3 each the secondary parent of the other, equal stamps: a circle that 6 and 7 do not
        // find. Node 2 has two parents and no principal arc out.
        of("refused-8-circle", &[[1, 0, 0, 0, 0], [2, 1, 3, 5, 0], [3, 1, 2, 5, 0]], "8"),
        // A root with one arc out, and one with three.
        of("refused-8-one-arc-out", &[[1, 0, 0, 0, 0], [2, 1, 0, 1, 1]], "8"),
        of(
            "refused-8-three-arcs-out",
            &[[1, 0, 0, 0, 0], [2, 1, 0, 1, 1], [3, 1, 0, 1, 2], [4, 1, 0, 1, 3]],
            "8",
        ),
        // Two transfers with nothing between: the only child of reticulation 3 is reticulation 5.
        of(
            "refused-10-reticulation-below-reticulation",
            &[
                [1, 0, 0, 0, 0],
                [2, 1, 0, 1, 0],
                [3, 1, 2, 1, 0],
                [4, 2, 0, 2, 0],
                [5, 3, 4, 2, 0],
                [6, 4, 0, 9, 1],
                [7, 5, 0, 9, 2],
            ],
            "10",
        ),
        // One reticulation more than a component may hold; a component of eight is scored below.
        of("refused-11-nine-reticulations", &ladder(9), "11"),
    ]);
    sheets
}

/// Two lineages with `count` transfers from the first to the second, all in one component: transfer i goes
/// from donor 4i - 2 to reticulation 4i - 1. After each but the last the second lineage parts, so that no
/// node has only reticulations below it. The root is node 1; leaf i of the second lineage has species i, the
/// first lineage's leaf the last one.
fn ladder(count: u32) -> Vec<Line> {
    let mut nodes = vec![[1, 0, 0, 0, 0]];
    let mut add = |principal: u32, secondary: u32, stamp: u32, species: u32| {
        let number = nodes.len() as u32 + 1;
        nodes.push([number, principal, secondary, stamp, species]);
        number
    };
    let (mut giver, mut taker) = (1, 1);
    for i in 1..=count {
        giver = add(giver, 0, 2 * i, 0);
        let reticulation = add(taker, giver, 2 * i, 0);
        if i < count {
            taker = add(reticulation, 0, 2 * i + 1, 0);
            add(taker, 0, 99, i);
        } else {
            add(reticulation, 0, 99, i);
        }
    }
    add(giver, 0, 99, count + 1);
    nodes
}

/// Two ladders of five below one root, the second with species 7 to 12.
fn two_ladders() -> Vec<Line> {
    let mut nodes = vec![[1, 0, 0, 0, 0]];
    for species in [0, 6] {
        let by = nodes.len() as u32;
        nodes.extend(ladder(5).into_iter().map(|[v, principal, secondary, stamp, kind]| {
            [
                v + by,
                if v == 1 { 1 } else { principal + by },
                if secondary == 0 { 0 } else { secondary + by },
                stamp + 1,
                if kind == 0 { 0 } else { kind + species },
            ]
        }));
    }
    nodes
}

/// Gene lines from pairs of parent and species.
fn genes(pairs: &[(u32, u32)]) -> Vec<Line> {
    (1..).zip(pairs).map(|(g, &(parent, species))| [g, parent, species, 0, 0]).collect()
}

/// Networks on which the search has several settings or components to try. The costs and settings of
/// `three_components` and `component_of_eight` were found apart from both implementations.
fn searched() -> Vec<Worked> {
    vec![one_species(), set_together(), three_components(), component_of_eight(), two_components()]
}

/// Two genes of one species: a duplication at leaf 5 (9) under either setting, so the principal one. With all
/// arcs on gene 1 parts at the root (0), and one child goes along the secondary arc (1 + 1).
fn one_species() -> Worked {
    let network = [[1, 0, 0, 0, 0], [2, 1, 0, 1, 0], [3, 1, 2, 1, 0], [4, 2, 0, 9, 1], [5, 3, 0, 9, 2]];
    Worked::new(
        "one-species",
        text([9, 1, 1], &network, &genes(&[(0, 0), (1, 2), (1, 2)])),
        &["9 1 0 0 2", "2 5 3 1 1", "3 1 0 1 1", "1 5 2 0 0", "2 5 0 0 0", "3 5 0 0 0"],
    )
    .cheapest(2)
}

/// Two reticulations in one component must be set together: node 1 alone secondary costs 0, node 11 alone 2,
/// both 2, none 3.
fn set_together() -> Worked {
    let network = [
        [1, 4, 3, 11, 0],
        [2, 8, 0, 4, 0],
        [3, 8, 0, 11, 0],
        [4, 2, 0, 7, 0],
        [5, 3, 0, 12, 6],
        [6, 1, 0, 12, 4],
        [7, 11, 0, 14, 7],
        [8, 0, 0, 3, 0],
        [9, 4, 0, 10, 0],
        [10, 9, 0, 14, 5],
        [11, 2, 9, 10, 0],
    ];
    Worked::new(
        "set-together",
        text([11, 2, 3], &network, &genes(&[(0, 0), (1, 5), (1, 7)])),
        &["0 0 0 0 4", "* 11 3 2 1", "1 3 1 8 2", "11 2 0 8 2"],
    )
    .cheapest(1)
}

/// Three networks of K's form, each below a leaf's place in the one before: three components, tried one after
/// the other. Four settings tie, of which the first has the last reticulation alone secondary.
fn three_components() -> Worked {
    let network = [
        [1, 0, 0, 0, 0],
        [2, 1, 0, 1, 0],
        [3, 2, 4, 2, 0],
        [4, 1, 0, 2, 0],
        [5, 2, 0, 99, 1],
        [6, 3, 0, 99, 2],
        [7, 4, 0, 10, 0],
        [8, 7, 0, 11, 0],
        [9, 8, 10, 12, 0],
        [10, 7, 0, 12, 0],
        [11, 8, 0, 99, 3],
        [12, 9, 0, 99, 4],
        [13, 10, 0, 20, 0],
        [14, 13, 0, 21, 0],
        [15, 14, 16, 22, 0],
        [16, 13, 0, 22, 0],
        [17, 14, 0, 99, 5],
        [18, 15, 0, 99, 6],
        [19, 16, 0, 99, 7],
    ];
    let genes =
        genes(&[(0, 0), (1, 0), (1, 0), (2, 3), (2, 0), (3, 5), (3, 3), (5, 0), (5, 5), (8, 3), (8, 7)]);
    Worked::new(
        "three-components",
        text([2, 5, 1], &network, &genes),
        &["15 * * * 6", "* 19 11 3 3", "3 2 0 1 1", "9 8 0 7 1", "15 16 1 13 1"],
    )
    .cheapest(4)
}

/// As many reticulations as a component may hold: 256 settings, of which four are cheapest.
fn component_of_eight() -> Worked {
    let genes =
        genes(&[(0, 0), (1, 0), (1, 1), (2, 0), (2, 4), (4, 0), (4, 0), (7, 7), (7, 9), (6, 2), (6, 3)]);
    Worked::new(
        "component-of-eight",
        text([2, 3, 1], &ladder(8), &genes),
        &[
            "16 * * * 256",
            "* 33 11 8 1",
            "3 1 0 1 8",
            "7 6 1 1 8",
            "11 8 0 1 8",
            "15 14 1 1 8",
            "19 16 0 1 8",
            "23 20 0 1 8",
            "27 26 1 1 8",
            "31 28 0 1 8",
        ],
    )
    .cheapest(4)
}

/// Ten reticulations, but five in each of two components: not refused, and 2 × 32 trials. Genes
/// ((5,6),(11,12)) by species. In each component the pair parts at the last donor (T), after a loss at the
/// top or, with the first transfer on, at the first donor (L): 3, where the principal setting has four
/// losses. With all arcs on it costs as much.
fn two_components() -> Worked {
    let genes = genes(&[(0, 0), (1, 0), (1, 0), (2, 5), (2, 6), (3, 11), (3, 12)]);
    Worked::new(
        "two-components-of-five",
        text([2, 2, 1], &two_ladders(), &genes),
        &[
            "6 0 2 2 64",
            "6 43 7 10 2",
            "4 2 0 2 5",
            "8 5 0 2 5",
            "12 9 0 2 5",
            "16 13 0 2 5",
            "20 19 1 2 5",
            "25 23 0 23 5",
            "29 26 0 23 5",
            "33 30 0 23 5",
            "37 34 0 23 5",
            "41 40 1 23 5",
            "1 1 1 0 0",
            "2 19 3 0 1",
            "3 40 3 0 1",
            "4 21 0 1 0",
            "5 22 0 0 0",
            "6 42 0 1 0",
            "7 43 0 0 0",
        ],
    )
    .cheapest(4)
}
