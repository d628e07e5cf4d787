//! Sheets with trees as text whose outcomes were worked out by hand: known sheets, and the refusals that the text adds or stands beside.

use crate::calls::Call;
use crate::families::{Family, push_line};
use crate::trees;
use crate::worked::{self, K_GENES, K_NETWORK, Worked};

/// The tree of sheet K.
const K_TREE: &str = "(1,(2,3));";

pub fn cases() -> Vec<Worked> {
    let mut cases = as_text();
    cases.extend(texts());
    cases.extend(sheets());
    cases.extend(in_order_of_checking());
    cases
}

/// Of the sheets worked out for the plain call those whose genes are numbered as they are met in a text.
pub fn as_text() -> Vec<Worked> {
    let newick = |case: Worked| {
        let family = Family::from(&case.call.read()?);
        let same = trees::in_order_of_text(&family.genes) == family.genes;
        same.then(|| Worked { call: family.newick(), ..case })
    };
    worked::sheets().into_iter().filter_map(newick).collect()
}

/// K's sheet with its header replaced, and no gene lines.
fn k_sheet(header: [u32; 5]) -> Vec<u8> {
    let mut sheet = Vec::new();
    push_line(&mut sheet, header);
    K_NETWORK.iter().for_each(|&line| push_line(&mut sheet, line));
    sheet
}

fn k() -> Vec<u8> {
    k_sheet([7, 1, 2, 3, 1])
}

/// Texts that are not of the grammar, and texts of species that K's network lacks.
const TEXTS: &[(&str, &str, &str)] = &[
    ("outside-nothing", "", "14"),
    ("outside-end-alone", ";", "14"),
    ("outside-no-end", "(1,(2,3))", "14"),
    ("outside-line-feed-behind", "(1,(2,3));\n", "14"),
    ("outside-line-feed-for-end", "(1,(2,3))\n", "14"),
    ("outside-carriage-return", "(1,(2,3));\r\n", "14"),
    ("outside-two-ends", "(1,(2,3));;", "14"),
    ("outside-two-trees", "1;1;", "14"),
    ("outside-space", "(1, (2,3));", "14"),
    ("outside-space-before", " (1,(2,3));", "14"),
    ("outside-leading-zero", "(1,(02,3));", "14"),
    ("outside-zero", "(1,(0,3));", "14"),
    ("outside-seven-digits", "(1,(1000000,3));", "14"),
    ("outside-sign", "(1,(+2,3));", "14"),
    ("outside-bracket-lost", "(1,(2,3);", "14"),
    ("outside-bracket-too-many", "(1,(2,3)));", "14"),
    ("outside-comma-lost", "(1(2,3));", "14"),
    ("outside-three-members", "(1,2,3);", "14"),
    ("outside-one-member", "((1),(2,3));", "14"),
    ("outside-member-lost", "(,(2,3));", "14"),
    ("outside-bracketed-leaf", "(1);", "14"),
    ("outside-no-bracket", "1,2;", "14"),
    ("outside-semicolon-for-comma", "(1;(2,3));", "14"),
    ("outside-names", "(a,(b,c));", "14"),
    ("outside-lengths", "(1:0.5,(2:0.5,3:0.5):1);", "14"),
    ("outside-pair-named", "(1,(2,3)4);", "14"),
    ("species-not-in-the-network", "(1,(2,4));", "13"),
    ("species-not-in-the-network-alone", "999999;", "13"),
    // 14 stands before 13.
    ("outside-and-no-species", "(1,(2,4))", "14"),
];

fn texts() -> Vec<Worked> {
    let case = |&(name, tree, refusal): &(&str, &str, &'static str)| {
        Worked::of(name, Call::newick(k(), tree), &[refusal])
    };
    TEXTS.iter().map(case).collect()
}

/// Sheets that are refused beside a sound tree: those that the plain call would take, or refuses by another number.
fn sheets() -> Vec<Worked> {
    let lines = |genes| worked::text([2, 3, 1], &K_NETWORK, genes)[31..].to_vec();
    let with_header = |header: [u32; 5], genes| [&k_sheet(header)[..31], &lines(genes)].concat();
    let sheets: [(_, Vec<u8>, &'static str); 12] = [
        ("refused-3-nothing", vec![], "3"),
        ("refused-3-zero-padded", [b"000007", &k()[6..]].concat(), "3"),
        ("refused-4-no-gene", k_sheet([7, 0, 2, 3, 1]), "4"),
        ("refused-4-genes-counted", k_sheet([7, 5, 2, 3, 1]), "4"),
        // The plain call takes this sheet.
        ("refused-4-whole-sheet", with_header([7, 5, 2, 3, 1], &K_GENES), "4"),
        ("refused-4-two-genes", k_sheet([7, 2, 2, 3, 1]), "4"),
        ("refused-4-duplication-100", k_sheet([7, 1, 100, 3, 1]), "4"),
        ("refused-5-gene-lines-left-in", with_header([7, 1, 2, 3, 1], &K_GENES), "5"),
        // The plain call takes this sheet, too.
        ("refused-5-one-gene-line", with_header([7, 1, 2, 3, 1], &[[1, 0, 1, 0, 0]]), "5"),
        ("refused-5-byte-less", k()[..247].to_vec(), "5"),
        ("refused-5-line-feed-behind", [&k(), b"\n".as_slice()].concat(), "5"),
        ("refused-5-header-alone", k()[..31].to_vec(), "5"),
    ];
    let case = |(name, sheet, refusal)| Worked::of(name, Call::newick(sheet, K_TREE), &[refusal]);
    sheets.into_iter().map(case).collect()
}

/// A sheet for each refusal from 3 to 11, beside a text that 14 refuses and one that 15 refuses: the sheet's refusal is given.
pub fn in_order_of_checking() -> Vec<Worked> {
    let mut cases = vec![];
    for (number, refusal) in (3..).zip(["3", "4", "5", "6", "7", "8", "9", "10", "11"]) {
        let prefix = format!("refused-{number}-");
        let first = sheets().into_iter().chain(as_text()).find(|case| case.name.starts_with(&prefix));
        let Some(Call::Newick { sheet, .. }) = first.map(|case| case.call) else {
            unreachable!("a sheet for each refusal");
        };
        for (tree, of_tree) in [("(1,(2,3));\n".to_string(), 14), ("(".repeat(575), 15)] {
            let name = format!("refused-{number}-before-{of_tree}");
            cases.push(Worked::of(&name, Call::newick(&sheet[..], tree), &[refusal]));
        }
    }
    cases
}
