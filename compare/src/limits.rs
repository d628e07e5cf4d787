//! Trees at the limits of their text, with what becomes of them: its length, the number of its genes, the depth of its brackets.

use crate::calls::Call;
use crate::families::{Family, Node};
use crate::reference::newick::LONGEST;
use crate::trees;
use crate::worked::Worked;

/// As many species as a network of 127 nodes has, and as many leaves as a tree of 127 genes.
const SPECIES: u32 = 64;

/// What is told of a report: 127 nodes and 127 genes.
const SCORED: &[&str] = &["* * * * *", "* 127 127 0 0"];

/// A tree with its name and its outcome.
type Row = (&'static str, String, &'static [&'static str]);

pub fn cases() -> Vec<Worked> {
    let low: Vec<u32> = (1..=SPECIES).collect();
    let high: Vec<u32> = std::iter::once(99_999).chain((1..SPECIES).map(|i| 1_000_000 - i)).collect();
    let on = |species: &[u32], rows: Vec<Row>| {
        let sheet = balanced_network(species).text_without_genes();
        let case = move |(name, tree, lines)| Worked::of(name, Call::newick(sheet.as_slice(), tree), lines);
        rows.into_iter().map(case)
    };
    on(&high, long(&high)).chain(on(&low, combs(&low))).chain(on(&low, many_genes())).collect()
}

/// Texts of about the greatest length. The first species has five digits, all others have six.
fn long(species: &[u32]) -> Vec<Row> {
    let longest = trees::balanced(&[&species[1..], &species[1..2]].concat());
    let byte_less = trees::balanced(species);
    assert_eq!((longest.len(), byte_less.len()), (LONGEST, LONGEST - 1));
    let leaf = species[1].to_string();
    let seven_digits = |text: &str| text.replacen(&leaf, &format!("{leaf}0"), 1);
    let without_end = longest.trim_end_matches(';');
    vec![
        ("bytes-573", byte_less.clone(), SCORED),
        ("bytes-573-no-end", without_end.to_string(), &["14"]),
        ("bytes-574", longest.clone(), SCORED),
        ("bytes-574-line-feed-for-end", format!("{without_end}\n"), &["14"]),
        ("bytes-574-line-feed-behind", format!("{byte_less}\n"), &["14"]),
        ("bytes-574-seven-digits", seven_digits(&byte_less), &["14"]),
        ("bytes-574-all-brackets", "(".repeat(LONGEST), &["14"]),
        ("bytes-575-line-feed-behind", format!("{longest}\n"), &["15"]),
        ("bytes-575-seven-digits", seven_digits(&longest), &["15"]),
        ("bytes-575-all-brackets", "(".repeat(LONGEST + 1), &["15"]),
        ("bytes-10000", "9".repeat(10_000), &["15"]),
    ]
}

fn combs(species: &[u32]) -> Vec<Row> {
    vec![
        ("leaves-64-left-comb", trees::left_comb(species), SCORED),
        ("leaves-64-right-comb", trees::right_comb(species), SCORED),
        ("leaves-64-balanced", trees::balanced(species), SCORED),
    ]
}

/// Texts of 128 genes and more. In a right comb of 65 leaves 128 genes are met in the first 192 bytes, the last leaf behind them.
fn many_genes() -> Vec<Row> {
    let leaves = [1; 145];
    let comb = trees::right_comb(&leaves[..65]);
    let longest = trees::right_comb(&leaves[..144]);
    assert_eq!(longest.len(), LONGEST);
    vec![
        ("genes-128-broken-off", comb[..192].to_string(), &["14"]),
        ("genes-128-comma-lost", comb[..191].to_string(), &["14"]),
        ("genes-128-all-brackets", "(".repeat(128), &["14"]),
        ("genes-128-then-no-leaf", comb.replacen("1))", "))", 1), &["14"]),
        ("genes-129-broken-off", comb[..193].to_string(), &["14"]),
        ("genes-129-no-end", comb.trim_end_matches(';').to_string(), &["14"]),
        ("genes-129-bracket-lost", comb.replacen("1))", "1)", 1), &["14"]),
        ("genes-129-left-comb", trees::left_comb(&leaves[..65]), &["15"]),
        ("genes-129-right-comb", comb, &["15"]),
        ("genes-129-balanced", trees::balanced(&leaves[..65]), &["15"]),
        ("genes-129-of-no-species", trees::left_comb(&[SPECIES + 1; 65]), &["15"]),
        ("genes-287-no-end", format!("{}\n", longest.trim_end_matches(';')), &["14"]),
        ("genes-287", longest, &["15"]),
        ("genes-289", trees::right_comb(&leaves), &["15"]),
    ]
}

/// Node v is below node v / 2; the 64 species are at nodes 64 to 127.
fn balanced_network(species: &[u32]) -> Family {
    let inner = (1..SPECIES).map(|v| Node { principal: v / 2, stamp: v.ilog2(), ..Node::default() });
    let leaves = (SPECIES..).zip(species).map(|(v, &species)| Node {
        principal: v / 2,
        stamp: v.ilog2(),
        species,
        ..Node::default()
    });
    Family { costs: [2, 3, 1], nodes: inner.chain(leaves).collect(), genes: vec![] }
}
