//! What is timed: families of several kinds and sizes, and what is refused.

use crate::calls::Call;
use crate::families::{self, Family, Gene, GeneShape, Growth, NetworkPlan, Node};
use crate::random::Random;
use crate::reference::{self, Answer, HISTORY_BYTES, SCRATCH_WORDS};
use crate::{damage, extremes, trees};

/// Calls of one kind.
pub struct Workload {
    pub name: String,
    pub calls: Vec<Call>,
}

/// For the plain call: what is scored, then what is refused.
pub fn plain(random: &mut Random) -> Vec<Workload> {
    let mut all = plain_families(random);
    all.extend(refused(random));
    all
}

fn plain_families(random: &mut Random) -> Vec<Workload> {
    let mut all = vec![
        sheets("(a) typical: 11 species, 2 highways, 21 genes", 500, || families::typical(random, 11, 2, 21)),
        sheets("(b) most trials, deep: 896, n = m = 127", 6, || families::largest(random, 31, Growth::Deep)),
        sheets("(b) most trials, wide: 896, n = m = 127", 6, || families::largest(random, 31, Growth::Wide)),
        sheets("(b) most trials, mixed: 896, n = m = 127", 6, || {
            families::largest(random, 31, Growth::Anywhere)
        }),
        sheets("(c) no reticulation, deep: n = m = 127", 30, || families::largest(random, 0, Growth::Deep)),
        sheets("(c) no reticulation, mixed: n = m = 127", 30, || {
            families::largest(random, 0, Growth::Anywhere)
        }),
    ];
    for m in [1, 15, 31, 63, 127] {
        all.push(sheets(&format!("(d) m = {m}: n = 63, 4 in a component"), 30, || sized(random, 63, 4, m)));
    }
    for n in [15, 31, 63, 127] {
        all.push(sheets(&format!("(d) n = {n}: m = 63, 3 in a component"), 30, || sized(random, n, 3, 63)));
    }
    for r in [0, 1, 2, 4, 6, 8, 16, 31] {
        all.push(sheets(&format!("(d) {r} reticulations: n = m = 127"), 8, || sized(random, 127, r, 127)));
    }
    all
}

fn refused(random: &mut Random) -> Vec<Workload> {
    let mut all = vec![garbage("refusal 3: 7,905 random bytes", 50, || {
        (0..7_905).map(|_| random.next() as u8).collect()
    })];
    all.push(garbage("refusal 5: largest sheet, its last byte wrong", 20, || {
        let mut text = families::largest(random, 8, Growth::Anywhere).text();
        *text.last_mut().expect("a byte") = b' ';
        text
    }));
    all.push(garbage("refusal 5: header, then a million random bytes", 1, || {
        let mut text = families::largest(random, 8, Growth::Anywhere).text();
        text.extend((0..1_000_000).map(|_| random.next() as u8));
        text
    }));
    all.push(garbage("refusal 11: n = m = 127, over 8 in a component", 20, || {
        loop {
            let text = large_component(random).text();
            if reference::judge(&text).err() == Some(reference::Refusal::LargeComponent) {
                return text;
            }
        }
    }));
    all.push(garbage("refusals 3 to 13, damaged sheets", 500, || {
        let number = random.within(3, 13) as u32;
        damage::aimed(random, number)
    }));
    all
}

fn sheets(name: &str, count: usize, mut make: impl FnMut() -> Family) -> Workload {
    scored(name, (0..count).map(|_| make().plain()).collect())
}

fn scored(name: &str, calls: Vec<Call>) -> Workload {
    let (mut result, mut scratch) = (vec![0; HISTORY_BYTES], vec![0; SCRATCH_WORDS]);
    let mut is_scored = |call: &Call| matches!(call.reference(&mut result, &mut scratch), Answer::Report(_));
    assert!(calls.iter().all(&mut is_scored), "{name}: a family is refused");
    Workload { name: name.to_string(), calls }
}

fn garbage(name: &str, count: usize, mut make: impl FnMut() -> Vec<u8>) -> Workload {
    Workload { name: name.to_string(), calls: (0..count).map(|_| Call::plain(make())).collect() }
}

/// The families on which another call is timed beside the plain one, each as that call takes it.
fn beside(random: &mut Random, call: fn(&Family) -> Call) -> Vec<Workload> {
    let mut families = |name: &str, count: usize, make: fn(&mut Random) -> Family| {
        scored(name, (0..count).map(|_| call(&make(random))).collect())
    };
    vec![
        families("(a) typical: 11 species, 2 highways, 21 genes", 500, |random| {
            families::typical(random, 11, 2, 21)
        }),
        families("(b) most trials, wide: 896, n = m = 127", 6, |random| {
            families::largest(random, 31, Growth::Wide)
        }),
        families("(c) no reticulation, mixed: n = m = 127", 30, |random| {
            families::largest(random, 0, Growth::Anywhere)
        }),
        families("(d) smallest: n = m = 1", 1, |_| smallest()),
    ]
}

/// The families on which the Newick call is timed.
pub fn newick(random: &mut Random) -> Vec<Workload> {
    let mut all = beside(random, Family::newick);
    let genes = families::gene_tree(&mut Random::new(1), 64, GeneShape::Balanced, &[999_999]);
    let family = Family { genes, ..smallest() };
    all.push(scored("(d) smallest network: n = 1, m = 127", vec![family.newick()]));
    all
}

/// The families on which the call with a history is timed.
pub fn histories(random: &mut Random) -> Vec<Workload> {
    let mut all = beside(random, Family::history);
    let deep = (0..30).map(|_| families::largest(random, 0, Growth::Deep).history()).collect();
    all.push(scored("(c) no reticulation, deep: n = m = 127", deep));
    all.push(scored("(e) longest history: 6,143 lines", vec![extremes::longest_history().history()]));
    all
}

fn smallest() -> Family {
    let node = Node { species: 999_999, ..Node::default() };
    Family { costs: [2, 3, 1], nodes: vec![node], genes: vec![Gene { parent: 0, species: 999_999 }] }
}

/// Texts of 8, 16, 32 and 64 leaves of six digits whose last byte is a line feed, with their lengths: all of the text is read.
pub fn last_byte_faults() -> [(usize, Workload); 4] {
    [8, 16, 32, 64].map(|leaves| {
        let tree = trees::balanced(&vec![999_999; leaves]).replace(';', "\n");
        let (length, sheet) = (tree.len(), smallest().text_without_genes());
        let name = format!("refusal 14 at the last byte: n = 1, {length} bytes");
        (length, Workload { name, calls: vec![Call::newick(sheet, tree)] })
    })
}

/// A network of n nodes with r reticulations, as many in a component as may be, and m genes.
fn sized(random: &mut Random, n: usize, r: usize, m: usize) -> Family {
    let family = dense(random, (n - 1) / 2 - r, r, 8, m);
    assert_eq!(family.nodes.len(), n);
    family
}

fn large_component(random: &mut Random) -> Family {
    dense(random, 40, 23, 23, 127)
}

/// Speciations and transfers, at most so many of these in a component and as many as may be, and m genes.
fn dense(random: &mut Random, speciations: usize, transfers: usize, in_component: usize, m: usize) -> Family {
    let plan = NetworkPlan {
        speciations,
        transfers,
        in_component,
        dense: true,
        only_reticulations: false,
        growth: Growth::Anywhere,
        stamp_gap: 1,
        shuffled: true,
    };
    let mut family = Family { costs: [2, 3, 1], nodes: families::network(random, plan), genes: vec![] };
    family.genes = families::gene_tree(random, m.div_ceil(2), GeneShape::Anyhow, &family.species());
    family
}
