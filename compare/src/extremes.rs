//! The families at the ends of what the rules allow: that of the greatest cost, and that of the longest history.

use crate::families::{Family, Gene, Node};

/// The stamp of leaves.
const TODAY: u32 = 999;

/// The family of the greatest cost: on a caterpillar of species, genes of the deepest leaf join one by one
/// a pair of the deepest and the shallowest. All but one of its inner genes are duplications at the root.
pub fn costliest() -> Family {
    let species = 64;
    let mut nodes = vec![Node::default()];
    for depth in 1..species {
        // The two lineages of the last inner node: a leaf, and the rest of the caterpillar.
        let principal = nodes.len() as u32;
        nodes.push(Node { principal, stamp: TODAY, species: depth, ..Node::default() });
        let last = depth + 1 == species;
        let (stamp, name) = if last { (TODAY, species) } else { (depth, 0) };
        nodes.push(Node { principal, stamp, species: name, ..Node::default() });
    }
    let mut genes = vec![Gene::default()];
    for left in (0..species - 1).rev() {
        let parent = genes.len() as u32;
        genes.push(Gene { parent, species });
        genes.push(Gene { parent, species: if left == 0 { 1 } else { 0 } });
    }
    Family { costs: [99; 3], nodes, genes }
}

/// How many lines that history has: 63 genes with children in a line each, and 64 leaf genes of 95 steps.
///
/// No sheet that is scored has more. A gene's steps follow a path of arcs, and its children start no higher than it ends: with leaf genes
/// ending at most 94 arcs below the root, 127 genes have at most 127 + 64 × 94 lines. A path has no more arcs, for besides a leaf it has
/// inner nodes, of which there are 63 among 127 nodes, and reticulations, of which refusal 10 leaves at most 31.
pub const LONGEST_HISTORY: usize = 63 + 64 * 95;

/// The family of the longest history. Below the root each of 31 reticulations hangs from an inner node and from a donor below that, which is a
/// rung of three nodes on the way down; all leaf genes are of the leaf below the last. Nothing costs, so that genes with children duplicate
/// at the root, whose other arc leads to another species, and every leaf gene goes down all rungs: at the inner node to the donor, the
/// lower-numbered, and there along the secondary arc, which goes before the principal one.
pub fn longest_history() -> Family {
    let leaf = |principal: u32, species: u32| Node { principal, secondary: 0, stamp: TODAY, species };
    let rungs = 31;
    let mut nodes = vec![Node::default(), leaf(1, 1)];
    let mut above = 1;
    for rung in 1..=rungs {
        let inner = nodes.len() as u32 + 1;
        let (donor, reticulation) = (inner + 1, inner + 2);
        nodes.extend([
            Node { principal: above, secondary: 0, stamp: 2 * rung - 1, species: 0 },
            Node { principal: inner, secondary: 0, stamp: 2 * rung, species: 0 },
            Node { principal: inner, secondary: donor, stamp: 2 * rung, species: 0 },
            leaf(donor, 1 + rung),
        ]);
        above = reticulation;
    }
    let species = 2 + rungs;
    nodes.push(leaf(above, species));
    // Gene 2 i and gene 2 i + 1 are the children of gene i.
    let genes = (1..=127).map(|g| Gene { parent: g / 2, species: if g < 64 { 0 } else { species } });
    Family { costs: [0; 3], nodes, genes: genes.collect() }
}
