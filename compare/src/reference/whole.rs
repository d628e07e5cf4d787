//! The network as a whole, all arcs on: Definition 3 with the choices of the rules.

use super::genes::GeneTree;
use super::network::Network;
use super::sheet::Sheet;

/// What stands where no history exists. Sums saturate, so it stays what it is.
pub const NO_HISTORY: u32 = u32::MAX;

/// What leaves a node. Nodes are counted from 0 here, as the words of a row are.
#[derive(Clone, Copy)]
pub(super) enum Arcs {
    None,
    Principal(u8),
    TwoPrincipal(u8, u8),
    PrincipalAndSecondary(u8, u8),
}

impl Arcs {
    pub(super) fn out_of(network: &Network, v: u8) -> Arcs {
        let number = usize::from(v) + 1;
        match (network.children[number], network.recipient[number]) {
            ([0, _], _) => Arcs::None,
            ([x, 0], 0) => Arcs::Principal(x - 1),
            ([x, 0], s) => Arcs::PrincipalAndSecondary(x - 1, s - 1),
            ([x, y], _) => Arcs::TwoPrincipal(x - 1, y - 1),
        }
    }
}

/// Fills the first n × m words of `scratch`, a row a gene, and gives the least cost of gene 1 at any node.
pub fn fill(sheet: &Sheet, network: &Network, genes: &GeneTree, scratch: &mut [u32]) -> u32 {
    let n = network.n;
    let arcs: Vec<(u8, Arcs)> = targets_first(network).collect();
    // Children have higher numbers than their parents: their rows are complete when they are read.
    for g in (1..=genes.m).rev() {
        let (upper, below) = scratch.split_at_mut(g * n);
        let row = &mut upper[(g - 1) * n..];
        match genes.children[g] {
            [0, 0] => fill_leaf_row(sheet, &arcs, genes.leaf[g] - 1, row),
            [a, b] => {
                let child = |c: u8| &below[(usize::from(c) - 1 - g) * n..][..n];
                fill_inner_row(sheet, &arcs, child(a), child(b), row);
            }
        }
    }
    scratch[..n].iter().copied().min().unwrap_or(NO_HISTORY)
}

/// The nodes, the target of each arc before its source, with what leaves them.
fn targets_first(network: &Network) -> impl Iterator<Item = (u8, Arcs)> {
    network.order.iter().rev().map(move |&number| (number - 1, Arcs::out_of(network, number - 1)))
}

/// A leaf gene rests at the leaf of its species and moves on elsewhere.
fn fill_leaf_row(sheet: &Sheet, arcs: &[(u8, Arcs)], leaf: u8, row: &mut [u32]) {
    for &(v, arcs) in arcs {
        let at = |w: u8| row[usize::from(w)];
        let least = match arcs {
            Arcs::None if v == leaf => 0,
            Arcs::None => NO_HISTORY,
            Arcs::Principal(x) => at(x),
            Arcs::TwoPrincipal(x, y) => plus(at(x).min(at(y)), sheet.loss),
            Arcs::PrincipalAndSecondary(x, s) => at(x).min(plus(at(s), sheet.transfer + sheet.loss)),
        };
        row[usize::from(v)] = least;
    }
}

/// An inner gene, whose children have the rows `a` and `b`, has its event at the node or moves on.
fn fill_inner_row(sheet: &Sheet, arcs: &[(u8, Arcs)], a: &[u32], b: &[u32], row: &mut [u32]) {
    for &(v, arcs) in arcs {
        let at = |w: u8| row[usize::from(w)];
        let a = |w: u8| a[usize::from(w)];
        let b = |w: u8| b[usize::from(w)];
        let duplication = plus(plus(a(v), b(v)), sheet.duplication);
        let least = match arcs {
            Arcs::None => duplication,
            Arcs::Principal(x) => duplication.min(at(x)),
            Arcs::TwoPrincipal(x, y) => {
                let speciation = plus(a(x), b(y)).min(plus(a(y), b(x)));
                duplication.min(speciation).min(plus(at(x).min(at(y)), sheet.loss))
            }
            Arcs::PrincipalAndSecondary(x, s) => {
                let a_leaves = plus(a(s), b(v).min(b(x)));
                let b_leaves = plus(b(s), a(v).min(a(x)));
                let transfer = plus(a_leaves.min(b_leaves), sheet.transfer);
                let by_transfer = plus(at(s), sheet.transfer + sheet.loss);
                duplication.min(transfer).min(by_transfer).min(at(x))
            }
        };
        row[usize::from(v)] = least;
    }
}

pub(super) fn plus(a: u32, b: u32) -> u32 {
    a.saturating_add(b)
}
