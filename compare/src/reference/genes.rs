//! The gene tree: refusals 12 and 13.

use super::Refusal;
use super::network::Network;
use super::sheet::{MOST, Sheet};

pub struct GeneTree {
    pub m: usize,
    pub parent: [u8; MOST + 1],
    /// The two children of an inner gene, the lower number first; 0 and 0 of a leaf gene.
    pub children: [[u8; 2]; MOST + 1],
    /// The node of a leaf gene's species; 0 of an inner gene.
    pub leaf: [u8; MOST + 1],
}

impl GeneTree {
    pub fn check(sheet: &Sheet, network: &Network) -> Result<GeneTree, Refusal> {
        let mut tree = check_tree(sheet)?;
        for g in 1..=tree.m {
            let species = sheet.gene_species[g];
            if tree.children[g][0] != 0 {
                if species != 0 {
                    return Err(Refusal::GeneSpecies);
                }
            } else {
                let leaf = (1..=network.n).find(|&v| network.is_leaf(v) && sheet.species[v] == species);
                tree.leaf[g] = leaf.ok_or(Refusal::GeneSpecies)? as u8;
            }
        }
        Ok(tree)
    }
}

/// Refusal 12.
fn check_tree(sheet: &Sheet) -> Result<GeneTree, Refusal> {
    let zeros = [0; MOST + 1];
    let mut tree = GeneTree { m: sheet.m, parent: zeros, children: [[0; 2]; MOST + 1], leaf: zeros };
    let mut count = [0usize; MOST + 1];
    if sheet.gene_parent[1] != 0 {
        return Err(Refusal::GeneTree);
    }
    for g in 2..=sheet.m {
        let parent = sheet.gene_parent[g] as usize;
        if parent == 0 || parent >= g || count[parent] == 2 {
            return Err(Refusal::GeneTree);
        }
        tree.parent[g] = parent as u8;
        tree.children[parent][count[parent]] = g as u8;
        count[parent] += 1;
    }
    if count.contains(&1) {
        return Err(Refusal::GeneTree);
    }
    Ok(tree)
}
