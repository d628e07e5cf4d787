//! Placement under a setting, and the search for the cheapest one.

use super::genes::GeneTree;
use super::network::Network;
use super::sheet::{MOST, Sheet};

#[derive(Clone, Copy, PartialEq, Eq, Debug)]
pub enum Event {
    Leaf = 0,
    Speciation = 1,
    Duplication = 2,
    Transfer = 3,
}

/// What the report says of a gene; transfers and losses are those on the way from its parent gene.
#[derive(Clone, Copy)]
pub struct GeneOutcome {
    pub place: u8,
    pub event: Event,
    pub transfers: u32,
    pub losses: u32,
}

#[derive(Default)]
pub struct Counts {
    pub cost: u32,
    pub duplications: u32,
    pub transfers: u32,
    pub losses: u32,
}

pub struct Outcome {
    pub counts: Counts,
    pub trials: u32,
    /// Whether a reticulation takes its secondary parent.
    pub secondary: [bool; MOST + 1],
    /// Gene 1 first.
    pub genes: Vec<GeneOutcome>,
}

/// Tries every setting of every component, the other components on principal, and reports the bests.
pub fn run(sheet: &Sheet, network: &Network, genes: &GeneTree) -> Outcome {
    let mut tree = OnTree::all_principal(sheet, network);
    let mut placement = Placement::new(sheet, genes, &tree);
    let mut secondary = [false; MOST + 1];
    let mut trials = 0;
    for component in &network.components {
        let reticulations = &component.reticulations;
        let mut best = (u32::MAX, 0);
        for setting in 0..1u32 << reticulations.len() {
            tree.set(reticulations, setting);
            let cost = placement.cost(&tree);
            if cost < best.0 {
                best = (cost, setting);
            }
            trials += 1;
        }
        tree.set(reticulations, 0);
        for (j, &r) in reticulations.iter().rev().enumerate() {
            secondary[usize::from(r)] = best.1 >> j & 1 == 1;
        }
    }
    for component in &network.components {
        let setting =
            component.reticulations.iter().fold(0, |s, &r| 2 * s + u32::from(secondary[usize::from(r)]));
        tree.set(&component.reticulations, setting);
    }
    let cost = placement.cost(&tree);
    let (counts, genes) = detail(sheet, network, genes, &tree, &placement.place);
    assert_eq!(cost, counts.cost, "the trial's cost is that of the report");
    Outcome { counts, trials, secondary, genes }
}

/// The on arcs of a setting, which form a tree. Nodes go by their positions in the network's order, so
/// that a parent's position is below its child's. Tables are as long as a byte is wide.
struct OnTree<'a> {
    network: &'a Network,
    position: [u8; 256],
    parent: [u8; 256],
    /// Whether the on arc into a node is secondary.
    by_secondary: [bool; 256],
    on_arcs: [u8; 256],
    /// The loss that is due where a way passes the node: only with two on arcs.
    loss_at: [u32; 256],
    /// All that is due on a way that passes the node and goes on along the arc into it.
    due: [u32; 256],
    transfer: u32,
    loss: u32,
}

impl<'a> OnTree<'a> {
    fn all_principal(sheet: &Sheet, network: &'a Network) -> Self {
        let mut tree = OnTree {
            network,
            position: [0; 256],
            parent: [0; 256],
            by_secondary: [false; 256],
            on_arcs: [0; 256],
            loss_at: [0; 256],
            due: [0; 256],
            transfer: sheet.transfer,
            loss: sheet.loss,
        };
        for (at, &v) in network.order.iter().enumerate() {
            tree.position[usize::from(v)] = at as u8;
        }
        for (at, &v) in network.order.iter().enumerate().skip(1) {
            let parent = tree.position[usize::from(network.principal[usize::from(v)])];
            tree.parent[at] = parent;
            tree.on_arcs[usize::from(parent)] += 1;
        }
        for at in 0..network.n {
            tree.recharge(at as u8);
        }
        tree
    }

    /// Puts a component's reticulations as the setting says, its highest bit for the lowest-numbered.
    fn set(&mut self, reticulations: &[u8], setting: u32) {
        for (j, &r) in reticulations.iter().rev().enumerate() {
            let secondary = setting >> j & 1 == 1;
            let (v, at) = (usize::from(r), self.position[usize::from(r)]);
            if self.by_secondary[usize::from(at)] == secondary {
                continue;
            }
            let taken = if secondary { self.network.secondary[v] } else { self.network.principal[v] };
            let old = self.parent[usize::from(at)];
            let new = self.position[usize::from(taken)];
            self.by_secondary[usize::from(at)] = secondary;
            self.parent[usize::from(at)] = new;
            self.on_arcs[usize::from(old)] -= 1;
            self.on_arcs[usize::from(new)] += 1;
            for changed in [at, old, new] {
                self.recharge(changed);
            }
        }
    }

    fn recharge(&mut self, at: u8) {
        let at = usize::from(at);
        self.loss_at[at] = if self.on_arcs[at] == 2 { self.loss } else { 0 };
        self.due[at] = self.loss_at[at] + if self.by_secondary[at] { self.transfer } else { 0 };
    }

    fn node(&self, at: u8) -> usize {
        usize::from(self.network.order[usize::from(at)])
    }
}

/// Where the genes sit under the setting tried last.
struct Placement {
    /// The inner genes with their two children, children before parents.
    inner: Vec<[u8; 3]>,
    place: [u8; 256],
    duplication: u32,
    loss: u32,
}

impl Placement {
    fn new(sheet: &Sheet, genes: &GeneTree, tree: &OnTree) -> Self {
        let mut place = [0; 256];
        let mut inner = Vec::with_capacity(genes.m / 2);
        for g in (1..=genes.m).rev() {
            match genes.children[g] {
                [0, 0] => place[g] = tree.position[usize::from(genes.leaf[g])],
                [a, b] => inner.push([g as u8, a, b]),
            }
        }
        Placement { inner, place, duplication: sheet.duplication, loss: sheet.loss }
    }

    /// Places every inner gene and gives the last-common-ancestor cost.
    fn cost(&mut self, tree: &OnTree) -> u32 {
        let mut total = 0;
        for &[g, a, b] in &self.inner {
            let (start_a, start_b) = (self.place[usize::from(a)], self.place[usize::from(b)]);
            let (mut x, mut y) = (start_a, start_b);
            let mut cost = 0;
            while x != y {
                // The lower of two nodes in the order cannot be above the other.
                let lower = if x > y { &mut x } else { &mut y };
                cost += tree.due[usize::from(*lower)];
                *lower = tree.parent[usize::from(*lower)];
            }
            let mut elsewhere = 0;
            for start in [start_a, start_b] {
                if start != x {
                    // A way has no loss where it begins.
                    cost -= tree.loss_at[usize::from(start)];
                    elsewhere += 1;
                }
            }
            if elsewhere < 2 {
                cost += self.duplication + elsewhere * self.loss;
            }
            self.place[usize::from(g)] = x;
            total += cost;
        }
        total
    }
}

/// Events, ways and counts of the setting reported, from the places of its genes.
fn detail(
    sheet: &Sheet,
    network: &Network,
    genes: &GeneTree,
    tree: &OnTree,
    place: &[u8; 256],
) -> (Counts, Vec<GeneOutcome>) {
    let mut counts = Counts::default();
    let mut outcomes: Vec<GeneOutcome> = Vec::with_capacity(genes.m);
    for g in 1..=genes.m {
        let at = place[g];
        let event = match genes.children[g] {
            [0, 0] => Event::Leaf,
            children if children.iter().any(|&c| place[usize::from(c)] == at) => Event::Duplication,
            _ if leaves_by_secondary(network, tree, at) => Event::Transfer,
            _ => Event::Speciation,
        };
        let (mut transfers, mut losses) = (0, 0);
        if g > 1 {
            let parent = usize::from(genes.parent[g]);
            let from = place[parent];
            let mut x = at;
            while x != from {
                transfers += u32::from(tree.by_secondary[usize::from(x)]);
                x = tree.parent[usize::from(x)];
                losses += u32::from(x != from && tree.on_arcs[usize::from(x)] == 2);
            }
            losses += u32::from(at != from && outcomes[parent - 1].event == Event::Duplication);
        }
        counts.duplications += u32::from(event == Event::Duplication);
        counts.transfers += transfers;
        counts.losses += losses;
        outcomes.push(GeneOutcome { place: tree.node(at) as u8, event, transfers, losses });
    }
    counts.cost = sheet.duplication * counts.duplications
        + sheet.transfer * counts.transfers
        + sheet.loss * counts.losses;
    (counts, outcomes)
}

/// Whether the secondary arc out of a node is on.
fn leaves_by_secondary(network: &Network, tree: &OnTree, at: u8) -> bool {
    match network.recipient[tree.node(at)] {
        0 => false,
        r => tree.by_secondary[usize::from(tree.position[usize::from(r)])],
    }
}
