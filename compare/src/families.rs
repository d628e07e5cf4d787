//! Random families: networks grown forward in time, gene trees of many shapes, as numbers and as text.

use crate::random::Random;
pub use crate::reference::sheet::Gene;
use crate::reference::sheet::Sheet;

/// The numbers of a sheet, before they are written. Node v is `nodes[v - 1]`, gene g is `genes[g - 1]`.
#[derive(Clone)]
pub struct Family {
    pub costs: [u32; 3],
    pub nodes: Vec<Node>,
    pub genes: Vec<Gene>,
}

#[derive(Clone, Copy, Default)]
pub struct Node {
    pub principal: u32,
    pub secondary: u32,
    pub stamp: u32,
    pub species: u32,
}

impl Family {
    pub fn header(&self) -> [u32; 5] {
        let [d, t, l] = self.costs;
        [self.nodes.len() as u32, self.genes.len() as u32, d, t, l]
    }

    pub fn text(&self) -> Vec<u8> {
        let mut text = Vec::with_capacity(31 * (1 + self.nodes.len() + self.genes.len()));
        push_line(&mut text, self.header());
        for (v, node) in (1..).zip(&self.nodes) {
            push_line(&mut text, [v, node.principal, node.secondary, node.stamp, node.species]);
        }
        for (g, gene) in (1..).zip(&self.genes) {
            push_line(&mut text, [g, gene.parent, gene.species, 0, 0]);
        }
        text
    }

    /// The sheet of the call that takes the gene tree as a text: its header's m is 1, and it has no gene lines.
    pub fn text_without_genes(&self) -> Vec<u8> {
        let mut text = Family { genes: vec![Gene::default()], ..self.clone() }.text();
        text.truncate(31 * (1 + self.nodes.len()));
        text
    }

    pub fn species(&self) -> Vec<u32> {
        self.nodes.iter().map(|node| node.species).filter(|&species| species != 0).collect()
    }
}

/// The family of a sheet that was read.
impl From<&Sheet> for Family {
    fn from(sheet: &Sheet) -> Family {
        let node = |v: usize| Node {
            principal: sheet.principal[v],
            secondary: sheet.secondary[v],
            stamp: sheet.stamp[v],
            species: sheet.species[v],
        };
        let gene = |g: usize| Gene { parent: sheet.gene_parent[g], species: sheet.gene_species[g] };
        Family {
            costs: [sheet.duplication, sheet.transfer, sheet.loss],
            nodes: (1..=sheet.n).map(node).collect(),
            genes: (1..=sheet.m).map(gene).collect(),
        }
    }
}

pub fn push_line(text: &mut Vec<u8>, [a, b, c, d, e]: [u32; 5]) {
    text.extend_from_slice(format!("{a:6}{b:6}{c:6}{d:6}{e:6}\n").as_bytes());
}

/// Where a network grows next.
#[derive(Clone, Copy, PartialEq)]
pub enum Growth {
    /// At the lineage begun last: deep networks.
    Deep,
    /// At the lineage begun first: wide networks.
    Wide,
    Anywhere,
}

/// How large a network and its parts become.
#[derive(Clone, Copy)]
pub struct NetworkPlan {
    pub speciations: usize,
    /// As many transfers are tried for; fewer come where no lineage may receive one.
    pub transfers: usize,
    /// The most transfers among lineages that begin at one speciation, so the most in a component.
    pub in_component: usize,
    /// After every speciation a transfer reaches one of its lineages at once.
    pub dense: bool,
    /// Whether a node may have reticulations alone below it (refusal 10).
    pub only_reticulations: bool,
    pub growth: Growth,
    /// The most that is added to a stamp beyond the one that is needed.
    pub stamp_gap: usize,
    pub shuffled: bool,
}

/// A lineage that has not ended: the node it left last.
#[derive(Clone, Copy)]
struct Lineage {
    source: usize,
    /// Its next node must not be a reticulation, or a node would have reticulations alone below it.
    barred: bool,
    /// The source is a speciation whose other lineage has not gone on.
    twin: bool,
}

struct Grower<'a> {
    random: &'a mut Random,
    plan: NetworkPlan,
    nodes: Vec<Node>,
    speciations_left: usize,
    transfers_left: usize,
}

/// A network by the plan, its nodes renumbered at random where the plan says so.
pub fn network(random: &mut Random, plan: NetworkPlan) -> Vec<Node> {
    let mut grower = Grower {
        random,
        plan,
        nodes: Vec::new(),
        speciations_left: plan.speciations,
        transfers_left: plan.transfers,
    };
    let mut free = vec![Lineage { source: 0, barred: true, twin: false }];
    while grower.speciations_left > 0 {
        let i = grower.choose(free.len());
        let lineage = free.remove(i);
        free.extend(grower.clade(lineage));
    }
    let leaves = free.len();
    let mut species: Vec<u32> = if grower.random.once_in(2) {
        (1..=leaves as u32).collect()
    } else {
        // Distinct: one number from each of as many equal ranges.
        let range = 999_999 / leaves;
        (0..leaves).map(|i| (i * range + 1 + grower.random.below(range)) as u32).collect()
    };
    grower.random.shuffle(&mut species);
    for (lineage, species) in free.into_iter().zip(species) {
        let leaf = grower.node(lineage.source, 0, None);
        grower.nodes[leaf - 1].species = species;
    }
    let nodes = grower.nodes;
    if plan.shuffled { renumber(random, &nodes) } else { nodes }
}

impl Grower<'_> {
    fn choose(&mut self, count: usize) -> usize {
        match self.plan.growth {
            Growth::Deep => count - 1,
            Growth::Wide => 0,
            Growth::Anywhere => self.random.below(count),
        }
    }

    /// A new node below `principal`; nodes are numbered from 1.
    fn node(&mut self, principal: usize, secondary: usize, stamp: Option<u32>) -> usize {
        let least = if principal == 0 { 0 } else { self.nodes[principal - 1].stamp + 1 };
        let stamp = stamp.unwrap_or_else(|| least + self.random.within(0, self.plan.stamp_gap) as u32);
        self.nodes.push(Node { principal: principal as u32, secondary: secondary as u32, stamp, species: 0 });
        self.nodes.len()
    }

    /// Lineages that begin with a speciation of one; transfers run among them alone, so that a component
    /// does not leave them.
    fn clade(&mut self, lineage: Lineage) -> Vec<Lineage> {
        let mut members = vec![];
        self.speciate(lineage, &mut members);
        let wanted = if self.plan.dense {
            self.plan.in_component
        } else {
            self.random.within(0, self.plan.in_component)
        };
        let mut transfers = wanted.min(self.transfers_left);
        while transfers > 0 {
            let wait = !self.plan.dense && self.random.once_in(3);
            if !wait && self.transfer(&mut members) {
                transfers -= 1;
            } else if self.speciations_left > 0 {
                let i = self.choose(members.len());
                let member = members.remove(i);
                self.untwin(member, &mut members);
                self.speciate(member, &mut members);
            } else {
                break;
            }
        }
        for member in &mut members {
            member.twin = false;
        }
        members
    }

    fn speciate(&mut self, lineage: Lineage, members: &mut Vec<Lineage>) {
        let source = self.node(lineage.source, 0, None);
        self.speciations_left -= 1;
        members.extend([Lineage { source, barred: false, twin: true }; 2]);
    }

    /// A lineage has gone on with a node that is no reticulation: its twin is free to receive.
    fn untwin(&mut self, gone: Lineage, members: &mut [Lineage]) {
        for member in members.iter_mut().filter(|member| gone.twin && member.source == gone.source) {
            member.twin = false;
        }
    }

    /// A transfer between two of the lineages, if one may receive it.
    fn transfer(&mut self, members: &mut [Lineage]) -> bool {
        let open: Vec<usize> =
            (0..members.len()).filter(|&i| self.plan.only_reticulations || !members[i].barred).collect();
        if open.is_empty() || members.len() < 2 {
            return false;
        }
        let to = *self.random.pick(&open);
        let others: Vec<usize> = (0..members.len()).filter(|&i| i != to).collect();
        let strangers: Vec<usize> =
            others.iter().copied().filter(|&i| members[i].source != members[to].source).collect();
        // In a dense clade a donor that is no twin keeps all reticulations in one component.
        let from =
            *self.random.pick(if self.plan.dense && !strangers.is_empty() { &strangers } else { &others });
        let (giver, taker) = (members[from], members[to]);
        let latest = self.nodes[giver.source - 1].stamp.max(self.nodes[taker.source - 1].stamp);
        let stamp = latest + 1 + self.random.within(0, self.plan.stamp_gap) as u32;
        let donor = self.node(giver.source, 0, Some(stamp));
        let reticulation = self.node(taker.source, donor, Some(stamp));
        self.transfers_left -= 1;
        members[from] = Lineage { source: donor, barred: true, twin: false };
        members[to] = Lineage { source: reticulation, barred: true, twin: false };
        self.untwin(giver, members);
        for member in members.iter_mut().filter(|member| taker.twin && member.source == taker.source) {
            member.barred = true;
            member.twin = false;
        }
        true
    }
}

fn renumber(random: &mut Random, nodes: &[Node]) -> Vec<Node> {
    let mut number: Vec<u32> = (1..=nodes.len() as u32).collect();
    random.shuffle(&mut number);
    let renamed = |v: u32| if v == 0 { 0 } else { number[v as usize - 1] };
    let mut shuffled = vec![Node::default(); nodes.len()];
    for (v, node) in (1..).zip(nodes) {
        shuffled[renamed(v) as usize - 1] =
            Node { principal: renamed(node.principal), secondary: renamed(node.secondary), ..*node };
    }
    shuffled
}

/// The shape of a gene tree of a given size.
#[derive(Clone, Copy, PartialEq)]
pub enum GeneShape {
    Caterpillar,
    Balanced,
    Anyhow,
}

/// A gene tree with `leaves` leaves; each leaf is of one of the species.
pub fn gene_tree(random: &mut Random, leaves: usize, shape: GeneShape, species: &[u32]) -> Vec<Gene> {
    let mut children: Vec<Option<[usize; 2]>> = vec![None];
    let mut tips = vec![0];
    while tips.len() < leaves {
        let i = match shape {
            GeneShape::Caterpillar => tips.len() - 1,
            GeneShape::Balanced => 0,
            GeneShape::Anyhow => random.below(tips.len()),
        };
        let tip = tips.remove(i);
        let pair = [children.len(), children.len() + 1];
        children.extend([None, None]);
        children[tip] = Some(pair);
        tips.extend(pair);
    }
    let leaf_species = children.iter().map(|pair| pair.is_none().then(|| *random.pick(species))).collect();
    numbered(random, &children, leaf_species)
}

/// Genes numbered in a random order in which parents come first.
fn numbered(random: &mut Random, children: &[Option<[usize; 2]>], species: Vec<Option<u32>>) -> Vec<Gene> {
    let mut genes = Vec::with_capacity(children.len());
    let mut waiting = vec![(0, 0)];
    let in_order = random.once_in(4);
    while !waiting.is_empty() {
        let i = if in_order { waiting.len() - 1 } else { random.below(waiting.len()) };
        let (gene, parent) = waiting.remove(i);
        genes.push(Gene { parent, species: species[gene].unwrap_or(0) });
        let number = genes.len() as u32;
        waiting.extend(children[gene].into_iter().flatten().map(|child| (child, number)));
    }
    genes
}

/// A gene tree that runs down the network under some setting, with duplications and losses, so that the
/// setting may be found again. At most `most` genes.
pub fn evolved_genes(random: &mut Random, nodes: &[Node], most: usize) -> Vec<Gene> {
    let taken: Vec<u32> = nodes
        .iter()
        .map(|node| if node.secondary != 0 && random.once_in(2) { node.secondary } else { node.principal })
        .collect();
    let root = nodes.iter().position(|node| node.principal == 0).expect("a root") + 1;
    let mut children: Vec<Option<[usize; 2]>> = vec![None];
    let mut species = vec![None];
    let mut moving = vec![(0, root)];
    while let Some((gene, v)) = moving.pop() {
        let below: Vec<usize> = (1..=nodes.len()).filter(|&w| taken[w - 1] as usize == v).collect();
        let duplicates = random.once_in(12);
        let grows = children.len() + 2 <= most && (duplicates || below.len() == 2 && !random.once_in(6));
        if grows {
            let pair = [children.len(), children.len() + 1];
            children.extend([None, None]);
            species.extend([None, None]);
            children[gene] = Some(pair);
            let [x, y] = if duplicates { [v, v] } else { [below[0], below[1]] };
            moving.extend([(pair[0], x), (pair[1], y)]);
            // Both sides get their share of the genes that are left.
            random.shuffle(&mut moving);
        } else if below.is_empty() {
            species[gene] = Some(nodes[v - 1].species);
        } else {
            moving.push((gene, *random.pick(&below)));
        }
    }
    numbered(random, &children, species)
}

pub fn costs(random: &mut Random) -> [u32; 3] {
    match random.below(6) {
        0 => [0; 3],
        1 => [99; 3],
        2 => [0; 3].map(|_| *random.pick(&[0, 99])),
        3 => [2, 3, 1],
        4 => [0; 3].map(|_| random.below(100) as u32),
        _ => [0; 3].map(|_| random.below(6) as u32),
    }
}

/// A family of any shape whose network has at most `most_events` speciations and transfers and whose gene
/// tree has at most `most_leaves` leaves.
pub fn any(random: &mut Random, most_events: usize, most_leaves: usize) -> Family {
    let events = random.within(0, most_events);
    let transfers = match random.below(4) {
        0 => 0,
        1 => random.within(0, events / 2),
        2 => events / 2,
        _ => random.within(0, events.min(4) / 2),
    };
    let plan = NetworkPlan {
        speciations: events - transfers,
        transfers,
        in_component: *random.pick(&[1, 2, 3, 5, 8, 8]),
        dense: random.once_in(3),
        only_reticulations: false,
        growth: *random.pick(&[Growth::Deep, Growth::Wide, Growth::Anywhere, Growth::Anywhere]),
        stamp_gap: *random.pick(&[0, 1, 3, 5_000]),
        shuffled: !random.once_in(4),
    };
    let nodes = network(random, plan);
    let genes = any_genes(random, &nodes, most_leaves);
    Family { costs: costs(random), nodes, genes }
}

/// A family of at most so many events (5 and more) and leaf genes, half of them with many transfers, at costs by which many histories cost the
/// same.
pub fn tying(random: &mut Random, most_events: usize, most_leaves: usize) -> Family {
    let family = if random.once_in(2) {
        any(random, most_events, most_leaves)
    } else {
        let transfers = random.within(1, (most_events - 3) / 2);
        dense(random, transfers, most_leaves)
    };
    let costs =
        [[0, 0, 0], [9, 0, 0], [1, 0, 0], [0, 9, 0], [0, 1, 1], [0, 3, 1], [0, 0, 1], [1, 1, 0], [2, 1, 1]];
    Family { costs: *random.pick(&costs), ..family }
}

pub fn any_genes(random: &mut Random, nodes: &[Node], most_leaves: usize) -> Vec<Gene> {
    let mut species: Vec<u32> =
        nodes.iter().map(|node| node.species).filter(|&species| species != 0).collect();
    if random.once_in(5) {
        let few = random.within(1, species.len().min(3));
        random.shuffle(&mut species);
        species.truncate(few);
    }
    let leaves = if random.once_in(4) { most_leaves } else { random.within(1, most_leaves) };
    match random.below(4) {
        0 => evolved_genes(random, nodes, 2 * leaves - 1),
        1 => gene_tree(random, leaves, GeneShape::Caterpillar, &species),
        2 => gene_tree(random, leaves, GeneShape::Balanced, &species),
        _ => gene_tree(random, leaves, GeneShape::Anyhow, &species),
    }
}

/// A family with `transfers` reticulations in components of any size up to 8, and about as many
/// speciations, whose gene tree has at most `most_leaves` leaves.
pub fn dense(random: &mut Random, transfers: usize, most_leaves: usize) -> Family {
    let plan = NetworkPlan {
        speciations: transfers + random.below(4),
        transfers,
        in_component: *random.pick(&[2, 3, 4, 8]),
        dense: true,
        only_reticulations: false,
        growth: *random.pick(&[Growth::Deep, Growth::Wide, Growth::Anywhere]),
        stamp_gap: 1,
        shuffled: true,
    };
    let nodes = network(random, plan);
    let genes = any_genes(random, &nodes, most_leaves);
    Family { costs: costs(random), nodes, genes }
}

/// The largest size, 127 nodes and 127 genes, with as many transfers as the rules allow (31) where
/// `transfers` says so.
pub fn largest(random: &mut Random, transfers: usize, growth: Growth) -> Family {
    let plan = NetworkPlan {
        speciations: 63 - transfers,
        transfers,
        in_component: 8,
        dense: true,
        only_reticulations: false,
        growth,
        stamp_gap: 1,
        shuffled: true,
    };
    let nodes = network(random, plan);
    let species: Vec<u32> = nodes.iter().map(|node| node.species).filter(|&species| species != 0).collect();
    let shape = *random.pick(&[GeneShape::Caterpillar, GeneShape::Balanced, GeneShape::Anyhow]);
    let genes = gene_tree(random, 64, shape, &species);
    Family { costs: costs(random), nodes, genes }
}

/// A family as users have them: so many species and highways, and a gene tree that follows the network.
pub fn typical(random: &mut Random, species: usize, highways: usize, genes: usize) -> Family {
    let plan = NetworkPlan {
        speciations: species - 1,
        transfers: highways,
        in_component: 8,
        dense: false,
        only_reticulations: false,
        growth: Growth::Anywhere,
        stamp_gap: 3,
        shuffled: true,
    };
    loop {
        let nodes = network(random, plan);
        let reticulations = nodes.iter().filter(|node| node.secondary != 0).count();
        for _ in 0..100 {
            let tree = evolved_genes(random, &nodes, genes);
            if reticulations == highways && tree.len() == genes {
                return Family { costs: [2, 3, 1], nodes, genes: tree };
            }
        }
    }
}
