//! What the test program `random_test` has to write. Its generator of sheets is repeated here, draw for draw; what is counted on the sheets
//! comes from the reference implementation and from the enumeration of all settings.

use crate::enumeration;
use crate::reference::sheet::Sheet;
use crate::reference::{self, Answer, RESULT_BYTES, SCRATCH_WORDS};

const SHEETS: u32 = 10_000;

/// The most reticulations of a network.
const MOST_TRANSFERS: usize = 6;

/// The stamp of leaves.
const TODAY: u32 = 50;

fn mixed(x: u32) -> u32 {
    let a = x ^ (x << 13);
    let b = a ^ (a >> 17);
    b ^ (b << 5)
}

/// What draws are for; what becomes of gene g at a node is for 32 + g.
const SHAPE: usize = 0;
const DAMAGE: usize = 1;
const COST_KIND: usize = 2;
const COST: usize = 3;
const SHUFFLE: usize = 4;
const LINEAGE: usize = 5;
const RECEIVER: usize = 6;
const WILL: usize = 7;
const STRAY: usize = 8;
const STRAY_LEAF: usize = 9;
const COPY: usize = 10;
const FATES: usize = 32;

/// The draws of one sheet.
struct Draws {
    sheet: u32,
}

impl Draws {
    /// Draw i of those for one purpose.
    fn below(&self, end: u32, purpose: usize, i: usize) -> u32 {
        let a = mixed(self.sheet.wrapping_add(2_654_435_769));
        let b = mixed(a.wrapping_add((32 * purpose + i) as u32));
        let c = mixed(b.wrapping_add(2_246_822_507));
        (c >> 8) % end
    }

    /// One of some nodes: the first going round from a drawn one.
    fn choose(&self, nodes: &[usize], purpose: usize, i: usize) -> Option<usize> {
        let drawn = self.below(31, purpose, i) as usize;
        (1..=31).rev().map(|i| 1 + (drawn + i) % 31).find(|v| nodes.contains(v))
    }

    /// The numbers 1 to n in a random order, from entry 1 on.
    fn shuffled(&self, n: usize) -> Vec<usize> {
        let mut out = vec![0; n + 1];
        for i in 1..=n {
            let j = 1 + self.below(i as u32, SHUFFLE, i) as usize;
            out[i] = out[j];
            out[j] = i;
        }
        out
    }

    fn cost(&self, i: usize) -> usize {
        let cost = match self.below(8, COST_KIND, i) {
            0 => 0,
            1 => self.below(100, COST, i),
            _ => 1 + self.below(4, COST, i),
        };
        cost as usize
    }
}

/// A network that grows, from entry 1 on; `open` lineages may still receive a transfer.
#[derive(Default)]
struct Network {
    principal: Vec<usize>,
    secondary: Vec<usize>,
    stamp: Vec<u32>,
    live: Vec<usize>,
    open: Vec<usize>,
}

impl Network {
    fn grow(draws: &Draws) -> Network {
        let mut network =
            Network { principal: vec![0], secondary: vec![0], stamp: vec![0], ..Network::default() };
        network.start(0);
        let willing = draws.below(4, SHAPE, 0);
        for time in 0..draws.below(16, SHAPE, 1) {
            let i = time as usize;
            let v = draws.choose(&network.live, LINEAGE, i).expect("a lineage");
            let others: Vec<usize> = network.open.iter().copied().filter(|&w| w != v).collect();
            let full = network.secondary.iter().filter(|&&s| s != 0).count() == MOST_TRANSFERS;
            match draws.choose(&others, RECEIVER, i) {
                Some(w) if !full && draws.below(4, WILL, i) <= willing => network.transfer(v, w, time),
                _ => network.split(v, time),
            }
        }
        network
    }

    fn nodes(&self) -> usize {
        self.principal.len() - 1
    }

    /// A new lineage below v.
    fn start(&mut self, v: usize) -> usize {
        self.principal.push(v);
        self.secondary.push(0);
        self.stamp.push(TODAY);
        self.live.push(self.nodes());
        self.nodes()
    }

    fn end(&mut self, v: usize, time: u32) {
        self.stamp[v] = time;
        self.live.retain(|&w| w != v);
        self.open.retain(|&w| w != v);
    }

    fn split(&mut self, v: usize, time: u32) {
        self.end(v, time);
        for _ in 0..2 {
            let child = self.start(v);
            self.open.push(child);
        }
    }

    fn transfer(&mut self, v: usize, w: usize, time: u32) {
        self.end(v, time);
        self.end(w, time);
        self.secondary[w] = v;
        // The parent of w must keep a child that is no reticulation.
        let (principal, parent) = (&self.principal, self.principal[w]);
        self.open.retain(|&x| principal[x] != parent);
        self.start(v);
        self.start(w);
    }

    /// The children of each node under a setting whose lowest bit is the highest-numbered reticulation's.
    fn children(&self, setting: u32) -> Vec<Vec<usize>> {
        let (mut children, mut bits) = (vec![vec![]; self.nodes() + 1], setting);
        for v in (1..=self.nodes()).rev() {
            let reticulation = self.secondary[v] != 0;
            let on = if reticulation && bits % 2 == 1 { self.secondary[v] } else { self.principal[v] };
            children[on].insert(0, v);
            bits /= if reticulation { 2 } else { 1 };
        }
        children
    }
}

/// Parents and leaves from entry 1 on; an inner gene has no leaf.
struct GeneTree {
    parents: Vec<usize>,
    leaves: Vec<Option<usize>>,
}

impl GeneTree {
    /// Genes go down the network, with some losses, duplications and leaves elsewhere.
    fn descend(draws: &Draws, network: &Network) -> GeneTree {
        let children = network.children(draws.below(64, SHAPE, 2));
        let enough = draws.below(23, SHAPE, 3) as usize;
        let mut tree = GeneTree { parents: vec![0, 0], leaves: vec![None] };
        let mut starts = vec![0, 1];
        let mut g = 1;
        while g < starts.len() {
            let room = starts.len() - 1 < enough;
            let mut v = starts[g];
            let parted = loop {
                match (children[v].as_slice(), draws.below(16, FATES + g, v)) {
                    (&[], _) => break None,
                    (&[_, b], 1) => v = b,
                    (&[a, b], 2..) if room => break Some([a, b]),
                    (arcs, _) => v = arcs[0],
                }
            };
            let elsewhere = parted.is_none() && draws.below(2, STRAY, g) == 0;
            tree.leaves.push(match parted {
                Some(_) => None,
                None if elsewhere => draws.choose(&network.live, STRAY_LEAF, g),
                None => Some(v),
            });
            if let Some(arcs) = parted {
                tree.parents.extend([g, g]);
                starts.extend(if draws.below(8, COPY, g) == 0 { [v, v] } else { arcs });
            }
            g += 1;
        }
        tree
    }
}

fn line(numbers: [usize; 5]) -> String {
    numbers.map(|x| format!("{x:6}")).concat() + "\n"
}

fn text(sheet: u32) -> Vec<u8> {
    let draws = Draws { sheet };
    let network = Network::grow(&draws);
    let tree = GeneTree::descend(&draws, &network);
    let (n, m) = (network.nodes(), tree.parents.len() - 1);
    let numbers = draws.shuffled(n);
    let species = |leaf: usize| 1 + 100 * (13 * numbers[leaf] % 32);
    let mut lines = vec![String::new(); 1 + n + m];
    let transfer = if draws.below(2, SHAPE, 4) == 0 { 0 } else { draws.cost(1) };
    lines[0] = line([n, m, draws.cost(0), transfer, draws.cost(2)]);
    for v in 1..=n {
        let (p, s) = (numbers[network.principal[v]], numbers[network.secondary[v]]);
        let kind = if network.live.contains(&v) { species(v) } else { 0 };
        lines[numbers[v]] = line([numbers[v], p, s, network.stamp[v] as usize, kind]);
    }
    for g in 1..=m {
        lines[n + g] = line([g, tree.parents[g], tree.leaves[g].map_or(0, species), 0, 0]);
    }
    let mut text = lines.concat().into_bytes();
    damage(&draws, &mut text);
    text
}

fn damage(draws: &Draws, text: &mut [u8]) {
    let kind = draws.below(20, DAMAGE, 0);
    let line = 31 * draws.below(text.len() as u32 / 31, DAMAGE, 1) as usize;
    let field = 6 * draws.below(5, DAMAGE, 2) as usize;
    let other = draws.below(32, DAMAGE, 3);
    if kind < 2 {
        text[line + field..][..6].copy_from_slice(format!("{other:6}").as_bytes());
    }
    if kind == 2 {
        text[line + other as usize % 31] = b' ' + other as u8;
    }
}

#[derive(Default)]
struct Counts {
    scored: u32,
    refused: u32,
    numbers: u32,
    settings: u32,
    secondary: u32,
    ties: u32,
    costs: u32,
    mismatches: u32,
}

impl Counts {
    fn add(&mut self, text: &[u8]) {
        let (mut result, mut scratch) = (vec![0; RESULT_BYTES], vec![0; SCRATCH_WORDS]);
        match reference::score(text, &mut result, &mut scratch) {
            Answer::Report(bytes) => {
                let sheet = Sheet::read(text).ok().expect("a scored sheet can be read");
                let settled = enumeration::settle(&sheet);
                self.scored += 1;
                self.settings += 1 << enumeration::reticulations(&sheet);
                self.secondary += u32::from(settled.setting.contains(&true));
                self.ties += u32::from(settled.cheapest > 1);
                self.costs += settled.cost;
                self.mismatches += u32::from(result[..bytes] != settled.report);
            }
            Answer::Refused(refusal) => {
                self.refused += 1;
                self.numbers += refusal as u32;
            }
        }
    }
}

/// The lines that the program has to write.
pub fn lines() -> String {
    let mut counts = Counts::default();
    (1..=SHEETS).for_each(|sheet| counts.add(&text(sheet)));
    [
        ("sheets", SHEETS),
        ("scored", counts.scored),
        ("refused", counts.refused),
        ("numbers", counts.numbers),
        ("settings", counts.settings),
        ("secondary", counts.secondary),
        ("ties", counts.ties),
        ("costs", counts.costs),
        ("mismatches", counts.mismatches),
    ]
    .map(|(name, count)| format!("{name:10}{count:6}\n"))
    .concat()
}
