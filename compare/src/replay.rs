//! Replays a written history: whether it is one of Definition 3, as the rules word it, and as cheap as the report says. From the text it
//! takes the report's second line and the lines behind the report; of how a history is chosen, and of any table, it knows nothing.

use crate::families::{Family, push_line};
use crate::worked::Line;

/// The most lines of a history, and the most bytes with the report.
pub const MOST_LINES: usize = 127 * 127;
pub const MOST_BYTES: usize = 31 * (2 + 63 + 127) + 31 * MOST_LINES;

/// What a history came to that has no fault.
pub struct Replayed {
    pub lines: usize,
    /// How many steps have each event code.
    pub codes: [u64; 7],
}

/// Replays the history behind a report; the first fault found, if it has one.
pub fn replay(family: &Family, text: &[u8]) -> Result<Replayed, String> {
    let (n, m) = (family.nodes.len(), family.genes.len());
    let lines = text.chunks(31).map(line).collect::<Result<Vec<Line>, String>>()?;
    let Some(&[whole_cost, nodes, genes, reticulations, _]) = lines.get(1) else {
        return Err("no second line".to_string());
    };
    let r = family.nodes.iter().filter(|node| node.secondary != 0).count();
    let sizes = [nodes, genes, reticulations];
    ensure(sizes == [n, m, r].map(|size| size as u32), || format!("{sizes:?} of the report"))?;
    let history = lines.get(2 + r + m..).ok_or("the report breaks off")?;
    ensure(history.len() <= MOST_LINES && text.len() <= MOST_BYTES, || format!("{} lines", history.len()))?;

    let walks = walks(history)?;
    ensure(walks.len() == m, || format!("lines of {} genes", walks.len()))?;
    for (g, walk) in (1..).zip(&walks) {
        ensure(walk.len() <= n, || format!("gene {g} takes {} steps", walk.len()))?;
        family.replay_walk(g, walk)?;
        family.replay_children(g, walk[walk.len() - 1], &walks)?;
    }
    let cost: u32 = history.iter().map(|line| line[4]).sum();
    ensure(cost == whole_cost, || format!("the lines cost {cost}, the second line says {whole_cost}"))?;
    let mut codes = [0; 7];
    history.iter().for_each(|line| codes[line[3] as usize] += 1);
    Ok(Replayed { lines: history.len(), codes })
}

fn ensure(holds: bool, fault: impl FnOnce() -> String) -> Result<(), String> {
    if holds { Ok(()) } else { Err(fault()) }
}

/// The numbers of a line, which has to be written as all lines are.
fn line(bytes: &[u8]) -> Result<Line, String> {
    let shown = String::from_utf8_lossy(bytes);
    let numbers: Vec<u32> = shown.split_whitespace().filter_map(|word| word.parse().ok()).collect();
    let mut written = vec![];
    let numbers: Option<Line> = numbers.try_into().ok();
    numbers.iter().for_each(|&numbers| push_line(&mut written, numbers));
    numbers.filter(|_| written == bytes).ok_or_else(|| format!("{shown:?} is no line"))
}

/// The lines of each gene. Genes rise by 1, each gene's steps rise by 1 from 1, and 0 to 3 are the codes of last steps alone.
fn walks(history: &[Line]) -> Result<Vec<Vec<Line>>, String> {
    let mut walks: Vec<Vec<Line>> = vec![];
    for line in history {
        if walks.last().is_none_or(|walk| ends(walk[walk.len() - 1])) {
            walks.push(vec![]);
        }
        let gene = walks.len();
        let walk = &mut walks[gene - 1];
        walk.push(*line);
        ensure(line[..2] == [gene as u32, walk.len() as u32], || {
            format!("{line:?} in the place of step {} of gene {gene}", walk.len())
        })?;
    }
    let last = walks.last().map(|walk| walk[walk.len() - 1]);
    ensure(last.is_some_and(ends), || format!("{last:?} is the last line"))?;
    Ok(walks)
}

fn ends([_, _, _, code, _]: Line) -> bool {
    code <= 3
}

impl Family {
    fn principal_targets(&self, v: u32) -> Vec<u32> {
        (1..).zip(&self.nodes).filter(|(_, node)| node.principal == v).map(|(w, _)| w).collect()
    }

    fn secondary_targets(&self, v: u32) -> Vec<u32> {
        (1..).zip(&self.nodes).filter(|(_, node)| node.secondary == v).map(|(w, _)| w).collect()
    }

    fn gene_children(&self, g: u32) -> Vec<u32> {
        (1..).zip(&self.genes).filter(|(_, gene)| gene.parent == g).map(|(c, _)| c).collect()
    }

    /// Each step of a gene is allowed where the gene stands and has its cost; a gene that moves on stands next where the step leads.
    fn replay_walk(&self, g: u32, walk: &[Line]) -> Result<(), String> {
        for (i, &line) in walk.iter().enumerate() {
            let [_, _, v, code, cost] = line;
            ensure((1..=self.nodes.len() as u32).contains(&v), || format!("no node {v}: {line:?}"))?;
            let (toll, leads_to) = self.step(g, v, code).ok_or_else(|| format!("{line:?} is not allowed"))?;
            ensure(cost == toll, || format!("{line:?} costs {toll}"))?;
            if let Some(next) = walk.get(i + 1) {
                ensure(leads_to.contains(&next[2]), || format!("from {line:?} on to {next:?}"))?;
            }
        }
        Ok(())
    }

    /// What a step costs that gene g may take at node v, and the nodes to which it may lead the gene itself.
    fn step(&self, g: u32, v: u32, code: u32) -> Option<(u32, Vec<u32>)> {
        let [duplication, transfer, loss] = self.costs;
        let (principal, secondary) = (self.principal_targets(v), self.secondary_targets(v));
        let has_children = self.gene_children(g).len() == 2;
        let is_leaf = principal.is_empty() && secondary.is_empty();
        let of_one_species = self.nodes[v as usize - 1].species == self.genes[g as usize - 1].species;
        match code {
            0 if !has_children && is_leaf && of_one_species => Some((0, vec![])),
            1 if has_children && principal.len() == 2 => Some((0, vec![])),
            2 if has_children => Some((duplication, vec![])),
            3 if has_children && secondary.len() == 1 => Some((transfer, vec![])),
            4 if principal.len() == 2 => Some((loss, principal)),
            5 if secondary.len() == 1 => Some((transfer + loss, secondary)),
            6 if principal.len() == 1 => Some((0, principal)),
            _ => None,
        }
    }

    /// The children of a gene start where its last step sends them.
    fn replay_children(&self, g: u32, last: Line, walks: &[Vec<Line>]) -> Result<(), String> {
        let [_, _, v, code, _] = last;
        let children = self.gene_children(g);
        let starts: Vec<u32> = children.iter().map(|&child| walks[child as usize - 1][0][2]).collect();
        let principal = self.principal_targets(v);
        let sent = match (code, &starts[..]) {
            (0, []) => true,
            (1, [a, b]) => a != b && principal.contains(a) && principal.contains(b),
            (2, [a, b]) => [a, b] == [&v, &v],
            (3, [a, b]) => {
                let along = self.secondary_targets(v);
                let other = [&principal[..], &[v]].concat();
                along.contains(a) && other.contains(b) || along.contains(b) && other.contains(a)
            }
            _ => false,
        };
        ensure(sent, || format!("after {last:?} the children {children:?} start at {starts:?}"))
    }
}
