//! All histories of a small family, one after the other, with no regard to speed, and the first of the cheapest ones: whole histories are
//! compared as the rules word their order. It shares the steps that a gene may take with the table of `enumeration`, and nothing with
//! `reference` but the reader of sheets.

use std::collections::HashMap;

use crate::enumeration::{Step, View};
use crate::families::push_line;
use crate::reference::sheet::Sheet;

/// The most histories of a family that are listed.
const MOST: u64 = 4_000;

/// What the list of all histories of a family comes to.
pub struct Listed {
    pub histories: u64,
    /// How many of them cost least.
    pub cheapest: usize,
    /// The lines of the first of these, as text.
    pub lines: Vec<u8>,
}

/// A history. The order of two is that of the rules: the lower start of gene 1 comes first; then, genes rising, at each step the lower code,
/// the lower node for the lower-numbered child or for a gene that goes on, and the lower node for the other child.
#[derive(PartialEq, Eq, PartialOrd, Ord)]
struct History {
    start: usize,
    /// Of each gene its steps, gene 1 first.
    genes: Vec<Vec<Step>>,
}

/// Lists all histories of a family, unless there are too many.
pub fn list(sheet: &Sheet) -> Option<Listed> {
    let mut lister = Lister { view: View::new(sheet), counts: HashMap::new() };
    let histories = (1..=sheet.n).map(|v| lister.count(1, v)).fold(0, u64::saturating_add);
    if histories > MOST {
        return None;
    }
    let all: Vec<History> = (1..=sheet.n).flat_map(|start| lister.from_start(sheet.m, start)).collect();
    assert_eq!(all.len() as u64, histories);
    let view = &lister.view;
    let cost =
        |history: &&History| -> u32 { history.genes.iter().flatten().map(|step| view.step_cost(step)).sum() };
    let least = all.iter().map(|history| cost(&history)).min()?;
    let cheapest: Vec<&History> = all.iter().filter(|history| cost(history) == least).collect();
    let first = cheapest.iter().min()?;
    Some(Listed { histories, cheapest: cheapest.len(), lines: first.lines(view) })
}

struct Lister<'a> {
    view: View<'a>,
    /// How many histories genes have from nodes, as far as they were counted.
    counts: HashMap<(usize, usize), u64>,
}

impl Lister<'_> {
    /// How many histories gene g has from node v.
    fn count(&mut self, g: usize, v: usize) -> u64 {
        if let Some(&count) = self.counts.get(&(g, v)) {
            return count;
        }
        let steps = self.view.steps(g, v);
        let count = steps.iter().map(|step| self.count_after(g, step)).fold(0, u64::saturating_add);
        self.counts.insert((g, v), count);
        count
    }

    fn count_after(&mut self, g: usize, step: &Step) -> u64 {
        let parts = parts(&self.view, g, step).into_iter();
        parts.map(|(h, w)| self.count(h, w)).fold(1, u64::saturating_mul)
    }

    fn from_start(&mut self, m: usize, start: usize) -> Vec<History> {
        let history = |told: Vec<(usize, Step)>| {
            let mut genes = vec![vec![]; m];
            told.into_iter().for_each(|(g, step)| genes[g - 1].push(step));
            History { start, genes }
        };
        self.told(1, start).into_iter().map(history).collect()
    }

    /// Each history of gene g from node v as the steps in it with their genes, those of one gene in their order.
    fn told(&mut self, g: usize, v: usize) -> Vec<Vec<(usize, Step)>> {
        let mut all = vec![];
        for step in self.view.steps(g, v) {
            if self.count_after(g, &step) == 0 {
                continue;
            }
            let mut begun = vec![vec![(g, step)]];
            for (h, w) in parts(&self.view, g, &step) {
                let onward = self.told(h, w);
                let joined = |one: &Vec<_>| onward.iter().map(|other| [&one[..], other].concat()).collect();
                begun = begun.iter().flat_map(|one| -> Vec<_> { joined(one) }).collect();
            }
            all.extend(begun);
        }
        all
    }
}

/// The genes that go on after a step of gene g, with their nodes.
fn parts(view: &View, g: usize, step: &Step) -> Vec<(usize, usize)> {
    if step.goes_on() {
        return vec![(g, step.first)];
    }
    view.gene_children(g).into_iter().zip([step.first, step.second]).collect()
}

impl History {
    /// Gene, step, node, code and cost of each step, genes rising.
    fn lines(&self, view: &View) -> Vec<u8> {
        let mut lines = vec![];
        let mut stands = HashMap::from([(1, self.start)]);
        for (g, steps) in (1..).zip(&self.genes) {
            for (number, step) in (1..).zip(steps) {
                let v = stands[&g] as u32;
                push_line(&mut lines, [g as u32, number, v, step.code, view.step_cost(step)]);
                stands.extend(parts(view, g, step));
            }
        }
        lines
    }
}
