//! The first of the cheapest histories, read off the table of least costs. At each node a gene takes the first step, in the order of the
//! rules, of those that come to the least cost there with all that follows. Whatever step that is, the others find each gene's least costs
//! as they were: the first step for each gene, genes rising, is that of the first history.

use super::Judged;
use super::network::Network;
use super::report;
use super::sheet::{MOST, Sheet};
use super::whole::{Arcs, plus};

/// A step, with the nodes where the children start, the lower-numbered child's first, or the node that the gene moves on to. Nodes are
/// counted from 0, as the words of a row are.
#[derive(Clone, Copy)]
enum Step {
    Rest,
    Speciation([u8; 2]),
    Duplication,
    Transfer([u8; 2]),
    LossGoingDown(u8),
    LossByTransfer(u8),
    FreePass(u8),
}

impl Step {
    fn code(self) -> u32 {
        match self {
            Step::Rest => 0,
            Step::Speciation(_) => 1,
            Step::Duplication => 2,
            Step::Transfer(_) => 3,
            Step::LossGoingDown(_) => 4,
            Step::LossByTransfer(_) => 5,
            Step::FreePass(_) => 6,
        }
    }

    fn cost(self, sheet: &Sheet) -> u32 {
        match self {
            Step::Rest | Step::Speciation(_) | Step::FreePass(_) => 0,
            Step::Duplication => sheet.duplication,
            Step::Transfer(_) => sheet.transfer,
            Step::LossGoingDown(_) => sheet.loss,
            Step::LossByTransfer(_) => sheet.transfer + sheet.loss,
        }
    }
}

/// Writes the history's lines at the start of `result`, genes rising; gives the bytes written.
pub fn write((sheet, network, genes): &Judged, table: &[u32], result: &mut [u8]) -> usize {
    let row = |g: usize| &table[(g - 1) * network.n..][..network.n];
    let length = result.len();
    let mut rest = result;
    // Parents have lower numbers than their children: where a gene starts is known when its turn comes.
    let mut start = [0; MOST + 1];
    start[1] = first_of_least(row(1));
    for g in 1..=genes.m {
        let [a, b] = genes.children[g].map(usize::from);
        let children = (a != 0).then(|| [row(a), row(b)]);
        let gene = Gene { sheet, network, own: row(g), children };
        let mut v = start[g];
        for number in 1.. {
            let step = gene.step(v);
            rest = report::line(rest, [g as u32, number, u32::from(v) + 1, step.code(), step.cost(sheet)]);
            match step {
                Step::LossGoingDown(w) | Step::LossByTransfer(w) | Step::FreePass(w) => {
                    v = w;
                    continue;
                }
                Step::Speciation([p, q]) | Step::Transfer([p, q]) => (start[a], start[b]) = (p, q),
                Step::Duplication => (start[a], start[b]) = (v, v),
                Step::Rest => {}
            }
            break;
        }
    }
    length - rest.len()
}

/// The lowest node with the least cost of a row.
fn first_of_least(row: &[u32]) -> u8 {
    let nodes = 0..row.len() as u8;
    nodes.min_by_key(|&v| row[usize::from(v)]).expect("a network has a node")
}

/// A gene, with its row of the table and, of an inner gene, those of its children.
struct Gene<'a> {
    sheet: &'a Sheet,
    network: &'a Network,
    own: &'a [u32],
    children: Option<[&'a [u32]; 2]>,
}

impl Gene<'_> {
    /// The first of the cheapest steps at a node from which the gene has a history.
    fn step(&self, v: u8) -> Step {
        let arcs = Arcs::out_of(self.network, v);
        let ending = match (self.children, arcs) {
            (Some(children), _) => self.event(v, arcs, children),
            (None, Arcs::None) => Some(Step::Rest),
            (None, _) => None,
        };
        ending.unwrap_or_else(|| self.moving_on(arcs))
    }

    /// The first event of an inner gene at v, if one is among the cheapest steps.
    fn event(&self, v: u8, arcs: Arcs, [a, b]: [&[u32]; 2]) -> Option<Step> {
        let least = self.own[usize::from(v)];
        let is_cheapest =
            |cost: u32, [p, q]: [u8; 2]| plus(plus(a[usize::from(p)], b[usize::from(q)]), cost) == least;
        let first = |cost: u32, starts: &[[u8; 2]]| {
            starts.iter().copied().filter(|&starts| is_cheapest(cost, starts)).min()
        };
        let duplication = is_cheapest(self.sheet.duplication, [v, v]).then_some(Step::Duplication);
        match arcs {
            Arcs::None | Arcs::Principal(_) => duplication,
            Arcs::TwoPrincipal(x, y) => first(0, &[[x, y], [y, x]]).map(Step::Speciation).or(duplication),
            Arcs::PrincipalAndSecondary(x, s) => duplication.or_else(|| {
                first(self.sheet.transfer, &[[v, s], [s, v], [x, s], [s, x]]).map(Step::Transfer)
            }),
        }
    }

    /// The first of the cheapest steps of a gene that moves on.
    fn moving_on(&self, arcs: Arcs) -> Step {
        let at = |w: u8| self.own[usize::from(w)];
        match arcs {
            Arcs::None => unreachable!("a gene with a history ends at a leaf"),
            Arcs::Principal(x) => Step::FreePass(x),
            Arcs::TwoPrincipal(x, y) => {
                let (low, high) = (x.min(y), x.max(y));
                Step::LossGoingDown(if at(low) <= at(high) { low } else { high })
            }
            Arcs::PrincipalAndSecondary(x, s) => {
                let by_transfer = plus(at(s), self.sheet.transfer + self.sheet.loss);
                if by_transfer <= at(x) { Step::LossByTransfer(s) } else { Step::FreePass(x) }
            }
        }
    }
}
