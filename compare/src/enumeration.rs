//! Every setting of the whole network, one after the other, by the definitions and with no regard to
//! speed. It shares the reader of sheets with `reference` and nothing else.

use crate::reference::sheet::Sheet;

/// All that a scored sheet settles.
pub struct Settled {
    pub report: Vec<u8>,
    pub table: Vec<u32>,
    /// The cheapest setting, its cost, and how many settings cost as little.
    pub setting: Vec<bool>,
    pub cost: u32,
    pub cheapest: usize,
}

/// What must come out for a sheet that no refusal applies to.
pub fn settle(sheet: &Sheet) -> Settled {
    let view = View::new(sheet);
    let placed: Vec<Placed> = view.settings().map(|setting| view.place(&setting)).collect();
    let cheapest = placed
        .iter()
        .reduce(|best, next| if next.cost < best.cost { next } else { best })
        .expect("there is a setting");
    let table = view.table();
    let whole_cost = table[..sheet.n].iter().min().expect("a node");
    let report = view.report(cheapest, *whole_cost);
    let equals = placed.iter().filter(|other| other.cost == cheapest.cost).count();
    Settled { report, table, setting: cheapest.setting.clone(), cost: cheapest.cost, cheapest: equals }
}

/// How many settings the whole network has, as a power of 2.
pub fn reticulations(sheet: &Sheet) -> usize {
    (1..=sheet.n).filter(|&v| sheet.secondary[v] != 0).count()
}

/// How many lines the report has.
pub fn report_lines(sheet: &Sheet) -> usize {
    2 + reticulations(sheet) + sheet.m
}

/// A step of a gene, by its event code: 0 to 3 as in the report, 4 a loss going down, 5 a loss by transfer, 6 a free pass.
#[derive(Clone, Copy, PartialEq, Eq, PartialOrd, Ord, Debug)]
pub struct Step {
    pub code: u32,
    /// Where the lower-numbered child starts, or the gene goes on.
    pub first: usize,
    /// Where the other child starts.
    pub second: usize,
}

impl Step {
    /// Whether the gene itself goes on to another node.
    pub fn goes_on(&self) -> bool {
        self.code >= 4
    }
}

pub(crate) struct View<'a> {
    sheet: &'a Sheet,
    /// Source, target, and whether the arc is secondary.
    arcs: Vec<(usize, usize, bool)>,
    reticulations: Vec<usize>,
}

struct Placed {
    cost: u32,
    duplications: u32,
    transfers: u32,
    losses: u32,
    /// For each reticulation, rising, whether its secondary arc is on.
    setting: Vec<bool>,
    /// For each gene: place, event, transfers, losses.
    genes: Vec<[u32; 4]>,
}

impl<'a> View<'a> {
    pub(crate) fn new(sheet: &'a Sheet) -> Self {
        let mut arcs = Vec::new();
        let mut reticulations = Vec::new();
        for v in 1..=sheet.n {
            if sheet.principal[v] != 0 {
                arcs.push((sheet.principal[v] as usize, v, false));
            }
            if sheet.secondary[v] != 0 {
                arcs.push((sheet.secondary[v] as usize, v, true));
                reticulations.push(v);
            }
        }
        View { sheet, arcs, reticulations }
    }

    /// All settings in the order of the rules: reticulations rising, principal before secondary.
    fn settings(&self) -> impl Iterator<Item = Vec<bool>> {
        let r = self.reticulations.len();
        (0..1u64 << r).map(move |number| (0..r).map(|j| number >> (r - 1 - j) & 1 == 1).collect())
    }

    fn on_arcs(&self, setting: &[bool]) -> Vec<(usize, usize, bool)> {
        let is_on =
            |&(_, v, secondary): &(usize, usize, bool)| match self.reticulations.iter().position(|&r| r == v)
            {
                Some(j) => setting[j] == secondary,
                None => true,
            };
        self.arcs.iter().copied().filter(is_on).collect()
    }

    /// The lower-numbered child first.
    pub(crate) fn gene_children(&self, g: usize) -> Vec<usize> {
        (1..=self.sheet.m).filter(|&c| self.sheet.gene_parent[c] as usize == g).collect()
    }

    fn leaf_of(&self, g: usize) -> usize {
        let species = self.sheet.gene_species[g];
        (1..=self.sheet.n)
            .find(|&v| species != 0 && self.sheet.species[v] == species)
            .expect("the species has a leaf")
    }

    fn place(&self, setting: &[bool]) -> Placed {
        let (n, m) = (self.sheet.n, self.sheet.m);
        let arcs = self.on_arcs(setting);
        let reaches = closure(n, &arcs);
        let mut places = vec![0; m + 1];
        for g in (1..=m).rev() {
            let children = self.gene_children(g);
            places[g] = if children.is_empty() {
                self.leaf_of(g)
            } else {
                let common: Vec<usize> =
                    (1..=n).filter(|&v| children.iter().all(|&c| reaches[v][places[c]])).collect();
                // The lowest: every node from which both are reached reaches it.
                *common.iter().find(|&&low| common.iter().all(|&v| reaches[v][low])).expect("a lowest node")
            };
        }
        let out = |v: usize| arcs.iter().filter(move |arc| arc.0 == v);
        let mut placed = Placed {
            cost: 0,
            duplications: 0,
            transfers: 0,
            losses: 0,
            setting: setting.to_vec(),
            genes: Vec::new(),
        };
        for g in 1..=m {
            let children = self.gene_children(g);
            let place = places[g];
            let event = if children.is_empty() {
                0
            } else if children.iter().any(|&c| places[c] == place) {
                2
            } else {
                assert_eq!(out(place).count(), 2, "a gene parts where two arcs are on");
                if out(place).any(|arc| arc.2) { 3 } else { 1 }
            };
            let (mut transfers, mut losses) = (0, 0);
            if g > 1 {
                let parent = self.sheet.gene_parent[g] as usize;
                let from = places[parent];
                let on_way = |v: usize| reaches[from][v] && reaches[v][place];
                transfers =
                    arcs.iter().filter(|&&(u, v, secondary)| secondary && on_way(u) && on_way(v)).count();
                losses =
                    (1..=n).filter(|&v| v != from && v != place && on_way(v) && out(v).count() == 2).count();
                if placed.genes[parent - 1][1] == 2 && place != from {
                    losses += 1;
                }
            }
            placed.duplications += u32::from(event == 2);
            placed.transfers += transfers as u32;
            placed.losses += losses as u32;
            placed.genes.push([place as u32, event, transfers as u32, losses as u32]);
        }
        placed.cost = self.sheet.duplication * placed.duplications
            + self.sheet.transfer * placed.transfers
            + self.sheet.loss * placed.losses;
        placed
    }

    /// The least cost of each gene at each node, by improving a table of no histories until nothing changes.
    fn table(&self) -> Vec<u32> {
        let (n, m) = (self.sheet.n, self.sheet.m);
        let mut least: Vec<Option<u32>> = vec![None; n * m];
        loop {
            let next: Vec<Option<u32>> =
                (0..n * m).map(|word| self.clauses(&least, word / n + 1, word % n + 1)).collect();
            if next == least {
                return least.into_iter().map(|word| word.unwrap_or(u32::MAX)).collect();
            }
            least = next;
        }
    }

    /// The least cost that a single step of gene g at node v gives, the rest as `least` says.
    fn clauses(&self, least: &[Option<u32>], g: usize, v: usize) -> Option<u32> {
        let at = |g: usize, v: usize| least[(g - 1) * self.sheet.n + v - 1];
        let children = self.gene_children(g);
        let total = |step: &Step| {
            let onward = match (step.goes_on(), &children[..]) {
                (true, _) => at(g, step.first)?,
                (false, &[a, b]) => at(a, step.first)? + at(b, step.second)?,
                (false, _) => 0,
            };
            Some(onward + self.step_cost(step))
        };
        self.steps(g, v).iter().filter_map(total).min()
    }

    /// The steps that the rules let gene g take at node v.
    pub(crate) fn steps(&self, g: usize, v: usize) -> Vec<Step> {
        let targets = |by_secondary: bool| -> Vec<usize> {
            self.arcs.iter().filter(|a| a.0 == v && a.2 == by_secondary).map(|a| a.1).collect()
        };
        let (principal, secondary) = (targets(false), targets(true));
        let mut steps = vec![];
        let mut may = |code: u32, first: usize, second: usize| steps.push(Step { code, first, second });
        match self.gene_children(g)[..] {
            [_, _] => {
                may(2, v, v);
                if let [x, y] = principal[..] {
                    may(1, x, y);
                    may(1, y, x);
                }
                if let [s] = secondary[..] {
                    for other in [v, principal[0]] {
                        may(3, s, other);
                        may(3, other, s);
                    }
                }
            }
            _ if self.leaf_of(g) == v => may(0, 0, 0),
            _ => {}
        }
        if let [x, y] = principal[..] {
            may(4, x, 0);
            may(4, y, 0);
        }
        if let [s] = secondary[..] {
            may(5, s, 0);
        }
        if let [x] = principal[..] {
            may(6, x, 0);
        }
        steps
    }

    pub(crate) fn step_cost(&self, step: &Step) -> u32 {
        let Sheet { duplication, transfer, loss, .. } = *self.sheet;
        [0, 0, duplication, transfer, loss, transfer + loss, 0][step.code as usize]
    }

    /// The components as sets of nodes: an arc is cut when its ends are parted without it.
    fn components(&self) -> Vec<Vec<usize>> {
        let n = self.sheet.n;
        let kept: Vec<_> = (0..self.arcs.len())
            .filter(|&i| {
                let others: Vec<_> = (0..self.arcs.len()).filter(|&j| j != i).map(|j| self.arcs[j]).collect();
                joined(n, &others)[self.arcs[i].0][self.arcs[i].1]
            })
            .map(|i| self.arcs[i])
            .collect();
        let together = joined(n, &kept);
        (1..=n)
            .filter(|&v| (1..v).all(|w| !together[v][w]))
            .map(|v| (1..=n).filter(|&w| together[v][w]).collect())
            .collect()
    }

    fn report(&self, placed: &Placed, whole_cost: u32) -> Vec<u8> {
        let sheet = self.sheet;
        let reaches = closure(sheet.n, &self.arcs);
        let with_any: Vec<Vec<usize>> = self
            .components()
            .into_iter()
            .filter(|piece| piece.iter().any(|v| self.reticulations.contains(v)))
            .collect();
        let inside = |piece: &[usize]| self.reticulations.iter().filter(|r| piece.contains(r)).count();
        let trials: u32 = with_any.iter().map(|piece| 1 << inside(piece)).sum();
        let mut lines = vec![
            [placed.cost, placed.duplications, placed.transfers, placed.losses, trials],
            [
                whole_cost,
                sheet.n as u32,
                sheet.m as u32,
                self.reticulations.len() as u32,
                with_any.len() as u32,
            ],
        ];
        for (&r, &secondary) in self.reticulations.iter().zip(&placed.setting) {
            let piece = with_any.iter().find(|piece| piece.contains(&r)).expect("a component");
            let tops: Vec<usize> =
                piece.iter().copied().filter(|&t| piece.iter().all(|&v| reaches[t][v])).collect();
            assert_eq!(tops.len(), 1, "a component has one top");
            let taken = if secondary { sheet.secondary[r] } else { sheet.principal[r] };
            lines.push([r as u32, taken, secondary.into(), tops[0] as u32, inside(piece) as u32]);
        }
        for (g, &[place, event, transfers, losses]) in (1..).zip(&placed.genes) {
            lines.push([g, place, event, transfers, losses]);
        }
        let text: String =
            lines.iter().map(|[a, b, c, d, e]| format!("{a:6}{b:6}{c:6}{d:6}{e:6}\n")).collect();
        text.into_bytes()
    }
}

/// Which nodes are reached from which along arcs, each from itself too.
fn closure(n: usize, arcs: &[(usize, usize, bool)]) -> Vec<Vec<bool>> {
    let mut reaches: Vec<Vec<bool>> = (0..=n).map(|v| (0..=n).map(|w| v == w).collect()).collect();
    for &(u, v, _) in arcs {
        reaches[u][v] = true;
    }
    for k in 1..=n {
        let from_k = reaches[k].clone();
        for row in &mut reaches {
            if row[k] {
                row.iter_mut().zip(&from_k).for_each(|(known, &more)| *known |= more);
            }
        }
    }
    reaches
}

/// Which nodes are joined by walks along arcs in either direction.
fn joined(n: usize, arcs: &[(usize, usize, bool)]) -> Vec<Vec<bool>> {
    let both_ways: Vec<_> = arcs.iter().flat_map(|&(u, v, s)| [(u, v, s), (v, u, s)]).collect();
    closure(n, &both_ways)
}
