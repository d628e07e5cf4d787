//! The species network: refusals 6 to 11 and all that scoring asks of it.

use super::Refusal;
use super::sheet::{MOST, Sheet};

const MOST_IN_COMPONENT: usize = 8;

/// Tables are indexed by node number, which fits a byte; 0 is no node.
pub type Nodes = [u8; MOST + 1];

pub struct Component {
    /// The node of the component that is above all others of it.
    pub top: u8,
    /// Its reticulations, rising.
    pub reticulations: Vec<u8>,
}

pub struct Network {
    pub n: usize,
    pub principal: Nodes,
    pub secondary: Nodes,
    /// The targets of a node's principal arcs, then 0.
    pub children: [[u8; 2]; MOST + 1],
    /// The target of a node's secondary arc, or 0.
    pub recipient: Nodes,
    /// All nodes, the source of each arc before its target.
    pub order: Vec<u8>,
    /// The components that have a reticulation, by rising top.
    pub components: Vec<Component>,
}

impl Network {
    pub fn check(sheet: &Sheet) -> Result<Network, Refusal> {
        check_parents(sheet)?;
        check_stamps(sheet)?;
        let mut network = check_shape(sheet)?;
        check_species(sheet, &network)?;
        network.check_children()?;
        network.order = sources_first(sheet);
        network.components = Pieces::of(&network).components();
        if network.components.iter().any(|c| c.reticulations.len() > MOST_IN_COMPONENT) {
            return Err(Refusal::LargeComponent);
        }
        Ok(network)
    }

    pub fn is_leaf(&self, v: usize) -> bool {
        self.children[v][0] == 0 && self.recipient[v] == 0
    }

    /// The component of each reticulation, reticulations rising.
    pub fn reticulations(&self) -> Vec<(u8, &Component)> {
        let mut all: Vec<_> =
            self.components.iter().flat_map(|c| c.reticulations.iter().map(move |&r| (r, c))).collect();
        all.sort_unstable_by_key(|&(r, _)| r);
        all
    }

    /// Refusal 10.
    fn check_children(&self) -> Result<(), Refusal> {
        let is_reticulation = |w: u8| self.secondary[usize::from(w)] != 0;
        for v in 1..=self.n {
            let by_principal = self.children[v].iter().filter(|&&w| w != 0);
            if !self.is_leaf(v) && by_principal.clone().all(|&w| is_reticulation(w)) {
                return Err(Refusal::OnlyReticulationsBelow);
            }
        }
        Ok(())
    }
}

/// Refusal 6.
fn check_parents(sheet: &Sheet) -> Result<(), Refusal> {
    let mut roots = 0;
    for v in 1..=sheet.n {
        let (principal, secondary) = (sheet.principal[v] as usize, sheet.secondary[v] as usize);
        if principal > sheet.n || secondary > sheet.n || principal == v || secondary == v {
            return Err(Refusal::Parents);
        }
        if principal == 0 {
            roots += 1;
            if secondary != 0 {
                return Err(Refusal::Parents);
            }
        }
    }
    if roots == 1 { Ok(()) } else { Err(Refusal::Parents) }
}

/// Refusal 7.
fn check_stamps(sheet: &Sheet) -> Result<(), Refusal> {
    for v in 1..=sheet.n {
        let (principal, secondary) = (sheet.principal[v] as usize, sheet.secondary[v] as usize);
        let above = principal == 0 || sheet.stamp[principal] < sheet.stamp[v];
        let beside = secondary == 0 || sheet.stamp[secondary] == sheet.stamp[v];
        if !above || !beside {
            return Err(Refusal::Stamps);
        }
    }
    Ok(())
}

/// Refusal 8; the arcs out of each node are collected on the way.
fn check_shape(sheet: &Sheet) -> Result<Network, Refusal> {
    let mut principal = [0; MOST + 1];
    let mut secondary = [0; MOST + 1];
    let mut children = [[0; 2]; MOST + 1];
    let mut recipient = [0; MOST + 1];
    let mut principal_arcs = [0u8; MOST + 1];
    let mut secondary_arcs = [0u8; MOST + 1];
    for v in 1..=sheet.n {
        let (p, s) = (sheet.principal[v] as usize, sheet.secondary[v] as usize);
        (principal[v], secondary[v]) = (p as u8, s as u8);
        if p != 0 {
            if let Some(child) = children[p].get_mut(usize::from(principal_arcs[p])) {
                *child = v as u8;
            }
            principal_arcs[p] += 1;
        }
        if s != 0 {
            recipient[s] = v as u8;
            secondary_arcs[s] += 1;
        }
    }
    for v in 1..=sheet.n {
        let sound = match (secondary[v] != 0, principal_arcs[v], secondary_arcs[v]) {
            (true, by_principal, by_secondary) => (by_principal, by_secondary) == (1, 0),
            (false, by_principal, by_secondary) => {
                matches!((by_principal, by_secondary), (0, 0) | (2, 0) | (1, 1))
            }
        };
        if !sound {
            return Err(Refusal::Shape);
        }
    }
    Ok(Network {
        n: sheet.n,
        principal,
        secondary,
        children,
        recipient,
        order: Vec::new(),
        components: Vec::new(),
    })
}

/// Refusal 9.
fn check_species(sheet: &Sheet, network: &Network) -> Result<(), Refusal> {
    let mut named = [0; MOST];
    let mut leaves = 0;
    for v in 1..=sheet.n {
        let species = sheet.species[v];
        if network.is_leaf(v) != (species != 0) {
            return Err(Refusal::Species);
        }
        if species != 0 {
            named[leaves] = species;
            leaves += 1;
        }
    }
    let named = &mut named[..leaves];
    named.sort_unstable();
    if named.windows(2).any(|pair| pair[0] == pair[1]) {
        return Err(Refusal::Species);
    }
    Ok(())
}

/// After 8, a principal arc raises the stamp, and a secondary arc keeps it and enters a reticulation from
/// a node that is none.
fn sources_first(sheet: &Sheet) -> Vec<u8> {
    let mut order: Vec<u8> = (1..=sheet.n as u8).collect();
    order.sort_unstable_by_key(|&v| {
        let v = usize::from(v);
        2 * sheet.stamp[v] + u32::from(sheet.secondary[v] != 0)
    });
    order
}

/// Tarjan's search for cut arcs (bridges) on the network without its directions. Nodes stay on the stack
/// until the piece they belong to is complete.
struct Pieces<'a> {
    network: &'a Network,
    /// When a node was first met, from 1; 0 for not yet.
    met: Nodes,
    /// The earliest node met that is reached without the arc by which the search came.
    low: Nodes,
    clock: u8,
    open: Vec<u8>,
    /// The first node met of each piece; the search enters a piece at its top.
    piece: Nodes,
}

#[derive(Clone, Copy, PartialEq)]
enum Arc {
    Principal(u8),
    Secondary(u8),
}

impl<'a> Pieces<'a> {
    fn of(network: &'a Network) -> Self {
        let zeros = [0; MOST + 1];
        let mut pieces = Pieces {
            network,
            met: zeros,
            low: zeros,
            clock: 0,
            open: Vec::with_capacity(network.n),
            piece: zeros,
        };
        pieces.visit(network.order[0], None);
        pieces
    }

    fn visit(&mut self, v: u8, came_by: Option<Arc>) {
        self.clock += 1;
        let at = usize::from(v);
        (self.met[at], self.low[at]) = (self.clock, self.clock);
        self.open.push(v);
        let network = self.network;
        let [left, right] = network.children[at];
        let incident = [
            (Arc::Principal(v), network.principal[at]),
            (Arc::Secondary(v), network.secondary[at]),
            (Arc::Principal(left), left),
            (Arc::Principal(right), right),
            (Arc::Secondary(network.recipient[at]), network.recipient[at]),
        ];
        for (arc, w) in incident {
            if w == 0 || came_by == Some(arc) {
                continue;
            }
            let other = usize::from(w);
            if self.met[other] == 0 {
                self.visit(w, Some(arc));
                self.low[at] = self.low[at].min(self.low[other]);
            } else {
                self.low[at] = self.low[at].min(self.met[other]);
            }
        }
        if self.low[at] == self.met[at] {
            while let Some(w) = self.open.pop() {
                self.piece[usize::from(w)] = v;
                if w == v {
                    break;
                }
            }
        }
    }

    fn components(&self) -> Vec<Component> {
        let network = self.network;
        let mut top = [0; MOST + 1];
        for &v in network.order.iter().rev() {
            top[usize::from(self.piece[usize::from(v)])] = v;
        }
        let mut components: Vec<Component> = Vec::new();
        for r in (1..=network.n).filter(|&r| network.secondary[r] != 0) {
            let top = top[usize::from(self.piece[r])];
            match components.iter_mut().find(|c| c.top == top) {
                Some(component) => component.reticulations.push(r as u8),
                None => components.push(Component { top, reticulations: vec![r as u8] }),
            }
        }
        components.sort_unstable_by_key(|c| c.top);
        components
    }
}
