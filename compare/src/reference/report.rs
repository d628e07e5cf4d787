//! The report's lines.

use super::genes::GeneTree;
use super::network::Network;
use super::search::Outcome;
use super::sheet::{FIELD, FIELDS, LINE};

/// Writes the report at the start of `result`; gives the bytes written.
pub fn write(
    network: &Network,
    genes: &GeneTree,
    outcome: &Outcome,
    whole_cost: u32,
    result: &mut [u8],
) -> usize {
    let length = result.len();
    let reticulations = network.reticulations();
    let counts = &outcome.counts;
    let mut rest =
        line(result, [counts.cost, counts.duplications, counts.transfers, counts.losses, outcome.trials]);
    rest = line(
        rest,
        [
            whole_cost,
            network.n as u32,
            genes.m as u32,
            reticulations.len() as u32,
            network.components.len() as u32,
        ],
    );
    for (r, component) in reticulations {
        let v = usize::from(r);
        let secondary = outcome.secondary[v];
        let taken = if secondary { network.secondary[v] } else { network.principal[v] };
        rest = line(
            rest,
            [
                r.into(),
                taken.into(),
                secondary.into(),
                component.top.into(),
                component.reticulations.len() as u32,
            ],
        );
    }
    for (g, gene) in (1..).zip(&outcome.genes) {
        rest = line(rest, [g, gene.place.into(), gene.event as u32, gene.transfers, gene.losses]);
    }
    length - rest.len()
}

/// Writes one line into what is left of the result, and gives what is left after it.
pub(super) fn line(rest: &mut [u8], numbers: [u32; FIELDS]) -> &mut [u8] {
    let (line, rest) = rest.split_at_mut(LINE);
    for (columns, number) in line.chunks_exact_mut(FIELD).zip(numbers) {
        field(columns, number);
    }
    line[LINE - 1] = b'\n';
    rest
}

fn field(columns: &mut [u8], mut number: u32) {
    debug_assert!(number < 1_000_000);
    columns.fill(b' ');
    for column in columns.iter_mut().rev() {
        *column = b'0' + (number % 10) as u8;
        number /= 10;
        if number == 0 {
            break;
        }
    }
}
