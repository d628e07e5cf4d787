//! Sheets that are to be refused: one kind of damage for each refusal number, and damage without aim.

use crate::calls::Call;
use crate::families::{self, Family, GeneShape, Growth, NetworkPlan, push_line};
use crate::random::Random;
use crate::trees;

/// A text damaged so that refusal `number` (3 to 13) may come first. It need not: another may come
/// before it, or the damage may be none.
pub fn aimed(random: &mut Random, number: u32) -> Vec<u8> {
    let mut family = begun(random, number);
    if number > 5 {
        numbers(random, number, &mut family);
        return family.text();
    }
    let text = family.text();
    match number {
        3 => header(random, text),
        4 => limits(random, family.header(), text),
        _ => lines(random, text, family.genes.len()),
    }
}

/// The same of a sheet without gene lines (3 to 11, 13 to 15), with the tree of its family, which is damaged or too large as often as sound,
/// and is so always where the number asks for it.
pub fn aimed_newick(random: &mut Random, number: u32) -> Call {
    let mut family = begun(random, number);
    numbers(random, number, &mut family);
    let text = family.text_without_genes();
    let [n, _, costs @ ..] = family.header();
    let sheet = match number {
        3 => header(random, text),
        4 if random.once_in(2) => genes_counted(random, family.header(), text),
        4 => limits(random, [n, 1, costs[0], costs[1], costs[2]], text),
        5 if random.once_in(4) => genes_left_in(random, &family, text),
        5 => lines(random, text, 0),
        _ => text,
    };
    let sound = trees::text(&family.genes);
    let kind = random.below(4);
    let tree = match (number, kind) {
        (14, _) | (3..=13, 0) => trees::damaged(random, sound.into()),
        (15, _) | (3..=13, 1) => large_tree(random, &family.species()),
        _ => sound.into(),
    };
    Call::newick(sheet, tree)
}

/// A family that damage with a view to a refusal begins with.
fn begun(random: &mut Random, number: u32) -> Family {
    match number {
        10 => grown(random, 8, true),
        11 => grown(random, 16, false),
        _ => families::any(random, 20, 16),
    }
}

/// Numbers of the family damaged with a view to a refusal from 6 on.
fn numbers(random: &mut Random, number: u32, family: &mut Family) {
    match number {
        6 => parents(random, family),
        7 => stamps(random, family),
        8 => shape(random, family),
        9 => species(random, family),
        12 => gene_parents(random, family),
        13 => gene_species(random, family),
        _ => {}
    }
}

/// A tree of 65 leaves and more, or one whose text is too long; some of them break off.
fn large_tree(random: &mut Random, species: &[u32]) -> Vec<u8> {
    let leaves = random.within(64, 150);
    let shape = *random.pick(&[GeneShape::Caterpillar, GeneShape::Balanced, GeneShape::Anyhow]);
    let one_digit = [1, 2, 3];
    let named = if species.is_empty() || random.once_in(2) { &one_digit } else { species };
    let mut tree = trees::text(&families::gene_tree(random, leaves, shape, named)).into_bytes();
    if random.once_in(4) {
        tree.truncate(random.below(tree.len()));
    }
    tree
}

/// A network of many transfers, of 9 and more in a component or with reticulations alone below a node.
fn grown(random: &mut Random, in_component: usize, only_reticulations: bool) -> Family {
    let transfers = random.within(1, 24);
    let plan = NetworkPlan {
        speciations: random.within(transfers, 36),
        transfers,
        in_component,
        dense: random.once_in(2),
        only_reticulations,
        growth: Growth::Anywhere,
        stamp_gap: 2,
        shuffled: true,
    };
    let nodes = families::network(random, plan);
    let genes = families::any_genes(random, &nodes, 8);
    Family { costs: [2, 3, 1], nodes, genes }
}

const BAD_BYTES: &[u8] = b"\t\r\n+-.,/:;aZ 0\0\x7f\xff";

fn header(random: &mut Random, mut text: Vec<u8>) -> Vec<u8> {
    match random.below(3) {
        0 => text.truncate(random.below(31)),
        1 => text[30] = *random.pick(b" 0\r\0"),
        _ => text[random.below(30)] = *random.pick(BAD_BYTES),
    }
    text
}

fn limits(random: &mut Random, mut numbers: [u32; 5], text: Vec<u8>) -> Vec<u8> {
    let which = random.below(5);
    numbers[which] = *random.pick(if which < 2 {
        &[0, 128, 129, 255, 256, 999_999]
    } else {
        &[100, 101, 128, 256, 999_999]
    });
    with_header(numbers, &text)
}

/// The header counts genes, where the tree is to count them.
fn genes_counted(random: &mut Random, mut numbers: [u32; 5], text: Vec<u8>) -> Vec<u8> {
    numbers[1] = *random.pick(&[numbers[1], 0, 2, 3, 127, 128, 257, 999_999]);
    with_header(numbers, &text)
}

fn with_header(numbers: [u32; 5], text: &[u8]) -> Vec<u8> {
    let mut header = Vec::new();
    push_line(&mut header, numbers);
    [&header, &text[31..]].concat()
}

/// Some gene lines of the family behind its network lines, one where the header's m would count it.
fn genes_left_in(random: &mut Random, family: &Family, text: Vec<u8>) -> Vec<u8> {
    let whole = family.text();
    let genes = *random.pick(&[1, 1, family.genes.len()]);
    [&text, &whole[text.len()..][..31 * genes]].concat()
}

fn lines(random: &mut Random, mut text: Vec<u8>, genes: usize) -> Vec<u8> {
    let later = text.len() / 31 - 1;
    let start = 31 * random.within(1, later);
    match random.below(8) {
        0 => text.truncate(text.len() - random.within(1, 62).min(text.len() - 31)),
        1 => (0..random.within(1, 62)).for_each(|_| text.push(*random.pick(b"\n 01"))),
        2 => text[start + random.below(30)] = *random.pick(BAD_BYTES),
        3 => text[start + 30] = *random.pick(b" 0\r\0"),
        4 => text[start + 5] = b'0' + random.below(10) as u8,
        5 if genes > 0 => {
            // A gene line's fourth or fifth field.
            let gene = 31 * (1 + later - genes + random.below(genes));
            text[gene + *random.pick(&[23, 29])] = b'1' + random.below(9) as u8;
        }
        6 => {
            // A number filled with zeros, or none at all.
            let field = start + 6 * random.below(5);
            let filling = *random.pick(b"0 ");
            text[field..field + 6].iter_mut().for_each(|byte| {
                if *byte == b' ' {
                    *byte = filling
                }
            });
            if filling == b' ' {
                text[field..field + 6].fill(b' ');
            }
        }
        _ => {
            // Two lines change places.
            let other = 31 * random.within(1, later);
            for i in 0..31 {
                text.swap(start + i, other + i);
            }
        }
    }
    text
}

fn parents(random: &mut Random, family: &mut Family) {
    let n = family.nodes.len() as u32;
    let i = random.below(family.nodes.len());
    let root = family.nodes.iter().position(|node| node.principal == 0).expect("a root");
    let far = *random.pick(&[n + 1, 128, 256, 257, 999_999]);
    let someone = random.within(1, family.nodes.len()) as u32;
    match random.below(7) {
        0 => family.nodes[i].principal = far,
        1 => family.nodes[i].secondary = far,
        2 => family.nodes[i].principal = i as u32 + 1,
        3 => family.nodes[i].secondary = i as u32 + 1,
        4 => family.nodes[i].principal = 0,
        5 => family.nodes[root].principal = someone,
        _ => family.nodes[root].secondary = someone,
    }
}

fn stamps(random: &mut Random, family: &mut Family) {
    let i = random.below(family.nodes.len());
    let stamp = family.nodes[i].stamp;
    family.nodes[i].stamp = *random.pick(&[0, stamp + 1, stamp.saturating_sub(1), stamp + 9, 999_999]);
    if random.once_in(4) {
        family.nodes[i].secondary = family.nodes[i].principal;
    }
}

fn shape(random: &mut Random, family: &mut Family) {
    let i = random.below(family.nodes.len());
    let stamp = family.nodes[i].stamp;
    let number = |j: usize| j as u32 + 1;
    let beside: Vec<u32> =
        (0..family.nodes.len()).filter(|&j| j != i && family.nodes[j].stamp == stamp).map(number).collect();
    let above: Vec<u32> =
        (0..family.nodes.len()).filter(|&j| family.nodes[j].stamp < stamp).map(number).collect();
    let node = &mut family.nodes[i];
    match random.below(3) {
        0 => node.secondary = 0,
        1 if !beside.is_empty() && node.principal != 0 => node.secondary = *random.pick(&beside),
        _ if !above.is_empty() && node.principal != 0 => node.principal = *random.pick(&above),
        _ => {}
    }
}

fn species(random: &mut Random, family: &mut Family) {
    let named = family.species();
    let i = random.below(family.nodes.len());
    let known = *random.pick(&named);
    family.nodes[i].species = *random.pick(&[0, 1, 999_999, known]);
}

fn gene_parents(random: &mut Random, family: &mut Family) {
    let m = family.genes.len();
    let i = random.below(m);
    let someone = random.within(0, m + 1) as u32;
    family.genes[i].parent = *random.pick(&[0, i as u32 + 1, someone, 128, 256, 999_999]);
}

fn gene_species(random: &mut Random, family: &mut Family) {
    let named = family.species();
    let i = random.below(family.genes.len());
    let known = *random.pick(&named);
    family.genes[i].species = *random.pick(&[0, 1, 7, 999_999, known]);
}

/// A text of a family with a few fields or bytes changed at random.
pub fn aimless(random: &mut Random) -> Vec<u8> {
    let mut text = families::any(random, 24, 16).text();
    for _ in 0..random.within(1, 3) {
        if random.once_in(2) {
            let i = random.below(text.len());
            text[i] = if random.once_in(2) { random.next() as u8 } else { *random.pick(b" 0123456789\n") };
        } else {
            let field = 31 * random.below(text.len() / 31) + 6 * random.below(5);
            let end = *random.pick(&[4, 30, 128, 1_000_000]);
            let number = random.below(end);
            text[field..field + 6].copy_from_slice(format!("{number:6}").as_bytes());
        }
    }
    text
}

/// Bytes that no family gave, of any length up to a little over the longest sheet; half of them are from
/// the bytes that sheets have, and some begin with a header.
pub fn noise(random: &mut Random) -> Vec<u8> {
    let length = if random.once_in(3) { random.below(100) } else { random.below(8_000) };
    let sheet_bytes = random.once_in(2);
    let mut text: Vec<u8> = (0..length)
        .map(|_| if sheet_bytes { *random.pick(b"    01239\n") } else { random.next() as u8 })
        .collect();
    if length >= 31 && random.once_in(2) {
        let mut header = Vec::new();
        push_line(&mut header, [random.within(0, 130) as u32, random.within(0, 130) as u32, 2, 3, 1]);
        text[..31].copy_from_slice(&header);
    }
    text
}
