//! Gene trees as Newick text, sound and damaged.

use crate::families::Gene;
use crate::random::Random;
use crate::reference::newick::LONGEST;

/// The text of a gene tree whose genes have any numbers, each parent's below its children's.
pub fn text(genes: &[Gene]) -> String {
    Writer::of(genes).text
}

/// The same genes, numbered as they are met in the text from the left.
pub fn in_order_of_text(genes: &[Gene]) -> Vec<Gene> {
    Writer::of(genes).met
}

struct Writer<'a> {
    genes: &'a [Gene],
    /// The children of gene g at g - 1, rising.
    children: Vec<Vec<usize>>,
    text: String,
    met: Vec<Gene>,
}

impl Writer<'_> {
    fn of(genes: &[Gene]) -> Writer<'_> {
        let mut children = vec![vec![]; genes.len()];
        for (child, gene) in (1..).zip(genes).skip(1) {
            children[gene.parent as usize - 1].push(child);
        }
        let mut writer = Writer { genes, children, text: String::new(), met: Vec::new() };
        writer.write(1, 0);
        writer.text.push(';');
        writer
    }

    fn write(&mut self, gene: usize, parent: u32) {
        if let [left, right] = self.children[gene - 1][..] {
            self.met.push(Gene { parent, species: 0 });
            let own = self.met.len() as u32;
            self.text.push('(');
            self.write(left, own);
            self.text.push(',');
            self.write(right, own);
            self.text.push(')');
        } else {
            let species = self.genes[gene - 1].species;
            self.met.push(Gene { parent, species });
            self.text.push_str(&species.to_string());
        }
    }
}

/// The comb whose leaves hang on the right: the first pair of leaves is met after all brackets.
pub fn left_comb(species: &[u32]) -> String {
    let brackets = "(".repeat(species.len() - 1);
    let later: String = species[1..].iter().map(|species| format!(",{species})")).collect();
    format!("{brackets}{}{later};", species[0])
}

/// The comb whose leaves hang on the left: each bracket but the last is followed by a leaf.
pub fn right_comb(species: &[u32]) -> String {
    let (last, earlier) = species.split_last().expect("a leaf");
    let begun: String = earlier.iter().map(|species| format!("({species},")).collect();
    format!("{begun}{last}{};", ")".repeat(earlier.len()))
}

/// The tree each of whose pairs parts its leaves into halves.
pub fn balanced(species: &[u32]) -> String {
    fn tree(species: &[u32]) -> String {
        match species {
            [leaf] => leaf.to_string(),
            _ => {
                let (left, right) = species.split_at(species.len() / 2);
                format!("({},{})", tree(left), tree(right))
            }
        }
    }
    format!("{};", tree(species))
}

/// What each byte of a text is replaced by.
pub const REPLACEMENTS: &[u8] = b"(),;019 \na";

/// All texts with one fault: at each place from the left the byte is deleted, doubled, and replaced by each replacement in turn (one of
/// which may be the byte itself).
pub fn single_faults(text: &[u8]) -> impl Iterator<Item = Vec<u8>> {
    (0..text.len()).flat_map(move |at| {
        let byte = text[at];
        let replaced = REPLACEMENTS.iter().map(move |&other| spliced(text, at, &[other]));
        [spliced(text, at, &[]), spliced(text, at, &[byte, byte])].into_iter().chain(replaced)
    })
}

/// All texts that break off, and those with one byte more at the end.
pub fn cut_off_or_longer(text: &[u8]) -> impl Iterator<Item = Vec<u8>> {
    let longer = REPLACEMENTS.iter().map(move |&byte| [text, &[byte]].concat());
    (0..text.len()).map(move |end| text[..end].to_vec()).chain(longer)
}

/// The text with the byte at a place replaced.
fn spliced(text: &[u8], at: usize, by: &[u8]) -> Vec<u8> {
    [&text[..at], by, &text[at + 1..]].concat()
}

/// A text with one to three bytes deleted, put in, replaced or exchanged, or cut off, or longer.
pub fn damaged(random: &mut Random, mut text: Vec<u8>) -> Vec<u8> {
    for _ in 0..random.within(1, 3) {
        let at = random.below(text.len() + 1);
        let byte = *random.pick(b"(),;0123456789 \n\0\xff");
        match random.below(6) {
            0 => text.insert(at, byte),
            1 => text.extend_from_within(at..),
            _ if at == text.len() => text.push(byte),
            2 => text.truncate(at),
            3 => drop(text.remove(at)),
            4 => text[at] = byte,
            _ => text.swap(at, random.below(at + 1)),
        }
    }
    text
}

/// Bytes of no tree, of any length up to a little over the longest text; half of them are from the bytes that texts have.
pub fn noise(random: &mut Random) -> Vec<u8> {
    let end = *random.pick(&[8, 40, LONGEST + 10]);
    let length = random.below(end);
    let of_texts = random.once_in(2);
    let mut byte = || if of_texts { *random.pick(b"((,,)),;1234567890") } else { random.next() as u8 };
    (0..length).map(|_| byte()).collect()
}
