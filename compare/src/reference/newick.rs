//! Reading a gene tree from Newick text: refusals 14 and 15. One pass over the bytes with a stack of the pairs whose bracket has not closed.

use super::Refusal;
use super::sheet::{Gene, MOST, decimal};

/// The longest text of a tree of at most 127 genes: 64 leaves of six digits, 63 pairs of three bytes, the semicolon.
pub const LONGEST: usize = 574;

/// A leaf's species number has at most so many digits.
const MOST_DIGITS: usize = 6;

/// A pair whose bracket has not closed.
struct Open {
    gene: u32,
    comma_met: bool,
}

/// What has to come next.
#[derive(Clone, Copy)]
enum Due {
    Tree,
    /// What stands after a tree: the comma or the bracket of its pair, or the end.
    Mark,
}

/// The genes of a text, gene 1 first.
pub fn read(text: &[u8]) -> Result<Vec<Gene>, Refusal> {
    if text.len() > LONGEST {
        return Err(Refusal::TreeSize);
    }
    let genes = genes(text).ok_or(Refusal::TreeForm)?;
    if genes.len() > MOST { Err(Refusal::TreeSize) } else { Ok(genes) }
}

/// Genes are entered as they are met: a pair at its bracket, so before its members.
fn genes(text: &[u8]) -> Option<Vec<Gene>> {
    let mut genes: Vec<Gene> = Vec::with_capacity(MOST);
    let mut open: Vec<Open> = Vec::with_capacity(MOST);
    let mut due = Due::Tree;
    let mut rest = text;
    loop {
        let parent = open.last().map_or(0, |pair| pair.gene);
        (due, rest) = match (due, rest) {
            (Due::Tree, [b'(', after @ ..]) => {
                genes.push(Gene { parent, species: 0 });
                open.push(Open { gene: genes.len() as u32, comma_met: false });
                (Due::Tree, after)
            }
            (Due::Tree, _) => {
                let (species, after) = leaf(rest)?;
                genes.push(Gene { parent, species });
                (Due::Mark, after)
            }
            (Due::Mark, [b',', after @ ..]) => {
                let pair = open.last_mut().filter(|pair| !pair.comma_met)?;
                pair.comma_met = true;
                (Due::Tree, after)
            }
            (Due::Mark, [b')', after @ ..]) => {
                open.pop().filter(|pair| pair.comma_met)?;
                (Due::Mark, after)
            }
            (Due::Mark, [b';']) if open.is_empty() => return Some(genes),
            _ => return None,
        }
    }
}

/// The species number that a text begins with, and the text after it.
fn leaf(text: &[u8]) -> Option<(u32, &[u8])> {
    let digits = text.iter().take_while(|byte| byte.is_ascii_digit()).count();
    let (number, after) = text.split_at(digits);
    let sound = digits <= MOST_DIGITS && number.first().is_some_and(|&first| first != b'0');
    sound.then(|| decimal(number))?.map(|species| (species, after))
}
