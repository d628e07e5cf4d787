//! What a call is given, and the call by either implementation.

use std::fmt;

use crate::families::Family;
use crate::reference::sheet::Sheet;
use crate::reference::{self, Answer, HISTORY_BYTES, RESULT_BYTES, newick};
use crate::{proved, trees};

/// A sheet alone, for its report or with a history behind it, or a sheet without gene lines and the text of its gene tree. Each is an
/// allocation of its own size: a read past the end of a text is a read past its allocation.
#[derive(Clone, PartialEq, Debug)]
pub enum Call {
    Plain(Box<[u8]>),
    Newick { sheet: Box<[u8]>, tree: Box<[u8]> },
    History(Box<[u8]>),
}

impl Call {
    pub fn plain(sheet: impl Into<Vec<u8>>) -> Call {
        Call::Plain(sheet.into().into_boxed_slice())
    }

    pub fn history(sheet: impl Into<Vec<u8>>) -> Call {
        Call::History(sheet.into().into_boxed_slice())
    }

    pub fn newick(sheet: impl Into<Vec<u8>>, tree: impl Into<Vec<u8>>) -> Call {
        Call::Newick { sheet: sheet.into().into_boxed_slice(), tree: tree.into().into_boxed_slice() }
    }

    /// The least result that it takes.
    pub fn least_result(&self) -> usize {
        match self {
            Call::History(_) => HISTORY_BYTES,
            Call::Plain(_) | Call::Newick { .. } => RESULT_BYTES,
        }
    }

    pub fn proved(&self, result: &mut [u8], scratch: &mut [u32]) -> u32 {
        match self {
            Call::Plain(sheet) => proved::score(sheet, result, scratch),
            Call::History(sheet) => proved::score_history(sheet, result, scratch),
            Call::Newick { sheet, tree } => proved::score_newick(sheet, tree, result, scratch),
        }
    }

    pub fn reference(&self, result: &mut [u8], scratch: &mut [u32]) -> Answer {
        match self {
            Call::Plain(sheet) => reference::score(sheet, result, scratch),
            Call::History(sheet) => reference::score_history(sheet, result, scratch),
            Call::Newick { sheet, tree } => reference::score_newick(sheet, tree, result, scratch),
        }
    }

    /// The numbers of the sheet with those of its genes, where sheet and tree can be read; of the network nothing is asked.
    pub fn read(&self) -> Option<Sheet> {
        match self {
            Call::Plain(sheet) | Call::History(sheet) => Sheet::read(sheet).ok(),
            Call::Newick { sheet, tree } => {
                let mut read = Sheet::read_without_genes(sheet).ok()?;
                read.enter(&newick::read(tree).ok()?);
                Some(read)
            }
        }
    }

    /// The plain call whose report this call has to give as well: that on its sheet, a Newick call's with the gene lines written out,
    /// where sheet and tree can be read.
    pub fn as_plain(&self) -> Option<Call> {
        match self {
            Call::Plain(sheet) | Call::History(sheet) => Some(Call::Plain(sheet.clone())),
            Call::Newick { .. } => Some(Family::from(&self.read()?).plain()),
        }
    }
}

impl Family {
    pub fn plain(&self) -> Call {
        Call::plain(self.text())
    }

    pub fn history(&self) -> Call {
        Call::history(self.text())
    }

    pub fn newick(&self) -> Call {
        Call::newick(self.text_without_genes(), trees::text(&self.genes))
    }
}

impl fmt::Display for Call {
    fn fmt(&self, f: &mut fmt::Formatter) -> fmt::Result {
        match self {
            Call::Plain(sheet) => write!(f, "sheet:\n{}", String::from_utf8_lossy(sheet)),
            Call::History(sheet) => write!(f, "with a history, sheet:\n{}", String::from_utf8_lossy(sheet)),
            Call::Newick { sheet, tree } => write!(
                f,
                "tree of {} bytes:\n{}\nsheet:\n{}",
                tree.len(),
                String::from_utf8_lossy(tree),
                String::from_utf8_lossy(sheet)
            ),
        }
    }
}
