//! An implementation of the rules in ordinary Rust, written from the papers and not from the proved code.

pub mod genes;
pub mod history;
pub mod network;
pub mod newick;
pub mod report;
pub mod search;
pub mod sheet;
pub mod whole;

use genes::GeneTree;
use network::Network;
use sheet::Sheet;

/// The least scratch, in words of 32 bits, and the least result, in bytes, that a caller may lend.
pub const SCRATCH_WORDS: usize = 16_129;
pub const RESULT_BYTES: usize = 5_952;

/// The least result of the call that writes a history behind the report.
pub const HISTORY_BYTES: usize = 600_000;

/// Why a sheet is refused; the value is the paper's number.
#[derive(Clone, Copy, PartialEq, Eq, Debug)]
#[repr(u32)]
pub enum Refusal {
    ShortScratch = 1,
    ShortResult = 2,
    Header = 3,
    Limits = 4,
    Lines = 5,
    Parents = 6,
    Stamps = 7,
    Shape = 8,
    Species = 9,
    OnlyReticulationsBelow = 10,
    LargeComponent = 11,
    GeneTree = 12,
    GeneSpecies = 13,
    TreeForm = 14,
    TreeSize = 15,
}

#[derive(Clone, Copy, PartialEq, Eq, Debug)]
pub enum Answer {
    /// The bytes written to the result.
    Report(usize),
    Refused(Refusal),
}

impl Answer {
    /// The number the paper gives: bytes written, or the refusal. A report has at least 93 bytes.
    pub fn number(self) -> u32 {
        match self {
            Answer::Report(bytes) => bytes as u32,
            Answer::Refused(refusal) => refusal as u32,
        }
    }
}

/// Scores one family sheet. On a refusal neither `result` nor `scratch` is touched.
pub fn score(text: &[u8], result: &mut [u8], scratch: &mut [u32]) -> Answer {
    match lent(result, RESULT_BYTES, scratch).and_then(|()| judge(text)) {
        Err(refusal) => Answer::Refused(refusal),
        Ok(judged) => Answer::Report(write(&judged, result, scratch)),
    }
}

/// Scores one family sheet and writes a cheapest history behind the report. On a refusal neither `result` nor
/// `scratch` is touched.
pub fn score_history(text: &[u8], result: &mut [u8], scratch: &mut [u32]) -> Answer {
    match lent(result, HISTORY_BYTES, scratch).and_then(|()| judge(text)) {
        Err(refusal) => Answer::Refused(refusal),
        Ok(judged) => {
            let report = write(&judged, result, scratch);
            Answer::Report(report + history::write(&judged, scratch, &mut result[report..]))
        }
    }
}

/// Scores a sheet without gene lines with the gene tree of a Newick text. On a refusal neither `result` nor
/// `scratch` is touched.
pub fn score_newick(text: &[u8], tree: &[u8], result: &mut [u8], scratch: &mut [u32]) -> Answer {
    match lent(result, RESULT_BYTES, scratch).and_then(|()| judge_newick(text, tree)) {
        Err(refusal) => Answer::Refused(refusal),
        Ok(judged) => Answer::Report(write(&judged, result, scratch)),
    }
}

/// All that scoring needs of a family to which no refusal applies.
pub type Judged = (Sheet, Network, GeneTree);

/// Refusals 1 and 2, the latter where the result is under so many bytes.
fn lent(result: &[u8], least: usize, scratch: &[u32]) -> Result<(), Refusal> {
    if scratch.len() < SCRATCH_WORDS {
        return Err(Refusal::ShortScratch);
    }
    if result.len() < least {
        return Err(Refusal::ShortResult);
    }
    Ok(())
}

/// The search, the whole-network table and the report; gives the bytes of the report.
fn write((sheet, network, genes): &Judged, result: &mut [u8], scratch: &mut [u32]) -> usize {
    let outcome = search::run(sheet, network, genes);
    let whole_cost = whole::fill(sheet, network, genes, scratch);
    report::write(network, genes, &outcome, whole_cost, result)
}

/// Refusals 3 to 13 in their order, or all that scoring needs.
pub fn judge(text: &[u8]) -> Result<Judged, Refusal> {
    let sheet = Sheet::read(text)?;
    let network = Network::check(&sheet)?;
    let genes = GeneTree::check(&sheet, &network)?;
    Ok((sheet, network, genes))
}

/// Refusals 3 to 11, then 14, 15 and 13, or all that scoring needs. The tree of a text never gives 12.
pub fn judge_newick(text: &[u8], tree: &[u8]) -> Result<Judged, Refusal> {
    let mut sheet = Sheet::read_without_genes(text)?;
    let network = Network::check(&sheet)?;
    sheet.enter(&newick::read(tree)?);
    let genes = GeneTree::check(&sheet, &network)?;
    Ok((sheet, network, genes))
}
