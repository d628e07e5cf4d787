//! Reading a sheet, with its gene lines or without: refusals 3, 4 and 5.

use super::Refusal;

pub const FIELD: usize = 6;
pub const FIELDS: usize = 5;
pub const LINE: usize = FIELD * FIELDS + 1;
pub const MOST: usize = 127;
pub const MOST_COST: u32 = 99;

/// One entry a node or gene; entry 0 is unused.
pub type Table = [u32; MOST + 1];

/// The numbers of a line.
pub type Numbers = [u32; FIELDS];

/// The numbers of a sheet, as written.
pub struct Sheet {
    pub n: usize,
    pub m: usize,
    pub duplication: u32,
    pub transfer: u32,
    pub loss: u32,
    pub principal: Table,
    pub secondary: Table,
    pub stamp: Table,
    pub species: Table,
    pub gene_parent: Table,
    pub gene_species: Table,
}

struct Header {
    n: usize,
    m: usize,
    /// Of a duplication, a transfer and a loss.
    costs: [u32; 3],
}

/// A gene as its line has it: the parent's number, 0 for gene 1, and the species, 0 for an inner gene.
#[derive(Clone, Copy, Default, PartialEq, Debug)]
pub struct Gene {
    pub parent: u32,
    pub species: u32,
}

impl Sheet {
    /// The sheet of the call that scores a sheet alone.
    pub fn read(text: &[u8]) -> Result<Sheet, Refusal> {
        let header = header(text)?;
        let mut lines = later_lines(text, header.n + header.m)?;
        let mut sheet = Sheet::empty(header);
        sheet.read_nodes(&mut lines)?;
        sheet.read_genes(&mut lines)?;
        Ok(sheet)
    }

    /// The sheet of the call that takes the gene tree as a text of its own: m is 1, and no gene line follows.
    pub fn read_without_genes(text: &[u8]) -> Result<Sheet, Refusal> {
        let header = header(text)?;
        if header.m != 1 {
            return Err(Refusal::Limits);
        }
        let mut lines = later_lines(text, header.n)?;
        let mut sheet = Sheet::empty(header);
        sheet.read_nodes(&mut lines)?;
        Ok(sheet)
    }

    /// The genes read elsewhere, at most 127, in the place of those of gene lines.
    pub fn enter(&mut self, genes: &[Gene]) {
        self.m = genes.len();
        for (g, gene) in (1..).zip(genes) {
            self.gene_parent[g] = gene.parent;
            self.gene_species[g] = gene.species;
        }
    }

    fn empty(header: Header) -> Sheet {
        let Header { n, m, costs: [duplication, transfer, loss] } = header;
        Sheet {
            n,
            m,
            duplication,
            transfer,
            loss,
            principal: [0; MOST + 1],
            secondary: [0; MOST + 1],
            stamp: [0; MOST + 1],
            species: [0; MOST + 1],
            gene_parent: [0; MOST + 1],
            gene_species: [0; MOST + 1],
        }
    }

    fn read_nodes(&mut self, lines: &mut impl Iterator<Item = Option<Numbers>>) -> Result<(), Refusal> {
        for v in 1..=self.n {
            match lines.next().flatten() {
                Some([number, principal, secondary, stamp, species]) if number as usize == v => {
                    self.principal[v] = principal;
                    self.secondary[v] = secondary;
                    self.stamp[v] = stamp;
                    self.species[v] = species;
                }
                _ => return Err(Refusal::Lines),
            }
        }
        Ok(())
    }

    fn read_genes(&mut self, lines: &mut impl Iterator<Item = Option<Numbers>>) -> Result<(), Refusal> {
        for g in 1..=self.m {
            match lines.next().flatten() {
                Some([number, parent, species, 0, 0]) if number as usize == g => {
                    self.gene_parent[g] = parent;
                    self.gene_species[g] = species;
                }
                _ => return Err(Refusal::Lines),
            }
        }
        Ok(())
    }
}

/// Refusals 3 and 4.
fn header(text: &[u8]) -> Result<Header, Refusal> {
    let [n, m, costs @ ..] = text.get(..LINE).and_then(line).ok_or(Refusal::Header)?;
    let counts_fit = [n, m].iter().all(|count| (1..=MOST as u32).contains(count));
    let costs_fit = costs.iter().all(|&cost| cost <= MOST_COST);
    if !counts_fit || !costs_fit {
        return Err(Refusal::Limits);
    }
    Ok(Header { n: n as usize, m: m as usize, costs })
}

/// The lines after the header, where the text has room for just as many.
fn later_lines(text: &[u8], count: usize) -> Result<impl Iterator<Item = Option<Numbers>>, Refusal> {
    if text.len() != LINE * (1 + count) {
        return Err(Refusal::Lines);
    }
    Ok(text[LINE..].chunks_exact(LINE).map(line))
}

/// The five numbers of a line of 31 bytes, unless a field or the line feed is malformed.
fn line(bytes: &[u8]) -> Option<Numbers> {
    if bytes[LINE - 1] != b'\n' {
        return None;
    }
    let mut numbers: Numbers = [0; FIELDS];
    for (number, columns) in numbers.iter_mut().zip(bytes.chunks_exact(FIELD)) {
        *number = field(columns)?;
    }
    Some(numbers)
}

/// The number in six columns: spaces, then digits without leading zeros.
fn field(columns: &[u8]) -> Option<u32> {
    let spaces = columns.iter().take_while(|&&byte| byte == b' ').count();
    let digits = &columns[spaces..];
    if digits.is_empty() || digits.len() > 1 && digits[0] == b'0' {
        return None;
    }
    decimal(digits)
}

/// What at most nine digits come to, unless one of them is no digit.
pub fn decimal(digits: &[u8]) -> Option<u32> {
    digits
        .iter()
        .try_fold(0, |number, byte| byte.is_ascii_digit().then(|| 10 * number + u32::from(byte - b'0')))
}
