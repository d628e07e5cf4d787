//! What a run has met.

use crate::calls::Call;
use crate::histories::Listed;
use crate::reference::Refusal;
use crate::replay::Replayed;

/// The greatest refusal number.
const MOST: usize = Refusal::TreeSize as usize;

/// Of one call: how many there were, and what they came to.
#[derive(Default)]
pub struct Counts {
    pub calls: u64,
    pub reports: u64,
    /// Indexed by refusal number.
    pub refusals: [u64; MOST + 1],
}

/// Of the histories that were written: those replayed, and those of families whose histories were all listed.
#[derive(Default)]
pub struct Histories {
    pub replayed: u64,
    pub lines: u64,
    pub most_lines: usize,
    /// How many lines have each event code.
    pub codes: [u64; 7],
    /// Families whose histories were listed, and how many histories that were.
    pub listed: u64,
    pub in_lists: u64,
    /// Families of which more than one history is cheapest.
    pub tied: u64,
}

#[derive(Default)]
pub struct Tally {
    /// The call that takes a sheet alone.
    pub plain: Counts,
    /// The call that takes the gene tree as text.
    pub newick: Counts,
    /// Calls of the latter that were compared with the former on the sheet with the gene lines written out.
    pub written_out: u64,
    /// The call that writes a history behind the report.
    pub history: Counts,
    pub histories: Histories,
    /// Reports that have a reticulation on its secondary parent.
    pub secondary: u64,
    pub most_trials: u64,
    pub enumerated: u64,
    pub settings_enumerated: u64,
    pub mismatches: u64,
    pub cut_short: bool,
}

impl Counts {
    pub fn add(&mut self, answer: u32) {
        self.calls += 1;
        match self.refusals.get_mut(answer as usize) {
            Some(refusals) => *refusals += 1,
            None => self.reports += 1,
        }
    }

    /// Which of the refusals that the call has were not met.
    fn unmet(&self, numbers: impl IntoIterator<Item = usize>) -> Vec<usize> {
        numbers.into_iter().filter(|&number| self.refusals[number] == 0).collect()
    }
}

impl Histories {
    pub fn add(&mut self, replayed: &Replayed) {
        self.replayed += 1;
        self.lines += replayed.lines as u64;
        self.most_lines = self.most_lines.max(replayed.lines);
        self.codes.iter_mut().zip(replayed.codes).for_each(|(all, more)| *all += more);
    }

    pub fn add_listed(&mut self, listed: &Listed) {
        self.listed += 1;
        self.in_lists += listed.histories;
        self.tied += u64::from(listed.cheapest > 1);
    }

    /// The event codes that no line had.
    fn unmet(&self) -> Vec<usize> {
        (0..7).filter(|&code| self.codes[code] == 0).collect()
    }
}

impl Tally {
    /// Whether nothing differed, every refusal was met, and every event code.
    pub fn sound(&self) -> bool {
        self.mismatches == 0 && self.unmet().iter().all(Vec::is_empty) && self.histories.unmet().is_empty()
    }

    /// Of each call. A tree from a text has nothing that 12 would refuse.
    fn unmet(&self) -> [Vec<usize>; 3] {
        let of_newick = (1..=MOST).filter(|&number| number != 12);
        [self.plain.unmet(1..=13), self.newick.unmet(of_newick), self.history.unmet(1..=13)]
    }

    pub fn counts(&mut self, call: &Call) -> &mut Counts {
        match call {
            Call::Plain(_) => &mut self.plain,
            Call::History(_) => &mut self.history,
            Call::Newick { .. } => &mut self.newick,
        }
    }

    fn all(&self) -> [&Counts; 3] {
        [&self.plain, &self.newick, &self.history]
    }

    /// All calls compared.
    pub fn calls(&self) -> u64 {
        self.all().map(|counts| counts.calls).iter().sum()
    }

    pub fn reports(&self) -> u64 {
        self.all().map(|counts| counts.reports).iter().sum()
    }

    pub fn print(&self) {
        let line = |name: &str, count: &dyn Fn(&Counts) -> u64| {
            let [plain, newick, history] = self.all().map(count);
            println!("{name:<11} {plain:>9} {newick:>9} {history:>9}");
        };
        println!("{:<11} {:>9} {:>9} {:>9}", "", "sheet", "Newick", "history");
        line("calls", &|counts| counts.calls);
        line("scored", &|counts| counts.reports);
        for number in 1..=MOST {
            line(&format!("refused {number:>2}"), &|counts| counts.refusals[number]);
        }
        println!("with a secondary parent taken {}, at most {} trials", self.secondary, self.most_trials);
        println!("enumerated {}, {} settings", self.enumerated, self.settings_enumerated);
        println!("Newick compared with the sheet written out {}", self.written_out);
        self.histories.print();
        let unmet = self.unmet();
        if unmet.iter().any(|numbers| !numbers.is_empty()) {
            println!("refusals not met: {unmet:?}");
        }
        if self.cut_short {
            println!("the clock cut the run short");
        }
        println!("mismatches {}", self.mismatches);
    }
}

impl Histories {
    fn print(&self) {
        let Histories { replayed, lines, most_lines, codes, listed, in_lists, tied } = self;
        println!(
            "histories replayed {replayed}, {lines} lines, at most {most_lines}; by event code {codes:?}"
        );
        println!("families whose {in_lists} histories were all listed {listed}, several cheapest {tied}");
        let unmet = self.unmet();
        if !unmet.is_empty() {
            println!("event codes not met: {unmet:?}");
        }
    }
}
