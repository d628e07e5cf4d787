//! The proved entries against the reference implementation, and both against the enumeration of all
//! settings, on many sheets and trees.

use std::time::{Duration, Instant};

use crate::calls::Call;
use crate::comparing::{Comparison, Enumerate, Lengths};
use crate::families::{self, Family, Growth};
use crate::random::Random;
use crate::reference::{HISTORY_BYTES, RESULT_BYTES, SCRATCH_WORDS};
use crate::tally::Tally;
use crate::worked::Worked;
use crate::{damage, extremes, limits, trees};

/// How many sheets of each kind, how long at most, and from which seed.
#[derive(Clone, Copy)]
pub struct Bounds {
    pub seed: u64,
    /// Percent of the usual number of sheets.
    pub percent: u64,
    pub seconds: u64,
}

struct Run {
    comparison: Comparison,
    bounds: Bounds,
    /// Generators of sheets that were given out.
    seeds: u64,
    end: Instant,
}

pub fn run(bounds: Bounds) -> Tally {
    let mut run = Run {
        comparison: Comparison::new(&mut Random::new(!bounds.seed)),
        bounds,
        seeds: 0,
        end: Instant::now() + Duration::from_secs(bounds.seconds),
    };
    run.plain_families();
    run.plain_damage();
    run.newick_families();
    run.newick_damage();
    run.newick_faults();
    run.histories();
    run.histories_damage();
    run.extremes();
    run.buffer_lengths();
    run.comparison.tally
}

impl Run {
    fn plain_families(&mut self) {
        use Enumerate::{No, Yes};
        self.kind("small families, enumerated", 32_000, Yes, |random| families::any(random, 9, 8).plain());
        self.kind("middling families, enumerated", 1_500, Yes, |random| {
            families::any(random, 18, 14).plain()
        });
        self.kind("many reticulations, enumerated", 300, Yes, |random| {
            families::dense(random, 8, 10).plain()
        });
        self.kind("families of all sizes", 20_000, No, |random| families::any(random, 63, 64).plain());
        self.kind("largest families, 896 trials", 300, No, |random| largest(random, 31, 31).plain());
        self.kind("largest families, fewer trials", 1_500, No, |random| largest(random, 0, 12).plain());
    }

    fn plain_damage(&mut self) {
        for number in 3..=13 {
            let name = format!("damaged with a view to {number}");
            self.kind(&name, 4_000, Enumerate::No, |random| Call::plain(damage::aimed(random, number)));
        }
        self.kind("damaged at random", 40_000, Enumerate::No, |random| Call::plain(damage::aimless(random)));
        self.kind("random bytes", 20_000, Enumerate::No, |random| Call::plain(damage::noise(random)));
    }

    fn newick_families(&mut self) {
        use Enumerate::{No, Yes};
        self.kind("Newick: small, enumerated", 8_000, Yes, |random| families::any(random, 9, 8).newick());
        self.kind("Newick: of all sizes", 5_000, No, |random| families::any(random, 63, 64).newick());
        self.kind("Newick: largest, 896 trials", 30, No, |random| largest(random, 31, 31).newick());
        self.kind("Newick: largest, fewer trials", 500, No, |random| largest(random, 0, 12).newick());
    }

    fn newick_damage(&mut self) {
        for number in (3..=15).filter(|&number| number != 12) {
            let name = format!("Newick: with a view to {number}");
            self.kind(&name, 1_000, Enumerate::No, |random| damage::aimed_newick(random, number));
        }
        self.kind("Newick: damaged at random", 10_000, Enumerate::No, |random| {
            let family = families::any(random, 9, 30);
            let tree = trees::damaged(random, trees::text(&family.genes).into());
            Call::newick(family.text_without_genes(), tree)
        });
        self.kind("Newick: random bytes", 5_000, Enumerate::No, |random| {
            Call::newick(families::any(random, 9, 1).text_without_genes(), trees::noise(random))
        });
    }

    /// Every single fault of small trees and of two of the longest text, and the trees at the limits of the text.
    fn newick_faults(&mut self) {
        let limits = limits::cases();
        let long = |case: &&Worked| ["bytes-574", "leaves-64-left-comb"].contains(&case.name.as_str());
        let longest: Vec<Call> = limits.iter().filter(long).map(|case| case.call.clone()).collect();
        let random = &mut self.random();
        let small = (0..self.share(60)).map(|_| families::any(random, 9, 6).newick());
        self.least("Newick: faults of small trees", small.flat_map(|call| faults(&call)));
        self.least("Newick: faults of long trees", longest.iter().flat_map(faults));
        self.least("Newick: limits of the text", limits.into_iter().map(|case| case.call));
    }

    fn histories(&mut self) {
        use Enumerate::{No, Yes};
        self.kind("history: small, listed", 12_000, Yes, |random| families::any(random, 7, 5).history());
        self.kind("history: many ties, listed", 6_000, Yes, |random| families::tying(random, 7, 4).history());
        self.kind("history: middling, listed if few", 2_000, Yes, |random| {
            families::tying(random, 14, 10).history()
        });
        self.kind("history: of all sizes", 8_000, No, |random| families::any(random, 63, 64).history());
        self.kind("history: many ties", 3_000, No, |random| families::tying(random, 63, 64).history());
        self.kind("history: largest, 896 trials", 30, No, |random| largest(random, 31, 31).history());
        self.kind("history: largest, fewer trials", 1_000, No, |random| largest(random, 0, 12).history());
        self.least("history: the longest", [extremes::longest_history().history()]);
    }

    fn histories_damage(&mut self) {
        for number in 3..=13 {
            let name = format!("history: with a view to {number}");
            self.kind(&name, 1_000, Enumerate::No, |random| Call::history(damage::aimed(random, number)));
        }
        let no = Enumerate::No;
        self.kind("history: damaged at random", 5_000, no, |random| Call::history(damage::aimless(random)));
        self.kind("history: random bytes", 2_000, no, |random| Call::history(damage::noise(random)));
    }

    /// The sheet of the greatest cost, and valid sheets with bytes after them, up to and past the longest.
    fn extremes(&mut self) {
        let costliest = extremes::costliest();
        let calls = [costliest.plain(), costliest.newick(), costliest.history()];
        self.each("the costliest family, enumerated", calls, Enumerate::Yes, Lengths::least);
        let random = &mut self.random();
        let sheets = [Growth::Deep, Growth::Wide].map(|growth| families::largest(random, 8, growth));
        self.least("longer than the longest", sheets.iter().flat_map(longer));
    }

    /// Every pair of lengths around the limits, and some far below, on what is sound and on what is not.
    fn buffer_lengths(&mut self) {
        let random = &mut self.random();
        let small = families::any(random, 9, 8);
        let sheet = small.text_without_genes();
        let calls = [
            small.plain(),
            largest(random, 2, 2).plain(),
            Call::plain(damage::noise(random)),
            Call::plain(damage::aimed(random, 9)),
            Call::plain([]),
            small.newick(),
            Call::newick(sheet.clone(), "(1,2)"),
            Call::newick(sheet, "1".repeat(575)),
            Call::newick([], []),
        ];
        self.all_lengths("all lengths around the limits", calls.into(), around(RESULT_BYTES));
        let calls = vec![small.history(), largest(random, 2, 2).history(), Call::history([])];
        let far_below = [RESULT_BYTES - 1, RESULT_BYTES, RESULT_BYTES + 1].into_iter();
        let results = around(HISTORY_BYTES).chain(far_below);
        self.all_lengths("history: lengths around the limits", calls, results);
    }

    fn all_lengths(&mut self, name: &str, calls: Vec<Call>, results: impl Iterator<Item = usize>) {
        let pairs: Vec<Lengths> = results
            .flat_map(|result| around(SCRATCH_WORDS).map(move |scratch| Lengths { result, scratch }))
            .collect();
        let mut lengths = pairs.iter().copied().cycle();
        let repeated = calls.into_iter().flat_map(|call| vec![call; pairs.len()]);
        self.each(name, repeated, Enumerate::No, |_| lengths.next().expect("lengths without end"));
    }

    fn random(&mut self) -> Random {
        self.seeds += 1;
        Random::new(self.bounds.seed.wrapping_add(self.seeds))
    }

    /// How many there are of what there usually is so much of.
    fn share(&self, usual: u64) -> u64 {
        (usual * self.bounds.percent / 100).max(1)
    }

    fn kind(&mut self, name: &str, usual: u64, enumerate: Enumerate, make: impl Fn(&mut Random) -> Call) {
        let (random, lengths) = (&mut self.random(), &mut self.random());
        let calls = (0..self.share(usual)).map(|_| make(random));
        self.each(name, calls, enumerate, |call| Lengths::ample(call, lengths));
    }

    /// With the least buffers.
    fn least(&mut self, name: &str, calls: impl IntoIterator<Item = Call>) {
        self.each(name, calls, Enumerate::No, Lengths::least);
    }

    /// Compares all calls of a kind, as far as the clock allows.
    fn each(
        &mut self,
        name: &str,
        calls: impl IntoIterator<Item = Call>,
        enumerate: Enumerate,
        mut lengths: impl FnMut(&Call) -> Lengths,
    ) {
        let counts =
            |tally: &Tally| [tally.calls(), tally.reports(), tally.enumerated + tally.histories.listed];
        let before = counts(&self.comparison.tally);
        let mut note = "";
        for call in calls {
            if Instant::now() >= self.end {
                self.comparison.tally.cut_short = true;
                note = "  (cut short by the clock)";
                break;
            }
            self.comparison.compare(&call, lengths(&call), enumerate);
        }
        let after = counts(&self.comparison.tally);
        let [done, scored, enumerated] = [0, 1, 2].map(|i| after[i] - before[i]);
        println!("  {name:<34} {done:>7} calls {scored:>7} scored {enumerated:>7} enumerated{note}");
    }
}

/// Lengths around a limit, and some far below.
fn around(limit: usize) -> impl Iterator<Item = usize> {
    (limit - 8..=limit + 8).chain([0, 1, 92, 93, limit / 2])
}

/// A family of the largest size with so many transfers.
fn largest(random: &mut Random, least: usize, most: usize) -> Family {
    let growth = *random.pick(&[Growth::Deep, Growth::Wide, Growth::Anywhere]);
    let transfers = random.within(least, most);
    families::largest(random, transfers, growth)
}

/// Newick calls with every single fault of the tree of one.
fn faults(call: &Call) -> Vec<Call> {
    let Call::Newick { sheet, tree } = call else {
        return vec![];
    };
    let damaged = trees::single_faults(tree).chain(trees::cut_off_or_longer(tree));
    damaged.map(|tree| Call::newick(&sheet[..], tree)).collect()
}

/// The calls of a family, and those of its texts with some bytes behind them and with very many.
fn longer(family: &Family) -> Vec<Call> {
    let (whole, without_genes) = (family.text(), family.text_without_genes());
    let tree = trees::text(&family.genes);
    let behind = ["", "\n", "\n\n", &" ".repeat(100_000)];
    let calls = behind.iter().flat_map(|behind| {
        let with = |text: &[u8]| [text, behind.as_bytes()].concat();
        [
            Call::plain(with(&whole)),
            Call::newick(with(&without_genes), tree.as_bytes()),
            Call::newick(without_genes.as_slice(), with(tree.as_bytes())),
        ]
    });
    calls.collect()
}
