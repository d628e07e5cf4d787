//! One call by both implementations: answers, results, scratches, untouched rests and guards.

use crate::calls::Call;
use crate::families::Family;
use crate::random::Random;
use crate::reference::sheet::Sheet;
use crate::reference::{HISTORY_BYTES, RESULT_BYTES, Refusal, SCRATCH_WORDS};
use crate::tally::Tally;
use crate::{enumeration, histories, replay};

/// Bytes or words before and after what is lent, which no call may touch.
const GUARD: usize = 64;
/// The most bytes and words lent, past what is needed.
pub const SPARE: usize = 300;
/// Mismatches printed in full; all are counted.
const SHOWN: u64 = 5;
/// The shortest report, in bytes.
const REPORT: u32 = 93;

/// How much is lent: bytes of result, words of scratch.
#[derive(Clone, Copy)]
pub struct Lengths {
    pub result: usize,
    pub scratch: usize,
}

impl Lengths {
    /// What the calls that write a report alone need.
    pub const LEAST: Lengths = Lengths { result: RESULT_BYTES, scratch: SCRATCH_WORDS };

    /// What a call needs.
    pub fn least(call: &Call) -> Lengths {
        Lengths { result: call.least_result(), ..Lengths::LEAST }
    }

    /// What a call needs, and up to so much more.
    pub fn ample(call: &Call, random: &mut Random) -> Lengths {
        let Lengths { result, scratch } = Lengths::least(call);
        Lengths { result: result + random.below(SPARE), scratch: scratch + random.below(SPARE) }
    }
}

/// Whether a scored sheet is also scored by the enumeration, and its histories are listed.
#[derive(Clone, Copy, PartialEq)]
pub enum Enumerate {
    Yes,
    No,
}

/// The buffers of a call, their guards with them.
#[derive(Clone, PartialEq)]
struct Buffers {
    result: Vec<u8>,
    scratch: Vec<u32>,
}

impl Buffers {
    fn filled(random: &mut Random, result: usize) -> Self {
        let (bytes, words) = (result + SPARE + 2 * GUARD, SCRATCH_WORDS + SPARE + 2 * GUARD);
        Buffers {
            result: (0..bytes).map(|_| random.next() as u8).collect(),
            scratch: (0..words).map(|_| random.next() as u32).collect(),
        }
    }

    fn reset(&mut self, before: &Buffers) {
        self.result.copy_from_slice(&before.result);
        self.scratch.copy_from_slice(&before.scratch);
    }

    fn lent(&mut self, lengths: Lengths) -> (&mut [u8], &mut [u32]) {
        (&mut self.result[GUARD..][..lengths.result], &mut self.scratch[GUARD..][..lengths.scratch])
    }

    /// Whether all is as before but for so many bytes of the result and words of the scratch.
    fn keeps(&self, before: &Buffers, bytes: usize, words: usize) -> bool {
        fn same<T: PartialEq>(now: &[T], before: &[T], written: usize) -> bool {
            let behind = GUARD + written;
            now[..GUARD] == before[..GUARD] && now.get(behind..) == before.get(behind..)
        }
        same(&self.result, &before.result, bytes) && same(&self.scratch, &before.scratch, words)
    }

    /// What a call says it has written.
    fn written(&self, bytes: u32) -> &[u8] {
        let lent = &self.result[GUARD..];
        &lent[..lent.len().min(bytes as usize)]
    }
}

/// What does not hold of a call.
#[derive(Default)]
struct Faults(Vec<String>);

impl Faults {
    fn expect(&mut self, holds: bool, fault: impl FnOnce() -> String) {
        if !holds {
            self.0.push(fault());
        }
    }

    fn expect_equal(&mut self, answers: [u32; 2], buffers: [&Buffers; 2], who: &str) {
        let ([one, other], [of_one, of_other]) = (answers, buffers);
        self.expect(one == other, || format!("answers {one} and {other} ({who})"));
        self.expect(of_one.result == of_other.result, || format!("results differ ({who})"));
        self.expect(of_one.scratch == of_other.scratch, || format!("scratches differ ({who})"));
    }
}

/// The buffers as each call finds them and as the calls left them.
struct Desk {
    before: Buffers,
    proved: Buffers,
    reference: Buffers,
    plain: Buffers,
}

/// The desk for calls that write a report alone and that for a history behind it, which is a hundred times as large; and what has been met.
pub struct Comparison {
    usual: Desk,
    large: Desk,
    pub tally: Tally,
}

impl Comparison {
    pub fn new(random: &mut Random) -> Self {
        let [usual, large] = [RESULT_BYTES, HISTORY_BYTES].map(|result| Desk::new(random, result));
        Comparison { usual, large, tally: Tally::default() }
    }

    pub fn compare(&mut self, call: &Call, lengths: Lengths, enumerate: Enumerate) {
        let Comparison { usual, large, tally } = self;
        let desk = if let Call::History(_) = call { large } else { usual };
        let mut faults = Faults::default();
        let [proved, answer] = desk.compare_both(call, lengths, &mut faults);
        match call {
            Call::Plain(_) => {}
            Call::Newick { .. } => desk.compare_written_out(call, lengths, proved, tally, &mut faults),
            Call::History(_) => desk.compare_report(call, lengths, proved, &mut faults),
        }
        tally.counts(call).add(answer);
        if answer < REPORT {
            faults.expect(desk.reference == desk.before, || "a refusal changed a buffer".to_string());
        } else {
            let sheet = call.read().expect("a scored sheet can be read");
            let enumerated = enumerate == Enumerate::Yes;
            desk.count(&sheet, answer, tally);
            match call {
                Call::History(_) => desk.replay(&sheet, proved, enumerated, tally, &mut faults),
                _ if enumerated => desk.compare_enumerated(&sheet, answer, tally, &mut faults),
                _ => {}
            }
        }
        report(call, lengths, &faults, tally);
    }
}

impl Desk {
    fn new(random: &mut Random, result: usize) -> Self {
        let before = Buffers::filled(random, result);
        let [proved, reference, plain] = [(); 3].map(|()| before.clone());
        Desk { before, proved, reference, plain }
    }

    /// The proved call and the reference's: their answers.
    fn compare_both(&mut self, call: &Call, lengths: Lengths, faults: &mut Faults) -> [u32; 2] {
        self.proved.reset(&self.before);
        self.reference.reset(&self.before);
        let given = call.clone();
        let (result, scratch) = self.proved.lent(lengths);
        let proved = given.proved(result, scratch);
        let (result, scratch) = self.reference.lent(lengths);
        let reference = call.reference(result, scratch).number();
        let answers = [proved, reference];
        faults.expect_equal(answers, [&self.proved, &self.reference], "proved and Rust");
        faults.expect(given == *call, || "the sheet or the tree was changed".to_string());
        answers
    }

    /// The answer of the proved plain call whose report a call has to give as well.
    fn plain(&mut self, call: &Call, lengths: Lengths) -> Option<u32> {
        let plain = call.as_plain()?;
        self.plain.reset(&self.before);
        let (result, scratch) = self.plain.lent(lengths);
        Some(plain.proved(result, scratch))
    }

    /// What the proved Newick call did, and the proved plain call on the sheet with the gene lines written out.
    fn compare_written_out(
        &mut self,
        call: &Call,
        lengths: Lengths,
        newick: u32,
        tally: &mut Tally,
        faults: &mut Faults,
    ) {
        let Some(plain) = self.plain(call, lengths) else {
            return;
        };
        faults.expect_equal([newick, plain], [&self.proved, &self.plain], "Newick and written out");
        tally.written_out += 1;
    }

    /// What the proved call with a history did, and the proved plain call on the same sheet: but for the history's lines the same. Refusal 2
    /// alone is its own.
    fn compare_report(&mut self, call: &Call, lengths: Lengths, with_history: u32, faults: &mut Faults) {
        let Some(plain) = self.plain(call, lengths) else {
            return;
        };
        if with_history == Refusal::ShortResult as u32 {
            return;
        }
        let mut answer = plain;
        if plain >= REPORT && with_history > plain && with_history as usize <= lengths.result {
            let lines = GUARD + plain as usize..GUARD + with_history as usize;
            self.plain.result[lines.clone()].copy_from_slice(&self.proved.result[lines]);
            answer = with_history;
        }
        faults.expect_equal([with_history, answer], [&self.proved, &self.plain], "with a history and plain");
    }

    fn count(&mut self, sheet: &Sheet, answer: u32, tally: &mut Tally) {
        let report = self.reference.written(answer);
        let number = |line: usize, field: usize| -> u64 {
            let columns = &report[31 * line + 6 * field..][..6];
            String::from_utf8_lossy(columns).trim().parse().unwrap_or(u64::MAX)
        };
        let secondary = (0..enumeration::reticulations(sheet)).any(|r| number(2 + r, 2) == 1);
        tally.most_trials = tally.most_trials.max(number(0, 4));
        tally.secondary += u64::from(secondary);
    }

    /// The report and the table by the definitions, and that all behind them is as it was.
    fn compare_enumerated(&mut self, sheet: &Sheet, answer: u32, tally: &mut Tally, faults: &mut Faults) {
        let settled = enumeration::settle(sheet);
        let words = sheet.n * sheet.m;
        let mut expected = self.before.clone();
        let length = settled.report.len().min(RESULT_BYTES);
        expected.result[GUARD..][..length].copy_from_slice(&settled.report[..length]);
        expected.scratch[GUARD..][..words].copy_from_slice(&settled.table);
        let answers = [answer, settled.report.len() as u32];
        faults.expect_equal(answers, [&self.reference, &expected], "Rust and the enumeration");
        tally.enumerated += 1;
        tally.settings_enumerated += 1 << enumeration::reticulations(sheet);
    }

    /// The lines that the proved call wrote, step by step, and beside those of the first among all cheapest histories; and that all behind
    /// them and behind the table is as it was.
    fn replay(&self, sheet: &Sheet, proved: u32, listed: bool, tally: &mut Tally, faults: &mut Faults) {
        let kept = self.proved.keeps(&self.before, proved as usize, sheet.n * sheet.m);
        faults.expect(kept, || "what stands behind the history or the table was changed".to_string());
        let text = self.proved.written(proved);
        match replay::replay(&Family::from(sheet), text) {
            Ok(replayed) => tally.histories.add(&replayed),
            Err(fault) => faults.expect(false, || format!("history: {fault}")),
        }
        let listed = if listed { histories::list(sheet) } else { None };
        if let Some(listed) = listed {
            let report = enumeration::report_lines(sheet) * 31;
            faults.expect(text.get(report..) == Some(&listed.lines), || {
                format!("the first of all cheapest histories:\n{}", String::from_utf8_lossy(&listed.lines))
            });
            tally.histories.add_listed(&listed);
        }
    }
}

fn report(call: &Call, lengths: Lengths, faults: &Faults, tally: &mut Tally) {
    if faults.0.is_empty() {
        return;
    }
    tally.mismatches += 1;
    if tally.mismatches <= SHOWN {
        let Lengths { result, scratch } = lengths;
        println!("MISMATCH: {}; result {result}, scratch {scratch}, {call}", faults.0.join("; "));
    }
}
