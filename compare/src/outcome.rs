//! What a call comes to, as the test programs show it: the reference implementation's report and words, or refusal.

use crate::calls::Call;
use crate::enumeration::{self, Settled};
use crate::families::Family;
use crate::reference::sheet::{LINE, Sheet};
use crate::reference::whole::NO_HISTORY;
use crate::reference::{Answer, SCRATCH_WORDS};
use crate::{histories, replay};

/// The most reticulations of a sheet that is also scored by enumerating all settings.
const ENUMERATED: usize = 10;

/// How many words of the scratch a program writes, how many to a line, and what it fills the scratch with.
const SHOWN: usize = 40;
const ACROSS: usize = 10;
const UNTOUCHED: u32 = u32::MAX - 1;

/// What a call comes to, by the reference and where the sheet is small enough by the enumeration as well.
pub struct Outcome {
    /// The report, with the history where the call writes one, or the refusal's number in six columns and a line feed.
    pub text: String,
    /// The scratch, unless the sheet is refused.
    pub scratch: Option<Vec<u32>>,
    /// What the enumeration settles, where the sheet is small enough.
    pub settled: Option<Settled>,
}

impl Outcome {
    pub fn of(call: &Call) -> Outcome {
        let (mut result, mut scratch) = (vec![0; call.least_result()], vec![UNTOUCHED; SCRATCH_WORDS]);
        let bytes = match call.reference(&mut result, &mut scratch) {
            Answer::Report(bytes) => bytes,
            Answer::Refused(refusal) => {
                return Outcome { text: format!("{:6}\n", refusal as u32), scratch: None, settled: None };
            }
        };
        let read = call.read().expect("a scored sheet can be read");
        let small = enumeration::reticulations(&read) <= ENUMERATED;
        let settled = small.then(|| enumeration::settle(&read));
        let mut report = bytes;
        if let Call::History(_) = call {
            report = LINE * enumeration::report_lines(&read);
            check_history(&read, &result[..bytes], report);
        }
        if let Some(settled) = &settled {
            assert_eq!(result[..report], settled.report);
            assert_eq!(scratch[..read.n * read.m], settled.table);
        }
        result.truncate(bytes);
        let text = String::from_utf8(result).expect("reports are text");
        Outcome { text, scratch: Some(scratch), settled }
    }

    /// What a program for standard input replies.
    pub fn reply(&self) -> String {
        let refused = if self.scratch.is_none() { "refused" } else { "" };
        format!("{refused}{}", self.text)
    }

    /// The lines that a test program writes.
    pub fn lines(&self) -> String {
        let words = self.scratch.as_deref().unwrap_or_default().iter().take(SHOWN).map(|&word| spelled(word));
        let words: Vec<String> = words.collect();
        let rows = words.chunks(ACROSS).map(|row| row.join(" ") + "\n");
        self.text.clone() + &rows.collect::<String>()
    }
}

/// The history behind a report has no fault and is the first of all cheapest ones, where these are few.
fn check_history(sheet: &Sheet, text: &[u8], report: usize) {
    let replayed = replay::replay(&Family::from(sheet), text).map(|_| ());
    assert_eq!(replayed, Ok(()), "{}", String::from_utf8_lossy(text));
    if let Some(listed) = histories::list(sheet) {
        assert_eq!(text[report..], listed.lines, "{}", String::from_utf8_lossy(text));
    }
}

fn spelled(word: u32) -> String {
    match word {
        NO_HISTORY => "     -".to_string(),
        UNTOUCHED => "     .".to_string(),
        cost => format!("{cost:6}"),
    }
}
