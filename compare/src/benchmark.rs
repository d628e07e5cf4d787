//! Families a second of the proved entry and of the reference, on the same sheets in the same run.

use std::fmt::Write;
use std::hint::black_box;

use crate::calls::Call;
use crate::families::{self, Growth};
use crate::random::Random;
use crate::reference::sheet::LINE;
use crate::reference::{self, HISTORY_BYTES, SCRATCH_WORDS, whole};
use crate::tally::Tally;
use crate::workloads::{self, Workload};

/// Rounds in which both are timed one after the other, and how long each lasts in a round.
const ROUNDS: usize = 25;
const ROUND_TIME: f64 = 50_000.0;

/// Processor time of this thread in microseconds: other work on the machine does not count.
fn microseconds_used() -> f64 {
    #[repr(C)]
    struct Timespec {
        seconds: i64,
        nanoseconds: i64,
    }
    unsafe extern "C" {
        fn clock_gettime(clock: i32, time: *mut Timespec) -> i32;
    }
    const CLOCK_THREAD_CPUTIME_ID: i32 = 3;
    let mut time = Timespec { seconds: 0, nanoseconds: 0 };
    // SAFETY: Linux on 64 bits lays out a timespec as above, and the C library is always linked.
    let failed = unsafe { clock_gettime(CLOCK_THREAD_CPUTIME_ID, &mut time) };
    assert_eq!(failed, 0, "the thread has a clock");
    time.seconds as f64 * 1e6 + time.nanoseconds as f64 / 1e3
}

/// Calls, and the implementation that answers them.
#[derive(Clone, Copy)]
struct Side<'a> {
    calls: &'a [Call],
    score: Score,
}

type Score = fn(&Call, &mut [u8], &mut [u32]) -> u32;

fn by_proved(call: &Call, result: &mut [u8], scratch: &mut [u32]) -> u32 {
    call.proved(result, scratch)
}

fn by_reference(call: &Call, result: &mut [u8], scratch: &mut [u32]) -> u32 {
    call.reference(result, scratch).number()
}

/// A workload's line of a table: microseconds a call on either side (medians over rounds) and the ratio of the times, the
/// second's over the first's, as median, least and greatest over rounds.
struct Line {
    name: String,
    times: [f64; 2],
    ratio: [f64; 3],
}

struct Timer {
    result: Vec<u8>,
    scratch: Vec<u32>,
}

impl Timer {
    fn new() -> Self {
        Timer { result: vec![0; HISTORY_BYTES], scratch: vec![0; SCRATCH_WORDS] }
    }

    /// Microseconds a call over `passes` passes over the calls.
    fn microseconds(&mut self, side: Side, passes: usize) -> f64 {
        let start = microseconds_used();
        for _ in 0..passes {
            for call in side.calls {
                black_box((side.score)(black_box(call), &mut self.result, &mut self.scratch));
            }
        }
        (microseconds_used() - start) / (passes * side.calls.len()) as f64
    }

    /// How many lines the histories of a workload have, on average.
    fn history_lines(&mut self, workload: &Workload) -> f64 {
        let mut bytes = |calls: &[Call]| -> u32 {
            calls.iter().map(|call| by_reference(call, &mut self.result, &mut self.scratch)).sum()
        };
        let behind_reports = bytes(&workload.calls) - bytes(&as_plain(workload));
        f64::from(behind_reports) / (LINE * workload.calls.len()) as f64
    }

    /// Rust against the proved entry on the same calls.
    fn implementations(&mut self, workload: &Workload) -> Line {
        let calls = &workload.calls;
        self.line(&workload.name, [Side { calls, score: by_reference }, Side { calls, score: by_proved }])
    }

    /// The proved call against the proved plain call whose report it gives as well.
    fn with_plain(&mut self, workload: &Workload) -> Line {
        let plain = as_plain(workload);
        let sides = [plain.as_slice(), &workload.calls].map(|calls| Side { calls, score: by_proved });
        self.line(&workload.name, sides)
    }

    fn line(&mut self, name: &str, sides: [Side; 2]) -> Line {
        // The first pass warms the caches, the second says how many passes a round takes.
        let [_, once] = [1, 2].map(|_| sides.map(|side| self.microseconds(side, 1)));
        let longest = once[0].max(once[1]) * sides[0].calls.len() as f64;
        let passes = (ROUND_TIME / longest).ceil().clamp(1.0, 1e6) as usize;
        let mut times = [vec![], vec![]];
        let mut ratios = vec![];
        for round in 0..ROUNDS {
            // The one that goes first changes from round to round.
            let mut now = [0.0; 2];
            for i in [round % 2, (round + 1) % 2] {
                now[i] = self.microseconds(sides[i], passes);
                times[i].push(now[i]);
            }
            ratios.push(now[1] / now[0]);
        }
        ratios.sort_by(f64::total_cmp);
        Line {
            name: name.to_string(),
            times: times.map(|mut times| median(&mut times)),
            ratio: [ratios[ROUNDS / 2], ratios[0], ratios[ROUNDS - 1]],
        }
    }
}

fn median(values: &mut [f64]) -> f64 {
    values.sort_by(f64::total_cmp);
    values[values.len() / 2]
}

/// Times everything; the answer is the text table.
pub fn run(seed: u64) -> String {
    let mut timer = Timer::new();
    let mut random = Random::new(seed);
    let mut table = Table::default();
    table.heading("sheets", ["Rust", "proved"]);
    for workload in workloads::plain(&mut random) {
        table.push(&timer.implementations(&workload).text());
    }
    table.push(&table_alone(&mut random, &mut timer));
    newick(&mut random, &mut timer, &mut table);
    histories(&mut random, &mut timer, &mut table);
    table.0
}

/// What has been timed, printed as it comes.
#[derive(Default)]
struct Table(String);

impl Table {
    fn push(&mut self, text: &str) {
        print!("{text}");
        self.0.push_str(text);
    }

    fn heading(&mut self, name: &str, [one, other]: [&str; 2]) {
        self.push(&format!(
            "{name:<52} {:>12} {:>12} {:>11} {:>11}  {:>6} {:>15}\n",
            format!("{one} µs"),
            format!("{other} µs"),
            format!("{one} /s"),
            format!("{other} /s"),
            "ratio",
            "least - most"
        ));
    }
}

impl Line {
    fn text(&self) -> String {
        let (name, [one, other], [middle, least, most]) = (&self.name, self.times, self.ratio);
        let spread = format!("{least:.2} - {most:.2}");
        format!(
            "{name:<52} {one:>12.2} {other:>12.2} {:>11.0} {:>11.0}  {middle:>6.2} {spread:>15}\n",
            1e6 / one,
            1e6 / other,
        )
    }
}

fn as_plain(workload: &Workload) -> Vec<Call> {
    workload.calls.iter().map(|call| call.as_plain().expect("a scored family")).collect()
}

/// The Newick call beside the plain call of the proved entry on the same families, beside Rust's Newick call, and by the length of the text.
fn newick(random: &mut Random, timer: &mut Timer, table: &mut Table) {
    let workloads = workloads::newick(random);
    table.heading("\nproved, the gene tree as lines and as Newick text", ["lines", "Newick"]);
    for workload in &workloads {
        table.push(&timer.with_plain(workload).text());
    }
    table.heading("\nNewick", ["Rust", "proved"]);
    for workload in &workloads {
        table.push(&timer.implementations(workload).text());
    }
    let faults = workloads::last_byte_faults();
    let lines = faults.each_ref().map(|(_, workload)| timer.implementations(workload));
    lines.iter().for_each(|line| table.push(&line.text()));
    let lengths = faults.map(|(length, _)| length);
    table.push(&nanoseconds_a_byte(lengths, lines.map(|line| line.times[1])));
}

/// By how much the time grows with each byte from one length to the next: the same where reading is linear in the text.
fn nanoseconds_a_byte(lengths: [usize; 4], times: [f64; 4]) -> String {
    let steps = (1..4).map(|i| {
        let [from, to] = [lengths[i - 1], lengths[i]];
        format!("{from} to {to} {:.2}", 1e3 * (times[i] - times[i - 1]) / (to - from) as f64)
    });
    format!("reading, proved: ns a byte more: {}\n", steps.collect::<Vec<_>>().join(", "))
}

/// The call with a history beside the plain call of the proved entry on the same families, with what a line of the history takes, and beside
/// Rust's call with a history.
fn histories(random: &mut Random, timer: &mut Timer, table: &mut Table) {
    let workloads = workloads::histories(random);
    table.heading("\nproved, the report alone and with a history", ["report", "history"]);
    let lines: Vec<Line> = workloads.iter().map(|workload| timer.with_plain(workload)).collect();
    lines.iter().for_each(|line| table.push(&line.text()));
    for (workload, Line { name, times: [plain, with_history], .. }) in workloads.iter().zip(&lines) {
        let lines = timer.history_lines(workload);
        let each = 1e3 * (with_history - plain) / lines;
        table.push(&format!("{name:<52} {lines:>12.1} lines, proved: {each:.1} ns each\n"));
    }
    table.heading("\nhistory", ["Rust", "proved"]);
    for workload in &workloads {
        table.push(&timer.implementations(workload).text());
    }
}

/// The whole-network table without the rest of the call, which the static library does not export.
fn table_alone(random: &mut Random, timer: &mut Timer) -> String {
    let mut text = String::new();
    for (name, transfers) in [("no reticulation", 0), ("31 reticulations", 31)] {
        let families: Vec<_> = (0..30)
            .map(|_| families::largest(random, transfers, Growth::Anywhere).text())
            .map(|text| reference::judge(&text).ok().expect("a valid sheet"))
            .collect();
        let mut times = vec![];
        for _ in 0..ROUNDS {
            let passes = 10;
            let start = microseconds_used();
            for _ in 0..passes {
                for (sheet, network, genes) in &families {
                    black_box(whole::fill(black_box(sheet), network, genes, &mut timer.scratch));
                }
            }
            times.push((microseconds_used() - start) / (passes * families.len()) as f64);
        }
        let time = median(&mut times);
        let name = format!("(c) table alone, {name}: n = m = 127");
        writeln!(text, "{name:<52} {time:>12.2} {:>12} {:>11.0}", "-", 1e6 / time).expect("text");
    }
    text
}

/// Cores and processor family, without the name of the machine.
pub fn machine_class() -> String {
    let cores = std::thread::available_parallelism().map_or(1, |count| count.get());
    let about = std::fs::read_to_string("/proc/cpuinfo").unwrap_or_default();
    let model = about
        .lines()
        .find_map(|line| line.strip_prefix("model name")?.split_once(':'))
        .map_or("processor unknown", |(_, model)| model.trim());
    format!("{}, {cores} cores, {model}", std::env::consts::ARCH)
}

/// The page of docs/; below it stands what earlier kits measured, as `old`, the page so far, has it.
pub fn page(table: &str, machine: &str, date: &str, kit: &str, tally: &Tally, old: &str) -> String {
    let earlier = old.find("\n## ").map_or("", |at| &old[at..]);
    format!(
        "# Performance

The proved entries beside an independent implementation in ordinary Rust (`compare/`), both called in the same process on the same sheets, in turns. The proved entries are the static library that `rt lib` builds of crate `score_c`.

- Proved and built with `{kit}`.
- Machine: {machine}. Date: {date}.
- Rerun: `compare/run` from the root of the repository; `compare/run --write` renews this page.
- Times are microseconds of processor time a sheet for the whole call, from bytes to report (medians of {ROUNDS} rounds); \"/s\" is families a second. The ratio is the time of the second column over that of the first, so the proved entry's over Rust's, as the median of the rounds' ratios with the least and the greatest; below 1 the second is faster.
- \"Most trials\" is the largest search that refusal 10 leaves room for at n = 127: 31 reticulations in components of 8, 8, 8 and 7, so 896 trials.
- The static library exports whole calls only. For the whole-network table the call on a network without reticulations stands for it; the two lines \"table alone\" time the table on the Rust side.
- Below the plain call stands the one that takes the gene tree as Newick text: against the plain call on the same families with their gene lines, both proved, where the bar is a ratio of 1.10; against the Newick call in Rust; and on texts whose only fault is their last byte, with what each further byte costs from one length to the next. That is the same from each length to the next where reading is linear in the text.
- Then comes the one that writes a history behind the report: against the plain call on the same families, both proved, with what a line of the history takes; and against the call with a history in Rust. The longest history is the longest of any sheet that is scored.
- Before the times were taken, {} calls were compared in answer, result, scratch and untouched rest ({} scored, {} of these also by enumerating {} settings in all; {} took Newick text, and {} of these, wherever sheet and text can be read, were also compared with the plain call on the sheet with the gene lines written out; {} histories of {} lines were replayed line by line, and {} of them compared with the first of all cheapest histories, {} histories in all); mismatches: {}.

```text
{table}```
{earlier}",
        tally.calls(),
        tally.reports(),
        tally.enumerated,
        tally.settings_enumerated,
        tally.newick.calls,
        tally.written_out,
        tally.histories.replayed,
        tally.histories.lines,
        tally.histories.listed,
        tally.histories.in_lists,
        tally.mismatches
    )
}
