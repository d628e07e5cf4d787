//! The differential run and the benchmarks; `compare/run` builds and calls it.

use std::io;
use std::path::{Path, PathBuf};
use std::process::ExitCode;

use compare::differential::{self, Bounds};
use compare::{benchmark, corpus, history_test, newick_test, random_test};

const USAGE: &str =
    "compare [--seed N] [--percent N] [--seconds N] [--no-benchmark] [--write FILE --date DATE --kit LINE]
compare --corpus FOLDER | --history-test FOLDER | --newick-test FOLDER | --newick-faults FOLDER | --random-test FILE

  --seed N        the seed of all sheets (1)
  --percent N     how many sheets, in percent of the usual number (100)
  --seconds N     the most time for the differential run (240)
  --no-benchmark  the differential run alone
  --write FILE    write the benchmarks as a page to FILE, with DATE and the kit's line; what it has below a head stays
  --corpus FOLDER write the sheets and the expected output of the test program score_test, and nothing else
  --history-test FOLDER   the same of the test program history_test
  --newick-test FOLDER    the same of the test program newick_test
  --newick-faults FOLDER  the same of the test program newick_faults
  --random-test FILE  write the expected output of the test program random_test, and nothing else";

struct Options {
    bounds: Bounds,
    benchmark: bool,
    write: Option<String>,
    date: String,
    kit: String,
    renewal: Option<Renewal>,
}

/// What is renewed for a test program, in place of a run: how, and where.
struct Renewal {
    renew: fn(u64, &Path) -> io::Result<()>,
    path: PathBuf,
}

impl Renewal {
    fn of(word: &str, path: String) -> Option<Renewal> {
        let renew: fn(u64, &Path) -> io::Result<()> = match word {
            "--corpus" => corpus::write,
            "--history-test" => history_test::write,
            "--newick-test" => newick_test::write,
            "--newick-faults" => |_, folder| newick_test::write_faults(folder),
            "--random-test" => |_, file| std::fs::write(file, random_test::lines()),
            _ => return None,
        };
        Some(Renewal { renew, path: path.into() })
    }
}

fn options() -> Option<Options> {
    let mut options = Options {
        bounds: Bounds { seed: 1, percent: 100, seconds: 240 },
        benchmark: true,
        write: None,
        date: "undated".to_string(),
        kit: "a kit that was not named".to_string(),
        renewal: None,
    };
    let mut words = std::env::args().skip(1);
    while let Some(word) = words.next() {
        match word.as_str() {
            "--no-benchmark" => options.benchmark = false,
            "--seed" => options.bounds.seed = words.next()?.parse().ok()?,
            "--percent" => options.bounds.percent = words.next()?.parse().ok()?,
            "--seconds" => options.bounds.seconds = words.next()?.parse().ok()?,
            "--write" => options.write = Some(words.next()?),
            "--date" => options.date = words.next()?,
            "--kit" => options.kit = words.next()?,
            other => options.renewal = Some(Renewal::of(other, words.next()?)?),
        }
    }
    Some(options)
}

fn main() -> ExitCode {
    let Some(options) = options() else {
        eprintln!("{USAGE}");
        return ExitCode::FAILURE;
    };
    if let Some(Renewal { renew, path }) = &options.renewal {
        return reported(path, renew(options.bounds.seed, path));
    }
    let Bounds { seed, percent, seconds } = options.bounds;
    println!("differential run, seed {seed}, {percent} percent, at most {seconds} s");
    let tally = differential::run(options.bounds);
    tally.print();
    if !tally.sound() {
        return ExitCode::FAILURE;
    }
    if !options.benchmark {
        return ExitCode::SUCCESS;
    }
    let machine = benchmark::machine_class();
    println!("benchmarks, {machine}");
    let table = benchmark::run(seed);
    let Some(path) = options.write else {
        return ExitCode::SUCCESS;
    };
    let old = std::fs::read_to_string(&path).unwrap_or_default();
    let page = benchmark::page(&table, &machine, &options.date, &options.kit, &tally, &old);
    reported(Path::new(&path), std::fs::write(&path, page))
}

/// What could not be written is told.
fn reported(path: &Path, written: io::Result<()>) -> ExitCode {
    match written {
        Ok(()) => ExitCode::SUCCESS,
        Err(error) => {
            eprintln!("{}: {error}", path.display());
            ExitCode::FAILURE
        }
    }
}
