//! The known sheets of the rules and the others worked out by hand, and the limits around them.

use std::fs;
use std::path::Path;

use compare::calls::Call;
use compare::reference::sheet::Sheet;
use compare::reference::{self, RESULT_BYTES, SCRATCH_WORDS};
use compare::worked::{self, K_GENES, K_NETWORK};
use compare::{enumeration, proved};

/// The reference's answer, which must be the proved entry's too, in number, result and scratch.
fn score(text: &[u8], result: &mut [u8], scratch: &mut [u32]) -> u32 {
    let (mut other_result, mut other_scratch) = (result.to_vec(), scratch.to_vec());
    let number = reference::score(text, result, scratch).number();
    assert_eq!(proved::score(text, &mut other_result, &mut other_scratch), number);
    assert!(other_result == result && other_scratch == scratch);
    number
}

/// The report, or the refusal; untouched bytes and words are checked on the way, and every report is
/// checked against the enumeration of all settings.
fn answer(sheet: &[u8]) -> Result<String, u32> {
    let mut result = vec![0xA5; RESULT_BYTES];
    let mut scratch = vec![0x5A5A_5A5A; SCRATCH_WORDS];
    let number = score(sheet, &mut result, &mut scratch);
    if number < 93 {
        assert!(result.iter().all(|&byte| byte == 0xA5) && scratch.iter().all(|&word| word == 0x5A5A_5A5A));
        return Err(number);
    }
    let read = Sheet::read(sheet).ok().expect("a scored sheet can be read");
    let settled = enumeration::settle(&read);
    let (report, rest) = result.split_at(number as usize);
    assert_eq!(report, settled.report);
    assert!(rest.iter().all(|&byte| byte == 0xA5));
    let (table, rest) = scratch.split_at(read.n * read.m);
    assert_eq!(table, settled.table);
    assert!(rest.iter().all(|&word| word == 0x5A5A_5A5A));
    Ok(String::from_utf8(report.to_vec()).expect("reports are text"))
}

fn k(costs: [u32; 3]) -> String {
    String::from_utf8(worked::text(costs, &K_NETWORK, &K_GENES)).expect("sheets are text")
}

/// Cases 1 to 9 are among them.
#[test]
fn sheets_worked_out_by_hand() {
    for worked in worked::sheets() {
        let Call::Plain(sheet) = &worked.call else {
            unreachable!("{}: a sheet alone", worked.name);
        };
        let outcome = answer(sheet).unwrap_or_else(|refusal| refusal.to_string());
        assert!(worked.fits(&outcome), "worked out: {:?}\nfound:\n{outcome}", worked.lines);
    }
}

/// Every sheet of sheets/ comes to the report beside it, and both are what the test program reads.
#[test]
fn sheets_and_their_reports() {
    let mut compared = 0;
    for entry in fs::read_dir("../sheets").expect("the folder of sheets") {
        let path = entry.expect("a file").path();
        if path.extension().is_some_and(|ending| ending == "sheet") {
            let report = fs::read_to_string(path.with_extension("report")).expect("a report beside it");
            let sheet = fs::read(&path).expect("a sheet");
            let reply = answer(&sheet).unwrap_or_else(|refusal| format!("refused{refusal:6}\n"));
            assert_eq!(reply, report, "{}", path.display());
            for (of, text) in [(&path, &sheet), (&path.with_extension("report"), &report.into_bytes())] {
                let copy = Path::new("../crates/reply_test/data").join(of.file_name().expect("a name"));
                assert_eq!(
                    &fs::read(&copy).expect("a copy for the test program"),
                    text,
                    "{}",
                    copy.display()
                );
            }
            compared += 1;
        }
    }
    assert!(compared > 40, "only {compared} sheets");
}

#[test]
fn case_10_a_species_that_is_not_in_the_network() {
    let mut genes = K_GENES;
    genes[3][2] = 4;
    assert_eq!(answer(&worked::text([2, 3, 1], &K_NETWORK, &genes)), Err(13));
}

#[test]
fn case_11_costs_at_their_limit() {
    assert_eq!(answer(k([99, 3, 1]).as_bytes()), answer(k([2, 3, 1]).as_bytes()));
    assert_eq!(answer(k([100, 3, 1]).as_bytes()), Err(4));
}

#[test]
fn case_12_buffers_at_their_limits() {
    let sheet = k([2, 3, 1]);
    let call = |text: &str, bytes: usize, words: usize| {
        let (mut result, mut scratch) = (vec![7; bytes], vec![7; words]);
        score(text.as_bytes(), &mut result, &mut scratch)
    };
    assert_eq!(call(&sheet, RESULT_BYTES, SCRATCH_WORDS), 248);
    assert_eq!(call(&sheet, RESULT_BYTES - 1, SCRATCH_WORDS), 2);
    assert_eq!(call(&sheet, RESULT_BYTES, SCRATCH_WORDS - 1), 1);
    assert_eq!(call("", RESULT_BYTES - 1, SCRATCH_WORDS - 1), 1);
    assert_eq!(call("", RESULT_BYTES - 1, SCRATCH_WORDS), 2);
    assert_eq!(call("", RESULT_BYTES, SCRATCH_WORDS), 3);
}

#[test]
fn the_order_of_the_first_refusals() {
    let sheet = k([2, 3, 1]);
    let refused = |text: &str, number: u32| assert_eq!(answer(text.as_bytes()), Err(number));
    refused(&sheet[..30], 3);
    refused(&sheet[..31], 5);
    refused(&sheet[..sheet.len() - 1], 5);
    refused(&format!("{sheet}\n"), 5);
    refused(&sheet.replacen("     7", "   007", 1), 3);
    refused(&sheet.replacen("     7", "     0", 1), 4);
    refused(&sheet.replacen("     7", "   128", 1), 4);
    refused(&sheet.replacen("     9     3", "     9    3 ", 1), 5);
}

/// No sheet costs more; six columns hold it.
#[test]
fn the_greatest_cost() {
    let report = answer(&compare::extremes::costliest().text()).expect("a report");
    assert!(
        report.starts_with("398970    62     0  3968     0\n398970   127   127     0     0\n"),
        "{report}"
    );
}
