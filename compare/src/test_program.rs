//! The files of a test program that goes over cases.

use std::path::Path;
use std::{fs, io};

use crate::calls::Call;

/// A case: its name, its files by their endings, and what the program writes behind its name.
pub struct Case {
    pub name: String,
    pub files: Vec<(&'static str, Vec<u8>)>,
    pub output: String,
}

impl Case {
    /// The case of a call.
    pub fn new(name: String, call: &Call, output: String) -> Case {
        let files = match call {
            Call::Plain(sheet) | Call::History(sheet) => vec![(".sheet", sheet.to_vec())],
            Call::Newick { sheet, tree } => vec![(".sheet", sheet.to_vec()), (".tree", tree.to_vec())],
        };
        Case { name, files, output }
    }
}

/// Renews the files in data/, the names in the arguments, and what the program has to write.
pub fn renew(folder: &Path, cases: impl IntoIterator<Item = Case>) -> io::Result<()> {
    let data = folder.join("data");
    if data.exists() {
        fs::remove_dir_all(&data)?;
    }
    fs::create_dir(&data)?;
    let (mut names, mut output) = (String::new(), String::new());
    for case in cases {
        let name = &case.name;
        for (ending, bytes) in case.files {
            fs::write(data.join(format!("{name}{ending}")), bytes)?;
        }
        assert!(!names.lines().any(|other| other == name), "{name} names two cases");
        names += &format!("{name}\n");
        output += &format!("{name}\n{}", case.output);
    }
    fs::write(folder.join("args"), names)?;
    fs::write(folder.join("stdout"), output)
}
