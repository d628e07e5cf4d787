//! Links the static library of the proved entry, which `PROVED_ARCHIVE` names (`compare/run` builds it and sets the name). There is no
//! build without it: what is compared would be the Rust implementation with itself.

use std::env;
use std::path::Path;

fn main() {
    println!("cargo::rerun-if-env-changed=PROVED_ARCHIVE");
    let Some(archive) = env::var_os("PROVED_ARCHIVE") else {
        println!(
            "cargo::error=PROVED_ARCHIVE names no static library of the proved entry: build with compare/run"
        );
        return;
    };
    let archive = Path::new(&archive);
    let folder = archive.parent().expect("PROVED_ARCHIVE has a folder");
    let name = archive
        .file_stem()
        .and_then(|stem| stem.to_str())
        .and_then(|stem| stem.strip_prefix("lib"))
        .expect("PROVED_ARCHIVE is named libNAME.a");
    assert!(archive.exists(), "{} does not exist", archive.display());
    println!("cargo::rerun-if-changed={}", archive.display());
    println!("cargo::rustc-link-search=native={}", folder.display());
    println!("cargo::rustc-link-lib=static={name}");
}
