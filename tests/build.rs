//! Links the proved static library: the archive that YQ_LIB names, else the
//! one that `rt lib` leaves in crates/calculator.

use std::env;
use std::path::{Path, PathBuf};

const BUILT: &str = "crates/calculator/out/libcalculator.a";

fn main() {
    println!("cargo::rerun-if-env-changed=YQ_LIB");
    let package = env::var_os("CARGO_MANIFEST_DIR").expect("cargo sets it");
    let built = Path::new(&package).with_file_name(BUILT);
    let named = env::var_os("YQ_LIB").filter(|path| !path.is_empty());
    let archive = named.map_or(built, PathBuf::from);
    println!("cargo::rerun-if-changed={}", archive.display());
    match library_name(&archive) {
        Some((folder, name)) => {
            println!("cargo::rustc-link-search=native={folder}");
            println!("cargo::rustc-link-lib=static={name}");
        }
        None => println!(
            "cargo::error=the proved library is missing: there is no {}. \
             Run .ci/run, which builds it, or set YQ_LIB to the whole path of a libNAME.a",
            archive.display()
        ),
    }
}

/// The folder and the NAME of a file libNAME.a that exists.
fn library_name(archive: &Path) -> Option<(String, String)> {
    let archive = archive.canonicalize().ok()?;
    let name = archive.file_name()?.to_str()?;
    let name = name.strip_prefix("lib")?.strip_suffix(".a")?;
    let folder = archive.parent()?.to_str()?;
    Some((folder.to_string(), name.to_string()))
}
