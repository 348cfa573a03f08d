//! Links the proved static library: the archive that YQ_LIB names, else the
//! one that `rt lib` leaves in crates/calculator.

use std::env;
use std::path::{Path, PathBuf};

const BUILT: &str = "crates/calculator/out/libcalculator.a";

fn main() {
    println!("cargo::rerun-if-env-changed=YQ_LIB");
    let package = env::var_os("CARGO_MANIFEST_DIR").expect("cargo sets it");
    let top = Path::new(&package).ancestors().nth(2);
    let built = top.unwrap_or(Path::new("/")).join(BUILT);
    let named = env::var_os("YQ_LIB").filter(|path| !path.is_empty());
    let archive = named.map_or(built, PathBuf::from);
    println!("cargo::rerun-if-changed={}", archive.display());
    let name = archive.file_name().and_then(|name| name.to_str());
    let name = name.and_then(|name| name.strip_prefix("lib")?.strip_suffix(".a"));
    match (archive.is_file(), archive.parent(), name) {
        (true, Some(folder), Some(name)) => {
            println!("cargo::rustc-link-search=native={}", folder.display());
            println!("cargo::rustc-link-lib=static={name}");
        }
        _ => println!(
            "cargo::error=the proved library is missing: there is no {}. \
             Run rt lib in the repository's folder crates/calculator, which proves and \
             builds it, or set YQ_LIB to the whole path of a libNAME.a",
            archive.display()
        ),
    }
}
