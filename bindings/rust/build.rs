//! Links `libexport.a`, the archive of the proved library, from the folder that `RINSHOLUPE_LIB_DIR` names. A relative
//! name counts from this package's folder, as the default does.

use std::env;
use std::path::Path;

const DEFAULT: &str = "../../target/staticlib";

fn main() {
    let package = env::var_os("CARGO_MANIFEST_DIR").expect("cargo names the package's folder");
    let named = env::var_os("RINSHOLUPE_LIB_DIR").unwrap_or_else(|| DEFAULT.into());
    let folder = Path::new(&package).join(named);
    let archive = folder.join("libexport.a");
    println!("cargo::rerun-if-env-changed=RINSHOLUPE_LIB_DIR");
    println!("cargo::rerun-if-changed={}", archive.display());
    if archive.is_file() {
        println!("cargo::rustc-link-search=native={}", folder.display());
        println!("cargo::rustc-link-lib=static=export");
    } else {
        println!(
            "cargo::error=no {}: run `tools/build export`, or name the archive's folder in RINSHOLUPE_LIB_DIR",
            archive.display()
        );
    }
}
