//! Finds the archive of the proved library, `libexport.a`, and links it.
//!
//! Without the archive everything builds but the programs that call the library say so and stop;
//! with the feature `stub` the stand-in takes its place. The archive that the repository builds is for x86-64:
//! elsewhere it is not linked, and `src/served.rs` asks the library over pipes. Whoever names a folder in
//! RINSHOLUPE_LIB_DIR answers for its archives being for this processor, whichever it is.
//!
//! An earlier version beside it, `libbefore.a`, is linked too, for `bench`.

use std::path::{Path, PathBuf};
use std::{env, fs};

fn main() {
    for name in ["archive", "before", "served"] {
        println!("cargo:rustc-check-cfg=cfg({name})");
    }
    println!("cargo:rerun-if-changed=build.rs");
    println!("cargo:rerun-if-env-changed=RINSHOLUPE_LIB_DIR");
    if env::var_os("CARGO_FEATURE_STUB").is_some() {
        return;
    }
    let manifest = PathBuf::from(env::var_os("CARGO_MANIFEST_DIR").expect("cargo names the manifest's folder"));
    let folder = match env::var_os("RINSHOLUPE_LIB_DIR") {
        Some(folder) => manifest.join(folder),
        None if env::var("CARGO_CFG_TARGET_ARCH").as_deref() == Ok("x86_64") => manifest.join("../target/staticlib"),
        None => {
            println!("cargo:rustc-cfg=served");
            return;
        }
    };
    let found = |name: &str| find(&folder, name);
    let (export, before) = (found("export"), found("before"));
    if export {
        println!("cargo:rustc-link-search=native={}", folder.display());
        link("export", "archive");
        if before {
            link("before", "before");
        }
    }
}

/// Whether the folder has the archive, whose coming, going and changing matter.
fn find(folder: &Path, name: &str) -> bool {
    let archive = folder.join(format!("lib{name}.a"));
    println!("cargo:rerun-if-changed={}", archive.display());
    fs::metadata(&archive).is_ok()
}

fn link(name: &str, cfg: &str) {
    println!("cargo:rustc-cfg={cfg}");
    println!("cargo:rustc-link-lib=static={name}");
}
