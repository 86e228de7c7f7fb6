//! Links `libpillar.a`, the proved core, from the folder that PILLAR_LIB names
//! (a relative one counts from this crate's folder).

use std::env;
use std::path::{Path, PathBuf};

const DEFAULT: &str = "../../target/staticlib";

fn main() {
    println!("cargo::rerun-if-env-changed=PILLAR_LIB");
    if env::var_os("CARGO_FEATURE_STAND_IN").is_some() {
        return;
    }
    let folder = folder();
    let library = folder.join("libpillar.a");
    println!("cargo::rerun-if-changed={}", library.display());
    if !library.is_file() {
        println!(
            "cargo::error=the proved core is not at {}: build it there, or set PILLAR_LIB to the \
             folder of libpillar.a, or choose the feature `stand-in`",
            library.display()
        );
        return;
    }
    println!("cargo::rustc-link-search=native={}", folder.display());
    println!("cargo::rustc-link-lib=static:-bundle=pillar");
}

fn folder() -> PathBuf {
    let crate_folder = env::var_os("CARGO_MANIFEST_DIR").expect("cargo names the crate's folder");
    let named = env::var_os("PILLAR_LIB").filter(|name| !name.is_empty());
    let folder = Path::new(&crate_folder).join(named.unwrap_or_else(|| DEFAULT.into()));
    folder.canonicalize().unwrap_or(folder)
}
