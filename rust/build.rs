//! Links the engine's static library: from the folder that REGISTERED_AUTOMATA_LIB names, a path from the root, or else from
//! target/staticlib at the top of the repository, where `tools/build registered_automata` writes it.

use std::path::{Path, PathBuf};

const FOLDER: &str = "REGISTERED_AUTOMATA_LIB";

fn main() {
    println!("cargo:rerun-if-env-changed={FOLDER}");
    let here = std::env::var("CARGO_MANIFEST_DIR").expect("cargo sets it");
    let named = std::env::var_os(FOLDER).filter(|name| !name.is_empty());
    let folder = named
        .as_ref()
        .map_or(Path::new(&here).join("../target/staticlib"), PathBuf::from);
    let archive = folder.join("libregistered_automata.a");
    if !archive.exists() {
        match named {
            Some(_) => panic!("{FOLDER} names {}, which has no libregistered_automata.a", folder.display()),
            None => panic!("no static library yet: run `tools/build registered_automata` at the top of the repository, or set {FOLDER} to the folder that has it"),
        }
    }
    println!("cargo:rerun-if-changed={}", archive.display());
    println!("cargo:rustc-link-search=native={}", folder.display());
    println!("cargo:rustc-link-lib=static=registered_automata");
}
