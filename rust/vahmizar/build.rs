//! Finds the proved library and has it linked.

use std::env;
use std::path::{Path, PathBuf};
use std::process::exit;

const FOLDER_VARIABLE: &str = "VAHMIZAR_LIB_DIR";
const LIBRARY: &str = "libvahmizar.a";

fn main() {
    println!("cargo::rerun-if-changed=build.rs");
    println!("cargo::rerun-if-env-changed={FOLDER_VARIABLE}");
    let folder = match env::var_os(FOLDER_VARIABLE) {
        Some(folder) => PathBuf::from(folder),
        None => Path::new(env!("CARGO_MANIFEST_DIR")).join("../../target/staticlib"),
    };
    let library = folder.join(LIBRARY);
    println!("cargo::rerun-if-changed={}", library.display());
    if !library.is_file() {
        println!(
            "cargo::error={} isn't there: run ./vahmizar or tools/build library first, \
             or name its folder in {FOLDER_VARIABLE}",
            library.display()
        );
        exit(1);
    }
    println!("cargo::rustc-link-search=native={}", folder.display());
    println!("cargo::rustc-link-lib=static=vahmizar");
}
