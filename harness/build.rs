//! Links the library's archives from the directory BANDROLT_LIB, by default ../target/staticlib.
//! A relative directory counts from harness/. Programs that call nothing of the library are built before there are archives.

use std::{env, path::Path};

const ARCHIVES: [&str; 5] = ["composer", "flat_table", "origins", "factors", "sizes"];

fn main() {
    println!("cargo:rerun-if-env-changed=BANDROLT_LIB");
    let given = env::var("BANDROLT_LIB").unwrap_or_else(|_| "../target/staticlib".into());
    let directory = Path::new(env!("CARGO_MANIFEST_DIR")).join(given);
    println!("cargo:rustc-link-search=native={}", directory.display());
    for name in ARCHIVES {
        let archive = directory.join(format!("lib{name}.a"));
        println!("cargo:rerun-if-changed={}", archive.display());
        if archive.exists() {
            println!("cargo:rustc-link-lib=static={name}");
        }
    }
}
