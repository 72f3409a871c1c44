//! Links the libraries that have been written to target/staticlib of the repository: station, and number_loops for the benchmark.

use std::{env, path::PathBuf};

fn main() {
    let here = PathBuf::from(env::var("CARGO_MANIFEST_DIR").unwrap());
    let folder = here.parent().unwrap().join("target/staticlib");
    println!("cargo:rustc-link-search=native={}", folder.display());
    for name in ["station", "number_loops"] {
        let file = folder.join(format!("lib{name}.a"));
        println!("cargo:rerun-if-changed={}", file.display());
        println!("cargo:rustc-check-cfg=cfg({name})");
        if file.exists() {
            println!("cargo:rustc-link-lib=static={name}");
            println!("cargo:rustc-cfg={name}");
        } else {
            // A file that never exists: cargo looks again each time.
            println!("cargo:rerun-if-changed={}", here.join("absent").display());
        }
    }
}
