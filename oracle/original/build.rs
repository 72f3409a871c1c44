//! Finds the original's files, compares their bytes with ../original.sha256 and hands their places to the compiler. Nothing is copied.
//! They are in the folder that PYLTARKA_RUST names, a checkout of the original, or, where that is not set, in shared/docs/src beside the
//! repository. Without the second the crate is built empty; a folder that was named and has no such files is an error.

use std::{
    env, fs,
    path::{Path, PathBuf},
};

#[path = "sha256.rs"]
mod sha256;

/// The folder with the original's files. A relative PYLTARKA_RUST is taken from the repository's root.
fn sources(repository: &Path) -> PathBuf {
    match env::var("PYLTARKA_RUST") {
        Ok(named) if !named.is_empty() => {
            let folder = repository.join(named).join("src");
            assert!(folder.join("table.rs").exists(), "PYLTARKA_RUST: there is no table.rs in {}", folder.display());
            folder
        },
        _ => repository.with_file_name("shared/docs/src/src"),
    }
}

fn main() {
    let here = PathBuf::from(env::var("CARGO_MANIFEST_DIR").unwrap());
    let oracle = here.parent().unwrap();
    println!("cargo:rerun-if-env-changed=PYLTARKA_RUST");
    let folder = sources(oracle.parent().unwrap());
    println!("cargo:rerun-if-changed={}", oracle.join("original.sha256").display());
    println!("cargo:rerun-if-changed={}", folder.display());
    println!("cargo:rustc-check-cfg=cfg(original)");
    if !folder.join("table.rs").exists() {
        // A file that never exists: cargo looks again each time.
        println!("cargo:rerun-if-changed={}", here.join("absent").display());
        return;
    }
    let sums = fs::read_to_string(oracle.join("original.sha256")).expect("original.sha256");
    let mut modules = String::new();
    for line in sums.lines() {
        let (sum, name) = line.split_once("  ").expect("a line of original.sha256: sum, two spaces, name");
        let file = fs::canonicalize(folder.join(name)).unwrap_or_else(|e| panic!("{name}: {e}"));
        println!("cargo:rerun-if-changed={}", file.display());
        let found = sha256::hex(&fs::read(&file).unwrap());
        assert!(found == sum, "{name} is not the file that was compared: its SHA-256 is {found}, and {sum} is kept in original.sha256");
        modules.push_str(&format!(
            "#[allow(warnings)]\n#[path = {:?}]\npub mod {};\n",
            file.display().to_string(),
            name.trim_end_matches(".rs")
        ));
    }
    fs::write(PathBuf::from(env::var("OUT_DIR").unwrap()).join("modules.rs"), modules).unwrap();
    println!("cargo:rustc-cfg=original");
}
