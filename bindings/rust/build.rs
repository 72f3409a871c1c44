//! Builds the static library by `library` in the repository's root, and links it. Where PYLTARKA_LIB_DIR is set, the libstation.a in
//! that folder is linked and nothing is built.
use std::env;
use std::fs::{self, OpenOptions};
use std::io::{BufRead, BufReader, Write};
use std::path::{Path, PathBuf};
use std::process::{Command, Stdio};

/// Runs `library` in the root; answers the archive that it wrote.
///
/// The proofs take minutes the first time, and what `library` says meanwhile goes to the terminal, line by line, if there is one. There
/// is no other way to be seen in time: cargo keeps what a build script writes, and shows its `cargo::warning` lines only once the script
/// has ended, and then at each later build too.
fn proved_library(root: &Path) -> PathBuf {
    let mut run = match Command::new(root.join("library")).stdout(Stdio::null()).stderr(Stdio::piped()).spawn() {
        Ok(run) => run,
        Err(why) => panic!("`library` in the repository's root cannot be run: {why}"),
    };
    let mut terminal = OpenOptions::new().write(true).open("/dev/tty").ok();
    let mut said = String::new();
    for line in BufReader::new(run.stderr.take().unwrap()).split(b'\n').map_while(Result::ok) {
        let line = String::from_utf8_lossy(&line) + "\n";
        if let (Some(terminal), true) = (&mut terminal, line.starts_with("pyltarka: ")) {
            // Over cargo's line of progress, which it draws again.
            let _ = terminal.write_all(format!("\r\x1b[K{line}").as_bytes());
        }
        said += &line;
    }
    match run.wait() {
        Ok(status) if status.success() => root.join("target/staticlib/libstation.a"),
        _ => panic!("the library cannot be built:\n{said}"),
    }
}

/// What the library is made from. Beside these, rt keeps its work in out/ of each crate, which changes with each build.
fn made_from(root: &Path) -> Vec<PathBuf> {
    let mut found = vec![root.join("library"), root.join("crates.txt")];
    for folder in fs::read_dir(root.join("crates")).unwrap() {
        let folder = folder.unwrap().path();
        found.extend(["src", "specs", "proofs"].map(|part| folder.join(part)).into_iter().filter(|part| part.is_dir()));
    }
    found
}

fn main() {
    let root = Path::new(&env::var("CARGO_MANIFEST_DIR").unwrap()).join("../..");
    println!("cargo:rerun-if-env-changed=PYLTARKA_LIB_DIR");
    println!("cargo:rerun-if-changed=build.rs");
    let archive = match env::var("PYLTARKA_LIB_DIR") {
        Ok(dir) => {
            let archive = Path::new(&dir).join("libstation.a");
            println!("cargo:rerun-if-changed={}", archive.display());
            archive
        }
        Err(_) => {
            for made_from in made_from(&root) {
                println!("cargo:rerun-if-changed={}", made_from.display());
            }
            proved_library(&root)
        }
    };
    // A copy of our own, so that a cleaned target/ in the root does not pull the library away from under a built crate.
    let out = PathBuf::from(env::var("OUT_DIR").unwrap());
    if let Err(why) = fs::copy(&archive, out.join("libstation.a")) {
        panic!("{}: {why}", archive.display());
    }
    println!("cargo:rustc-link-search=native={}", out.display());
    println!("cargo:rustc-link-lib=static=station");
}
