//! The benchmark: the library's calls and the Rust's in one process on the same tables. It prints what it measured, writes it between
//! the marks of docs/SPEED.md, and draws docs/speed.svg. `./bench` in the repository's root builds and runs it; docs/SPEED.md says
//! what is timed and what is not. With `--quick` a fiftieth of the rounds are run, and the documents stay as they are.

#[cfg(all(station, number_loops))]
mod document;
#[cfg(all(station, number_loops))]
#[path = "../../functions.rs"]
mod functions;
#[cfg(all(station, number_loops))]
mod leaves;
#[cfg(all(station, number_loops))]
mod measure;
#[cfg(all(station, number_loops))]
mod plot;
#[cfg(all(station, number_loops))]
mod tables;

#[cfg(all(station, number_loops))]
fn main() {
    if !original::PRESENT {
        println!("skipped: the Rust's files are not in ../shared/docs/src, and PYLTARKA_RUST names no other folder: there is nothing to compare with");
        return;
    }
    let quick = std::env::args().any(|argument| argument == "--quick");
    let rounds = if quick { 0.02 } else { 1.0 };
    let machine = document::machine();
    let mut folders = tables::Folders::new();
    let mut measures = measure::sizes(&mut folders);
    let mut leaves = leaves::by_parts();
    let mut numbers = leaves::numbers();
    let mut in_order = measure::growth(false, &mut folders);
    let mut shuffled = measure::growth(true, &mut folders);
    original::Table::unlimited();
    measure::run(&mut measures, rounds);
    measure::run(&mut leaves, rounds);
    measure::run(&mut numbers, rounds);
    measure::run(&mut in_order, rounds);
    measure::run(&mut shuffled, rounds);
    let text = document::text(&machine, &measures, [&leaves, &numbers], [&in_order, &shuffled]);
    println!("{text}");
    if quick {
        return;
    }
    let docs = std::path::Path::new(env!("CARGO_MANIFEST_DIR")).join("../docs");
    document::write(&docs.join("SPEED.md"), &text);
    let drawing = plot::drawing(&measures, &in_order, &shuffled);
    std::fs::write(docs.join("speed.svg"), drawing).expect("docs/speed.svg");
    println!("written: docs/SPEED.md, docs/speed.svg");
}

#[cfg(not(all(station, number_loops)))]
fn main() {
    println!("skipped: libstation.a or libnumber_loops.a was not in target/staticlib when this was built; `./bench` writes both");
}
