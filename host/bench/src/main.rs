//! The proved code against the same rules in Rust: first that both give the same answers, then what each costs.
//! `--same` stops after the first.

mod calls;
mod cells;
mod draft;
mod fast;
mod field;
mod random;
mod same;
mod samples;
mod timing;

use std::process::ExitCode;

/// Whether the field functions could be compared: the library with them has to be there.
fn fields(quick: bool) -> bool {
    if !cfg!(field_library) {
        println!("field functions left out: no target/staticlib/libfield_bench.a (host/build)");
        return false;
    }
    field::run(quick);
    true
}

fn main() -> ExitCode {
    let quick = std::env::args().any(|word| word == "--same");
    let whole = fields(quick);
    same::run();
    if !quick {
        calls::run();
        calls::growth();
    }
    // A comparison that left something out is not passed.
    if quick && !whole {
        return ExitCode::FAILURE;
    }
    ExitCode::SUCCESS
}
