// Links the proved library that `host/build` writes below target/ of the repository. It is not made here:
// proving it takes minutes, and belongs in front of the build.
use std::path::PathBuf;
use std::process::exit;

fn main() {
    let here = std::env::var("CARGO_MANIFEST_DIR").expect("cargo sets it");
    let repository = PathBuf::from(here).join("../..").canonicalize().expect("the repository");
    let folder = repository.join("target/staticlib");
    let library = folder.join("libgateway.a");
    println!("cargo:rerun-if-changed={}", library.display());
    if !library.is_file() {
        eprintln!("The proved library is missing: {}", library.display());
        eprintln!("Make it first, in {}:\n\n    host/build\n", repository.display());
        exit(1);
    }
    println!("cargo:rustc-link-search=native={}", folder.display());
    println!("cargo:rustc-link-lib=static=gateway");
}
