// Links the proved field functions that `host/build` writes below target/ of the repository. Without
// that library the rest of the benchmark still builds; the part about fields then says what is missing.
use std::path::PathBuf;

fn main() {
    let here = std::env::var("CARGO_MANIFEST_DIR").expect("cargo sets it");
    let folder = PathBuf::from(here).join("../../target/staticlib");
    let library = folder.join("libfield_bench.a");
    println!("cargo:rerun-if-changed={}", library.display());
    println!("cargo:rustc-check-cfg=cfg(field_library)");
    if library.exists() {
        println!("cargo:rustc-cfg=field_library");
        println!("cargo:rustc-link-search=native={}", folder.display());
        println!("cargo:rustc-link-lib=static=field_bench");
    }
}
