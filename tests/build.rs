//! Links the proved static library, which stands in ../target/staticlib.

use std::env;
use std::path::Path;

fn main() {
    let package = env::var("CARGO_MANIFEST_DIR").expect("cargo names the package folder");
    let folder = Path::new(&package).join("../target/staticlib");
    let library = folder.join("libflowplan.a");
    println!("cargo:rerun-if-changed=build.rs");
    println!("cargo:rerun-if-changed={}", library.display());
    if !library.is_file() {
        panic!(
            "{} is missing: run `make library` in the repository root first",
            library.display()
        );
    }
    println!("cargo:rustc-link-search=native={}", folder.display());
    println!("cargo:rustc-link-lib=static=flowplan");
}
