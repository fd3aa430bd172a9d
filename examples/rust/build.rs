//! Links the static library that `rt lib` leaves in the repository's crates/exports/out/.

use std::env;
use std::path::Path;

fn main() {
    let manifest = env::var("CARGO_MANIFEST_DIR").expect("cargo names the package's directory");
    let folder = Path::new(&manifest).join("../../crates/exports/out");
    let archive = folder.join("libexports.a");
    println!("cargo:rerun-if-changed={}", archive.display());
    assert!(
        archive.is_file(),
        "crates/exports/out/libexports.a is missing; make it with: (cd crates/exports && rt lib)"
    );
    println!("cargo:rustc-link-search=native={}", folder.display());
    println!("cargo:rustc-link-lib=static=exports");
}
