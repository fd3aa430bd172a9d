//! Tells the linker where the product's static library lies, and relinks when it changes.

use std::path::Path;

fn main() {
    let folder = std::env::var("CARGO_MANIFEST_DIR").expect("cargo sets the manifest folder");
    let libraries = Path::new(&folder).join("../crates/exports/out");
    println!("cargo::rustc-link-search=native={}", libraries.display());
    println!(
        "cargo::rerun-if-changed={}",
        libraries.join("libexports.a").display()
    );
}
