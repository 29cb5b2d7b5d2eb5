//! Links the proved library, which `bench/compare` puts there.

use std::path::Path;

fn main() {
    let here = std::env::var("CARGO_MANIFEST_DIR").expect("cargo names the folder of the package");
    let folder = Path::new(&here).join("../target/staticlib");
    println!("cargo::rustc-link-search=native={}", folder.display());
    println!("cargo::rustc-link-lib=static=bridge");
    println!(
        "cargo::rerun-if-changed={}",
        folder.join("libbridge.a").display()
    );
}
