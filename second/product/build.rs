//! Links the product's static library. Its folder comes from SHOALSWIFT_LIB,
//! or is the product's own target folder.

use std::env;
use std::path::Path;

fn main() {
    println!("cargo:rerun-if-env-changed=SHOALSWIFT_LIB");
    let manifest = env::var("CARGO_MANIFEST_DIR").expect("cargo names the manifest's folder");
    let folder = env::var("SHOALSWIFT_LIB").unwrap_or("../../target/staticlib".to_string());
    // A relative folder is taken from the manifest.
    let folder = Path::new(&manifest).join(folder);
    println!(
        "cargo:rerun-if-changed={}",
        folder.join("libshoalswift.a").display()
    );
    // As a static library it becomes part of this one, so the programs have
    // nothing more to link.
    println!("cargo:rustc-link-search=native={}", folder.display());
    println!("cargo:rustc-link-lib=static=shoalswift");
}
