use std::env;
use std::path::Path;

fn main() {
    let package = env::var("CARGO_MANIFEST_DIR").expect("the package's folder");
    let dir = Path::new(&package).join("../crates/cabi/out");
    println!("cargo:rustc-link-search=native={}", dir.display());
    println!("cargo:rustc-link-lib=static=cabi");
    println!("cargo:rerun-if-changed={}", dir.join("libcabi.a").display());
    println!("cargo:rerun-if-changed=build.rs");
}
