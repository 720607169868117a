//! Where the static library of the verified crates stands: `make` builds it.

fn main() {
    let root = std::env::var("CARGO_MANIFEST_DIR").expect("cargo names the package's folder");
    println!("cargo:rustc-link-search=native={root}/../target/staticlib");
    println!("cargo:rerun-if-changed={root}/../target/staticlib/libmazhoketh.a");
}
