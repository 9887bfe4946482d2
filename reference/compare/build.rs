//! Links the proved calls: `sh scripts/build` writes the archive.

fn main() {
    let root = std::env::var("CARGO_MANIFEST_DIR").unwrap();
    let folder = format!("{root}/../../target/staticlib");
    println!("cargo:rustc-link-search=native={folder}");
    println!("cargo:rustc-link-lib=static=jangoripu");
    println!("cargo:rerun-if-changed={folder}/libjangoripu.a");
}
