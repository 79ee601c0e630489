//! Links the archive of the proved calls, which `rt lib` writes in crates/exports.

fn main() {
    let here = std::env::var("CARGO_MANIFEST_DIR").expect("cargo names the package's folder");
    let archives = format!("{here}/../crates/exports/out");
    println!("cargo:rustc-link-search=native={archives}");
    println!("cargo:rustc-link-lib=static=exports");
    println!("cargo:rerun-if-changed={archives}/libexports.a");
}
