//! Where the port's static library lies: the folder that EXPORTS names, or the one that crates/exports/build fills.

fn main() {
    let folder = std::env::var("EXPORTS").unwrap_or_else(|_| format!("{}/../target/staticlib", env!("CARGO_MANIFEST_DIR")));
    println!("cargo:rustc-link-search=native={folder}");
    println!("cargo:rustc-link-lib=static=exports");
    println!("cargo:rerun-if-changed={folder}/libexports.a");
    println!("cargo:rerun-if-env-changed=EXPORTS");
}
