//! Links the proved archive. HANDOVER_LIB names the folder that holds libhandover_c.a; without it, the one that `make` fills.
use std::env;
use std::path::Path;

fn main() {
    let here = env::var("CARGO_MANIFEST_DIR").expect("cargo sets it");
    let built = Path::new(&here).join("../../target/staticlib");
    let folder = env::var("HANDOVER_LIB").unwrap_or_else(|_| built.display().to_string());
    println!("cargo:rerun-if-env-changed=HANDOVER_LIB");
    println!("cargo:rerun-if-changed={folder}/libhandover_c.a");
    println!("cargo:rustc-link-search=native={folder}");
    println!("cargo:rustc-link-lib=static=handover_c");
}
