//! Links libfulwethi.a of the folder that FULWETHI_LIB names; else of out/lib of this repository, where tools/library puts it.
use std::{env, path::Path};

fn main() {
    println!("cargo:rerun-if-env-changed=FULWETHI_LIB");
    let folder = env::var("FULWETHI_LIB").unwrap_or_else(|_| {
        let processor = env::var("CARGO_CFG_TARGET_ARCH").expect("cargo names the processor");
        let top = env::var("CARGO_MANIFEST_DIR").expect("cargo names the folder");
        format!("{top}/../../out/lib/{processor}")
    });
    let library = Path::new(&folder).join("libfulwethi.a");
    assert!(library.is_file(), "there is no {}: make it by tools/library, or set FULWETHI_LIB", library.display());
    println!("cargo:rerun-if-changed={}", library.display());
    println!("cargo:rustc-link-search=native={folder}");
    println!("cargo:rustc-link-lib=static=fulwethi");
}
