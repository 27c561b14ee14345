//! Finds the proved library, libcapi.a, and has it linked.
use std::path::PathBuf;

fn main() {
    println!("cargo:rerun-if-env-changed=VESSELMAP_LIB");
    let here = PathBuf::from(std::env::var_os("CARGO_MANIFEST_DIR").unwrap());
    let folder = match std::env::var_os("VESSELMAP_LIB") {
        Some(named) => here.join(named),
        None => here.join("../../crates/capi/out"),
    };
    let library = folder.join("libcapi.a");
    println!("cargo:rerun-if-changed={}", library.display());
    if !library.is_file() {
        eprintln!(
            "error: {} is not there. Run `rt lib` in crates/capi, which proves the library and \
             writes it, or name the folder that has libcapi.a in the environment variable VESSELMAP_LIB.",
            library.display()
        );
        std::process::exit(1);
    }
    println!("cargo:rustc-link-search=native={}", folder.display());
    println!("cargo:rustc-link-lib=static=capi");
}
