//! Finds libvumneath.a: in the folder that VUMNEATH_LIB_DIR names, else in lib/ of the prefix that this crate was installed
//! into, else where `tools/prove vumneath` leaves it in the repository.
use std::env;
use std::path::PathBuf;

fn main() {
    println!("cargo:rerun-if-env-changed=VUMNEATH_LIB_DIR");
    let here = PathBuf::from(env::var_os("CARGO_MANIFEST_DIR").expect("cargo sets CARGO_MANIFEST_DIR"));
    let folders = match env::var_os("VUMNEATH_LIB_DIR") {
        Some(folder) => vec![PathBuf::from(folder)],
        None => vec![here.join("../../../lib"), here.join("../../target/staticlib")],
    };
    let Some(folder) = folders.iter().find(|folder| folder.join("libvumneath.a").is_file()) else {
        panic!("no libvumneath.a in {folders:?}: build it with ./install PREFIX and set VUMNEATH_LIB_DIR to PREFIX/lib");
    };
    println!("cargo:rerun-if-changed={}", folder.join("libvumneath.a").display());
    println!("cargo:rustc-link-search=native={}", folder.display());
    println!("cargo:rustc-link-lib=static=vumneath");
}
