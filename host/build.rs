//! Tells the linker where the proved libraries are. `make lib` writes them to target/staticlib;
//! VORRUDA_LIB_DIR names another folder.

use std::env;
use std::path::{Path, PathBuf};

fn main() {
    let folder = env::var_os("VORRUDA_LIB_DIR").map_or_else(usual_folder, PathBuf::from);
    println!("cargo:rerun-if-env-changed=VORRUDA_LIB_DIR");
    println!("cargo:rerun-if-changed=build.rs");
    for library in ["libvorruda.a", "libvorruda_list.a"] {
        println!("cargo:rerun-if-changed={}", folder.join(library).display());
    }
    println!("cargo:rustc-link-search=native={}", folder.display());
}

fn usual_folder() -> PathBuf {
    let package = env::var_os("CARGO_MANIFEST_DIR").expect("cargo names the package's folder");
    Path::new(&package).join("../target/staticlib")
}
