//! Links libpuljemrod.a from the folder that PULJEMROD_DIST names; else from native/, which a
//! packed crate has; else from dist/ of this repository.

use std::env;
use std::path::Path;

fn main() {
    let here = env::var("CARGO_MANIFEST_DIR").unwrap();
    let native = format!("{here}/native");
    let folder = if Path::new(&native).exists() { native } else { format!("{here}/../../dist") };
    let dist = env::var("PULJEMROD_DIST").unwrap_or(folder);
    if !Path::new(&dist).join("libpuljemrod.a").exists() {
        panic!("no libpuljemrod.a in {dist}: ./puljemrod build library makes one");
    }
    println!("cargo:rustc-link-search=native={dist}");
    println!("cargo:rustc-link-lib=static=puljemrod");
    println!("cargo:rerun-if-env-changed=PULJEMROD_DIST");
    println!("cargo:rerun-if-changed={dist}/libpuljemrod.a");
}
