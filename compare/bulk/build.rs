//! Links the two archives of the proved side: `export` and `host`.

use std::env;
use std::path::PathBuf;

fn main() {
    let package = env::var_os("CARGO_MANIFEST_DIR").expect("cargo names the package's folder");
    let folder = match env::var_os("KOKUMSPAR_ARCHIVES") {
        Some(folder) => PathBuf::from(folder),
        None => PathBuf::from(package).join("../../target/staticlib"),
    };
    println!("cargo:rerun-if-env-changed=KOKUMSPAR_ARCHIVES");
    println!("cargo:rustc-link-search=native={}", folder.display());
    for name in ["export", "host"] {
        println!("cargo:rustc-link-lib=static={name}");
        println!("cargo:rerun-if-changed={}/lib{name}.a", folder.display());
    }
}
