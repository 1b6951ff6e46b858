//! Links `liblca.a`: from the folder in `LCA_LIB_DIR` if that is set, otherwise from where `bash tools/build.sh lca` writes it.

use std::env;
use std::path::{Path, PathBuf};

fn main() {
    println!("cargo::rerun-if-env-changed=LCA_LIB_DIR");
    let folder = match env::var_os("LCA_LIB_DIR") {
        Some(folder) => PathBuf::from(folder),
        None => Path::new(&env::var_os("CARGO_MANIFEST_DIR").expect("cargo sets it"))
            .join("../../target/staticlib"),
    };
    let archive = folder.join("liblca.a");
    println!("cargo::rerun-if-changed={}", archive.display());
    if archive.is_file() {
        println!("cargo::rustc-link-search=native={}", folder.display());
        println!("cargo::rustc-link-lib=static=lca");
    } else {
        println!(
            "cargo::error={} is not there: run `bash tools/build.sh lca` at the top of the repository first",
            archive.display()
        );
    }
}
