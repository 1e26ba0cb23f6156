//! Links the static library that `tools/built embed_c` makes in the repository's root, or the one in the folder that BANSHORRA_LIB names.

use std::path::PathBuf;
use std::{env, process};

fn main() {
    let host = PathBuf::from(env::var_os("CARGO_MANIFEST_DIR").expect("set by cargo"));
    let root = host
        .parent()
        .expect("host/ stands in the repository's root");
    let folder = env::var_os("BANSHORRA_LIB").map_or(root.join("target/staticlib"), PathBuf::from);
    let library = folder.join("libembed.a");
    println!("cargo:rerun-if-env-changed=BANSHORRA_LIB");
    println!("cargo:rerun-if-changed={}", library.display());
    if !library.is_file() {
        eprintln!("There is no {}.", library.display());
        eprintln!("Run `tools/built embed_c` in {} first.", root.display());
        process::exit(1);
    }
    println!("cargo:rustc-link-search=native={}", folder.display());
    println!("cargo:rustc-link-lib=static=embed");
}
