//! Links the proved archive, which `tools/build furlazon` writes. FURLAZON_LIBRARY names its folder where that is another one.

use std::{env, path::PathBuf};

fn main() {
    let package = PathBuf::from(env::var("CARGO_MANIFEST_DIR").expect("set by cargo"));
    let folder = match env::var_os("FURLAZON_LIBRARY") {
        Some(folder) => PathBuf::from(folder),
        None => package.join("../../../target/staticlib"),
    };
    println!("cargo:rerun-if-env-changed=FURLAZON_LIBRARY");
    println!("cargo:rerun-if-changed={}", folder.join("libfurlazon.a").display());
    println!("cargo:rustc-link-search=native={}", folder.display());
    println!("cargo:rustc-link-lib=static=furlazon");
}
