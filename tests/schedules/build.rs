//! Names the folder of the static libraries: MANTELORRIS_STATICLIB, or where tools/staticlib.sh puts them.

use std::env;
use std::path::{Path, PathBuf};

fn main() {
    let package = env::var_os("CARGO_MANIFEST_DIR").expect("cargo names the package's folder");
    let folder = env::var_os("MANTELORRIS_STATICLIB").map_or_else(
        || Path::new(&package).join("../../target/staticlib"),
        PathBuf::from,
    );
    println!("cargo:rerun-if-env-changed=MANTELORRIS_STATICLIB");
    println!("cargo:rustc-link-search=native={}", folder.display());
    println!(
        "cargo:rerun-if-changed={}",
        folder.join("libsimulator_c.a").display()
    );
}
