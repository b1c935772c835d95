//! Names the folder of the static libraries: MANTELORRIS_STATICLIB, or where tools/staticlib.sh puts them. Compiles the plain passes in C
//! that the benchmark holds the proved code to, with `cc -O3`.

use std::env;
use std::path::{Path, PathBuf};
use std::process::Command;

fn main() {
    let package = env::var_os("CARGO_MANIFEST_DIR").expect("cargo names the package's folder");
    let folder = env::var_os("MANTELORRIS_STATICLIB").map_or_else(
        || Path::new(&package).join("../target/staticlib"),
        PathBuf::from,
    );
    println!("cargo:rerun-if-env-changed=MANTELORRIS_STATICLIB");
    println!("cargo:rustc-link-search=native={}", folder.display());
    println!("cargo:rerun-if-changed={}", folder.display());
    plain_pass(&Path::new(&package).join("../bench/pass.c"));
}

/// The archive libpass.a of one C file.
fn plain_pass(source: &Path) {
    let out = PathBuf::from(env::var_os("OUT_DIR").expect("cargo names a folder to write to"));
    let (object, archive) = (out.join("pass.o"), out.join("libpass.a"));
    let compiler = env::var_os("CC").unwrap_or_else(|| "cc".into());
    run(Command::new(compiler)
        .args(["-O3", "-c", "-o"])
        .arg(&object)
        .arg(source));
    run(Command::new("ar").arg("crs").arg(&archive).arg(&object));
    println!("cargo:rustc-link-search=native={}", out.display());
    println!("cargo:rerun-if-changed={}", source.display());
    println!("cargo:rerun-if-env-changed=CC");
}

fn run(command: &mut Command) {
    let status = command.status().expect("the program starts");
    assert!(status.success(), "{command:?}");
}
