//! Links `libprettyless.a`, from the folder that `PRETTYLESS_LIB` names, or else from `../out`.

use std::env;
use std::path::PathBuf;

const ARCHIVE: &str = "libprettyless.a";

fn folder() -> PathBuf {
    match env::var_os("PRETTYLESS_LIB") {
        Some(folder) => PathBuf::from(folder),
        None => {
            PathBuf::from(env::var_os("CARGO_MANIFEST_DIR").expect("cargo names the crate's folder")).join("../out")
        }
    }
}

fn main() {
    println!("cargo:rerun-if-env-changed=PRETTYLESS_LIB");
    let folder = folder();
    let archive = folder.join(ARCHIVE);
    assert!(
        archive.is_file(),
        "there is no {}: make it by tools/bindings, or set PRETTYLESS_LIB to the absolute path of a folder that has it",
        archive.display(),
    );
    println!("cargo:rerun-if-changed={}", archive.display());
    println!("cargo:rustc-link-search=native={}", folder.display());
    println!("cargo:rustc-link-lib=static=prettyless");
}
