//! Finds the static library, which `rt lib` in crates/exports writes, and links it.

use std::env;
use std::path::{Path, PathBuf};

const NAME: &str = "libexports.a";

fn main() {
    println!("cargo::rerun-if-env-changed=RULKETOOS_LIB");
    println!("cargo::rerun-if-changed=build.rs");
    let library = library();
    println!("cargo::rerun-if-changed={}", library.display());
    if !library.is_file() {
        println!(
            "cargo::error={} is missing: run `rt lib` in crates/exports of Rulketoos, or let RULKETOOS_LIB name the library or its folder",
            library.display()
        );
        return;
    }
    let folder = library.parent().unwrap_or(Path::new("."));
    println!("cargo::rustc-link-search=native={}", folder.display());
    println!("cargo::rustc-link-lib=static=exports");
}

/// RULKETOOS_LIB, the library or its folder; else the repository's own.
fn library() -> PathBuf {
    let Some(given) = env::var_os("RULKETOOS_LIB") else {
        let package = env::var_os("CARGO_MANIFEST_DIR").expect("the package's folder");
        let root = Path::new(&package).join("../..");
        let root = root.canonicalize().unwrap_or(root);
        return root.join("crates/exports/out").join(NAME);
    };
    let given = PathBuf::from(given);
    if given.ends_with(NAME) {
        given
    } else {
        given.join(NAME)
    }
}
