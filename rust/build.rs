//! Links libbridgecrumb.a, out of the folder that BRIDGECRUMB_LIB names or else ../target/staticlib.

use std::env;
use std::path::PathBuf;
use std::process::exit;

fn folder() -> PathBuf {
    match env::var_os("BRIDGECRUMB_LIB") {
        Some(named) => PathBuf::from(named),
        None => [env!("CARGO_MANIFEST_DIR"), "..", "target", "staticlib"].iter().collect(),
    }
}

fn main() {
    let folder = folder();
    let archive = folder.join("libbridgecrumb.a");
    println!("cargo:rerun-if-env-changed=BRIDGECRUMB_LIB");
    println!("cargo:rerun-if-changed={}", archive.display());
    let found = match folder.canonicalize() {
        Ok(found) if archive.is_file() => found,
        _ => {
            eprintln!("there is no {}", archive.display());
            eprintln!("write it by `tests/archive` in the repository's root,");
            eprintln!("or set BRIDGECRUMB_LIB to the folder that has libbridgecrumb.a");
            exit(1);
        }
    };
    println!("cargo:rustc-link-search=native={}", found.display());
    println!("cargo:rustc-link-lib=static=bridgecrumb");
}
