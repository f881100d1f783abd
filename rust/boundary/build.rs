//! Finds the product's archive and the probe's, if they are asked for.

use std::env;
use std::path::Path;

const FOLDER: &str = "X2U_ARCHIVES";

fn main() {
    println!("cargo:rerun-if-env-changed={FOLDER}");
    for (feature, below, name) in [
        ("PRODUCT", "", "x2u"),
        ("PROBE", "staticlib", "ledger_probe"),
    ] {
        if env::var_os(format!("CARGO_FEATURE_{feature}")).is_some() {
            link(below, name);
        }
    }
}

fn link(below: &str, name: &str) {
    let Some(folder) = env::var_os(FOLDER) else {
        panic!("{FOLDER} must name the folder of libx2u.a");
    };
    let folder = Path::new(&folder).join(below);
    let archive = folder.join(format!("lib{name}.a"));
    assert!(archive.exists(), "{} is not there", archive.display());
    println!("cargo:rerun-if-changed={}", archive.display());
    println!("cargo:rustc-link-search=native={}", folder.display());
    println!("cargo:rustc-link-lib=static={name}");
}
