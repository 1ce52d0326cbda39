// Links the proved library, crates/lubdranit/out/liblubdranit.a of the repository, when the feature `proved` is on, and
// crates/test_timing/out/libtest_timing.a beside it when `timing` is.
// LUBDRANIT_DIR names another folder to look in, for both.

use std::path::PathBuf;

fn main() {
    println!("cargo::rerun-if-env-changed=LUBDRANIT_DIR");
    if std::env::var_os("CARGO_FEATURE_PROVED").is_none() {
        return;
    }
    link("lubdranit");
    if std::env::var_os("CARGO_FEATURE_TIMING").is_some() {
        link("test_timing");
    }
}

fn link(name: &str) {
    let folder = match std::env::var_os("LUBDRANIT_DIR") {
        Some(folder) => PathBuf::from(folder),
        None => PathBuf::from(std::env::var_os("CARGO_MANIFEST_DIR").unwrap()).join(format!("../crates/{name}/out")),
    };
    let library = folder.join(format!("lib{name}.a"));
    println!("cargo::rerun-if-changed={}", library.display());
    if !library.is_file() {
        println!("cargo::error=lib{name}.a is not in {}: build it with `rt lib` in crates/{name}", folder.display());
        return;
    }
    println!("cargo::rustc-link-search=native={}", folder.display());
    println!("cargo::rustc-link-lib=static={name}");
}
