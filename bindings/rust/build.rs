//! Finds libskarvolm.a: in the folder that SKARVOLM_LIB names, else where `tools/staticlib` puts it.
use std::env;
use std::path::{Path, PathBuf};

fn main() {
    println!("cargo:rerun-if-changed=build.rs");
    println!("cargo:rerun-if-env-changed=SKARVOLM_LIB");
    let machine = (variable("CARGO_CFG_TARGET_ARCH"), variable("CARGO_CFG_TARGET_OS"));
    if machine != ("x86_64".into(), "linux".into()) {
        panic!(
            "libskarvolm.a is for x86-64 Linux, and the target is {} {}",
            machine.0, machine.1
        );
    }
    let folder = match env::var_os("SKARVOLM_LIB") {
        Some(folder) => PathBuf::from(folder),
        None => Path::new(&variable("CARGO_MANIFEST_DIR")).join("../../target/staticlib"),
    };
    let library = folder.join("libskarvolm.a");
    println!("cargo:rerun-if-changed={}", library.display());
    if !library.exists() {
        panic!(
            "no {}: run `tools/staticlib`, or set SKARVOLM_LIB to its folder",
            library.display()
        );
    }
    println!("cargo:rustc-link-search=native={}", folder.display());
    println!("cargo:rustc-link-lib=static=skarvolm");
}

fn variable(name: &str) -> String {
    env::var(name).unwrap_or_else(|_| panic!("cargo sets {name}"))
}
