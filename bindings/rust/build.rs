//! Finds the static libraries that `./s390x library` makes.

use std::env;
use std::path::PathBuf;

fn main() {
    println!("cargo:rerun-if-env-changed=S390X_LIBRARY");
    let folder = match env::var_os("S390X_LIBRARY") {
        Some(folder) => PathBuf::from(folder),
        None => PathBuf::from(env::var_os("CARGO_MANIFEST_DIR").unwrap()).join("../../out/library"),
    };
    let mut names = vec!["s390x_decode_c"];
    if env::var_os("CARGO_FEATURE_EMIT").is_some() {
        names.push("s390x_c");
    }
    println!("cargo:rustc-link-search=native={}", folder.display());
    for name in names {
        let archive = folder.join(format!("lib{name}.a"));
        if !archive.exists() {
            panic!("{} isn't there: run ./s390x library first, or name the folder that has it by S390X_LIBRARY", archive.display());
        }
        println!("cargo:rerun-if-changed={}", archive.display());
        println!("cargo:rustc-link-lib=static={name}");
    }
}
