//! Links the archives that the features name. Their folder is
//! `FIDSHORE_ARCHIVE_DIR`, or the repository's `target/staticlib`.
use std::env;
use std::path::PathBuf;

fn main() {
    let dir = match env::var_os("FIDSHORE_ARCHIVE_DIR") {
        Some(dir) => PathBuf::from(dir),
        None => PathBuf::from(env::var_os("CARGO_MANIFEST_DIR").unwrap()).join("../../target/staticlib"),
    };
    println!("cargo:rustc-link-search=native={}", dir.display());
    println!("cargo:rerun-if-env-changed=FIDSHORE_ARCHIVE_DIR");
    for (feature, name) in [("CARGO_FEATURE_FIDSHORE", "fidshore"), ("CARGO_FEATURE_TESTCALLS", "testcalls")] {
        if env::var_os(feature).is_some() {
            println!("cargo:rustc-link-lib=static={name}");
            // A new archive must be linked again.
            println!("cargo:rerun-if-changed={}", dir.join(format!("lib{name}.a")).display());
        }
    }
}
