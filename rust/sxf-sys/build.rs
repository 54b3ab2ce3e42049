// Links the archive that `rt lib` in crates/sxf writes, from the folder that SXF_LIB_DIR names or from the repository's own.
use std::env;
use std::path::{Path, PathBuf};

fn folder() -> PathBuf {
    match env::var_os("SXF_LIB_DIR") {
        Some(given) => PathBuf::from(given),
        None => Path::new(env!("CARGO_MANIFEST_DIR")).join("../../crates/sxf/out"),
    }
}

fn main() {
    let folder = folder();
    let archive = folder.join("libsxf.a");
    println!("cargo:rerun-if-env-changed=SXF_LIB_DIR");
    println!("cargo:rerun-if-changed={}", archive.display());
    if !archive.exists() {
        panic!(
            "no archive {}: run `rt lib` in the repository's crates/sxf first, or set SXF_LIB_DIR to the folder that has libsxf.a",
            archive.display()
        );
    }
    println!("cargo:rustc-link-search=native={}", folder.display());
    println!("cargo:rustc-link-lib=static=sxf");
}
