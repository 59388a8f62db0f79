//! Links libcapi.a, from the folder SEGMENT_CACHE_LIB_DIR or else from where `make library` puts it.
use std::env;
use std::path::PathBuf;

fn main() {
    println!("cargo::rerun-if-env-changed=SEGMENT_CACHE_LIB_DIR");
    let folder = match env::var_os("SEGMENT_CACHE_LIB_DIR") {
        Some(folder) => PathBuf::from(folder),
        None => PathBuf::from(env!("CARGO_MANIFEST_DIR")).join("../../target/staticlib"),
    };
    let library = folder.join("libcapi.a");
    println!("cargo::rerun-if-changed={}", library.display());
    if !library.is_file() {
        println!(
            "cargo::error={} is missing: set SEGMENT_CACHE_LIB_DIR to the folder of libcapi.a",
            library.display()
        );
    }
    println!("cargo::rustc-link-search=native={}", folder.display());
    println!("cargo::rustc-link-lib=static=capi");
}
