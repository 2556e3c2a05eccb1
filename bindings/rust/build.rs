//! Links libgevrolen.a, from the folder that GEVROLEN_FOLDER names or from target/gevrolen, where bindings/build puts it.
use std::env;
use std::path::PathBuf;

fn main() {
    let here = PathBuf::from(env::var("CARGO_MANIFEST_DIR").unwrap());
    let folder = env::var("GEVROLEN_FOLDER").map_or_else(|_| here.join("../../target/gevrolen"), PathBuf::from);
    let library = folder.join("libgevrolen.a");
    println!("cargo:rerun-if-env-changed=GEVROLEN_FOLDER");
    println!("cargo:rerun-if-changed={}", library.display());
    assert!(library.exists(), "{} is not there: run bindings/build, or name its folder by GEVROLEN_FOLDER", library.display());
    println!("cargo:rustc-link-search=native={}", folder.display());
    println!("cargo:rustc-link-lib=static=gevrolen");
}
