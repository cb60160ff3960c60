//! Links the static library from the folder that JAFRELIN_LIB names, where the feature `library` is on.

use std::env;

fn main() {
    println!("cargo:rerun-if-env-changed=JAFRELIN_LIB");
    if env::var_os("CARGO_FEATURE_LIBRARY").is_none() {
        return;
    }
    let folder = env::var("JAFRELIN_LIB").expect("JAFRELIN_LIB names the folder of libjafrelin.a");
    println!("cargo:rustc-link-search=native={folder}");
    println!("cargo:rustc-link-lib=static=jafrelin");
    println!("cargo:rerun-if-changed={folder}/libjafrelin.a");
}
