//! Finds libbalecreak.a: the folder named by BALECREAK_LIB, or target/staticlib of the repository,
//! where `bindings/archive` puts it.
use std::env;
use std::path::{Path, PathBuf};

fn main() {
    println!("cargo:rerun-if-env-changed=BALECREAK_LIB");
    let made = Path::new(env!("CARGO_MANIFEST_DIR")).join("../../target/staticlib");
    let folder = env::var_os("BALECREAK_LIB").map_or(made, PathBuf::from);
    let library = folder.join("libbalecreak.a");
    println!("cargo:rerun-if-changed={}", library.display());
    if !library.exists() {
        println!(
            "cargo:warning=no {}: run `bindings/archive`, or set BALECREAK_LIB to its folder",
            library.display()
        );
    }
    println!("cargo:rustc-link-search=native={}", folder.display());
    println!("cargo:rustc-link-lib=static=balecreak");
}
