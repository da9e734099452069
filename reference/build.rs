//! With the feature `engine`: links the proved engine, a static library, and tells packages that build on this one that it is there.
//! Without that file they can do without the engine, and what calls it does not link.

use std::env;
use std::path::PathBuf;

fn main() {
    println!("cargo:rerun-if-changed=build.rs");
    println!("cargo:rerun-if-env-changed=SATUPHIR_LIB");
    if env::var_os("CARGO_FEATURE_ENGINE").is_none() {
        return;
    }
    let folder = match env::var_os("SATUPHIR_LIB") {
        Some(folder) => PathBuf::from(folder),
        None => {
            let here = env::var_os("CARGO_MANIFEST_DIR").expect("cargo names the package's folder");
            PathBuf::from(here).join("../target/staticlib")
        }
    };
    let library = folder.join("libsatuphir.a");
    println!("cargo:rerun-if-changed={}", library.display());
    if !library.is_file() {
        println!(
            "cargo:warning=no library {}: there is no proved engine here; write it with \
             `tools/library.sh`, or name its folder in SATUPHIR_LIB",
            library.display()
        );
        return;
    }
    println!("cargo:rustc-link-search=native={}", folder.display());
    println!("cargo:rustc-link-lib=static=satuphir");
    println!("cargo:library=linked");
}
