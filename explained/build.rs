//! Sets the configuration `library` where the second implementation's package has linked the proved engine.

fn main() {
    println!("cargo:rerun-if-changed=build.rs");
    println!("cargo:rustc-check-cfg=cfg(library)");
    if std::env::var_os("DEP_SATUPHIR_LIBRARY").is_some() {
        println!("cargo:rustc-cfg=library");
    }
}
