//! Programs in C over the proved engine's library.

use super::documents::root;
use super::run::fresh;
use std::path::{Path, PathBuf};
use std::process::Command;

pub fn example(name: &str) -> PathBuf {
    root().join("c").join(name)
}

/// A program in C, compiled over the proved engine's library.
pub fn compiled(source: &Path) -> PathBuf {
    let root = root();
    let library = match std::env::var_os("SATUPHIR_LIB") {
        Some(folder) => PathBuf::from(folder),
        None => root.join("target/staticlib"),
    };
    let name = source.file_stem().expect("a name");
    let program = fresh(&format!("c-{}", name.to_string_lossy())).join(name);
    let output = Command::new("cc")
        .args(["-std=c99", "-Wall", "-Wextra", "-Werror", "-pedantic"])
        .arg("-I")
        .arg(root.join("c"))
        .arg(source)
        .arg(library.join("libsatuphir.a"))
        .arg("-o")
        .arg(&program)
        .output()
        .expect("a C compiler, cc");
    let said = String::from_utf8_lossy(&output.stderr);
    assert!(output.status.success(), "{said}");
    program
}
