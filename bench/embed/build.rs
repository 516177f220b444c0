//! Links the static library of the crate `embed`, which `rt lib` builds, and the C part of the toolchain's library.

use std::path::{Path, PathBuf};
use std::process::Command;
use std::{env, process};

fn main() {
    let here = PathBuf::from(env::var_os("CARGO_MANIFEST_DIR").expect("cargo sets it"));
    let library = match env::var_os("JILAFOTRA_LIBRARY") {
        Some(folder) => PathBuf::from(folder),
        None => here.join("../../crates/embed/out"),
    };
    println!("cargo:rerun-if-env-changed=JILAFOTRA_LIBRARY");
    link(&library, "embed");
    link(&toolchain().join("c"), "libc_c");
}

/// Links the library of a name in a folder.
fn link(folder: &Path, name: &str) {
    let file = folder.join(format!("lib{name}.a"));
    if !file.exists() {
        eprintln!(
            "{} is not there: run `rt lib` in crates/embed",
            file.display()
        );
        process::exit(1);
    }
    println!("cargo:rerun-if-changed={}", file.display());
    println!("cargo:rustc-link-search=native={}", folder.display());
    println!("cargo:rustc-link-lib=static={name}");
}

/// The folder of the toolchain: that of its first page.
fn toolchain() -> PathBuf {
    let page = Command::new("rt").arg("doc").output();
    let page = page.expect("rt has to be there").stdout;
    let page = String::from_utf8(page).expect("a path is text");
    let folder = Path::new(page.trim()).parent();
    folder.expect("a file lies in a folder").to_path_buf()
}
