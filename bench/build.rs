// Links the proved static libraries, which bench/run has put under target/, and the kit's C code.
use std::path::{Path, PathBuf};
use std::process::Command;

fn main() {
    let root = Path::new(env!("CARGO_MANIFEST_DIR")).parent().expect("bench/ stands in the repository");
    let libraries = root.join("target/staticlib");
    let told = Command::new("rt").arg("doc").output().expect("the Rattle kit is on the path");
    let guide = PathBuf::from(String::from_utf8_lossy(&told.stdout).trim());
    let kit = guide.parent().expect("the guide stands in the kit").join("c");
    println!("cargo:rustc-link-search=native={}", libraries.display());
    println!("cargo:rustc-link-search=native={}", kit.display());
    println!("cargo:rustc-link-lib=static=harness");
    println!("cargo:rustc-link-lib=static=reader");
    println!("cargo:rustc-link-lib=static=libc_c");
    for library in ["libharness.a", "libreader.a"] {
        println!("cargo:rerun-if-changed={}", libraries.join(library).display());
    }
}
