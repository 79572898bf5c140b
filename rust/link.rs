// For the build scripts of `checker` and `load`: links a static library of the
// product, from the folder that CHECKER_LIB_DIR names, else from the `lib` of the
// release that this stands in, installed or unpacked, else from where the
// repository's commands put it.

use std::env;
use std::path::{Path, PathBuf};

fn link(name: &str) {
    println!("cargo:rerun-if-changed=build.rs");
    println!("cargo:rerun-if-changed=../link.rs");
    println!("cargo:rerun-if-env-changed=CHECKER_LIB_DIR");
    let top = Path::new(env!("CARGO_MANIFEST_DIR")).join("../..");
    let ours = || top.join(place(&top));
    let folder = env::var_os("CHECKER_LIB_DIR").map_or_else(ours, PathBuf::from);
    let library = folder.join(format!("lib{name}.a"));
    let Ok(library) = library.canonicalize() else {
        let path = library.display();
        panic!("there is no {path}: {}", advice(name, &top));
    };
    let folder = library.parent().expect("a file has a folder");
    println!("cargo:rerun-if-changed={}", library.display());
    println!("cargo:rustc-link-search=native={}", folder.display());
    println!("cargo:rustc-link-lib=static={name}");
}

// Where the libraries lie, from the folder with `rust` in it. A release has its
// manifest there; an installed one, in share/doc/ocl-checker, its list of files too.
fn place(top: &Path) -> &'static str {
    if top.join("FILES").exists() {
        "../../../lib"
    } else if top.join("MANIFEST").exists() {
        "lib"
    } else {
        "target/staticlib"
    }
}

// Whoever has a release has no toolchain, so each is told what is at hand.
fn advice(name: &str, top: &Path) -> String {
    let folder = format!("name the folder of lib{name}.a by CHECKER_LIB_DIR");
    if top.join("MANIFEST").exists() {
        folder
    } else {
        format!("run `./test`, or {folder}")
    }
}
