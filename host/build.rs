//! Links the two static libraries, from the directory that the variable CHARKHAVO_LIBRARIES
//! names or else from where `host/libraries` puts those of the target that is compiled for; with
//! the feature `before` also the earlier controller that `host/speed` puts there.

use std::env;
use std::path::{Path, PathBuf};

const VARIABLE: &str = "CHARKHAVO_LIBRARIES";

fn main() {
    println!("cargo::rerun-if-env-changed={VARIABLE}");
    let place = place();
    println!("cargo::rustc-link-search=native={}", place.display());
    for name in ["controller", "loader"] {
        link(&place, name);
    }
    if env::var_os("CARGO_FEATURE_BEFORE").is_some() {
        link(&place, "before");
    }
}

fn place() -> PathBuf {
    match env::var_os(VARIABLE) {
        Some(place) => PathBuf::from(place),
        None => {
            let package = env::var_os("CARGO_MANIFEST_DIR").expect("cargo names the package");
            let target = env::var_os("CARGO_CFG_TARGET_ARCH").expect("cargo names the target");
            Path::new(&package).join("../target/libraries").join(target)
        }
    }
}

fn link(place: &Path, name: &str) {
    let library = place.join(format!("lib{name}.a"));
    println!("cargo::rerun-if-changed={}", library.display());
    if !library.is_file() {
        println!(
            "cargo::error=no library {}: make it by `host/libraries`, or set {VARIABLE} to the \
             directory that holds libcontroller.a and libloader.a",
            library.display()
        );
        return;
    }
    println!("cargo::rustc-link-lib=static={name}");
}
