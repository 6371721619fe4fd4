//! Finds the library: in the folder that SSZ_LIB_DIR names, or else by pkg-config.

use std::env;
use std::process::Command;

fn main() {
    println!("cargo:rerun-if-env-changed=SSZ_LIB_DIR");
    println!("cargo:rerun-if-env-changed=PKG_CONFIG_PATH");
    let folder = match env::var("SSZ_LIB_DIR") {
        Ok(folder) => folder,
        Err(_) => by_pkg_config(),
    };
    println!("cargo:rerun-if-changed={folder}/libssz.a");
    println!("cargo:rustc-link-search=native={folder}");
    println!("cargo:rustc-link-lib=static=ssz");
}

/// The folder that `pkg-config` says, and an end with advice where it says none.
fn by_pkg_config() -> String {
    let asked = Command::new("pkg-config").args(["--variable=libdir", "ssz"]).output();
    let said = asked.ok().filter(|said| said.status.success());
    let folder = said.map(|said| String::from_utf8_lossy(&said.stdout).trim().to_string());
    folder.filter(|folder| !folder.is_empty()).unwrap_or_else(|| {
        panic!(
            "libssz.a was not found: run ./install PREFIX in the repository of ssz, and set SSZ_LIB_DIR=PREFIX/lib \
             or PKG_CONFIG_PATH=PREFIX/lib/pkgconfig"
        )
    })
}
