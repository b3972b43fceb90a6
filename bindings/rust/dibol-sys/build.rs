//! Tells cargo where `libdibol.a` is: in the folder that `DIBOL_LIB_DIR` names, or else in the one
//! that pkg-config knows of.

use std::env;
use std::process::Command;

fn main() {
    println!("cargo:rerun-if-env-changed=DIBOL_LIB_DIR");
    println!("cargo:rerun-if-env-changed=PKG_CONFIG_PATH");
    let folder = env::var("DIBOL_LIB_DIR")
        .ok()
        .or_else(pkg_config_folder)
        .expect("DIBOL_LIB_DIR is not set, and pkg-config knows of no dibol");
    println!("cargo:rerun-if-changed={folder}/libdibol.a");
    println!("cargo:rustc-link-search=native={folder}");
    println!("cargo:rustc-link-lib=static=dibol");
}

/// The folder of the installed library, if pkg-config is on this machine and tells it.
fn pkg_config_folder() -> Option<String> {
    let told = Command::new("pkg-config")
        .args(["--variable=libdir", "dibol"])
        .output()
        .ok()
        .filter(|output| output.status.success())?;
    let folder = String::from_utf8(told.stdout).ok()?.trim().to_string();
    (!folder.is_empty()).then_some(folder)
}
