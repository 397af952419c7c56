//! Link settings of the Rattle engine.

use std::env;
use std::path::PathBuf;
use std::process::Command;

/// The kit's C functions, which every archive of Rattle is linked with.
const NEEDED: [&str; 2] = ["os_c", "libc_c"];

/// The folder with the kit's C libraries: `rt doc` prints the path of a page beside it.
fn kit_libraries() -> PathBuf {
    let said = Command::new("rt").arg("doc").output().expect("rt, the Rattle kit's command, is on the path");
    let page = PathBuf::from(String::from_utf8_lossy(&said.stdout).trim());
    match page.parent() {
        Some(kit) => kit.join("c"),
        None => panic!("rt doc printed no path"),
    }
}

fn main() {
    println!("cargo:rerun-if-changed=build.rs");
    println!("cargo:rerun-if-env-changed=NOGDRUT_LIB");
    if env::var_os("CARGO_FEATURE_RATTLE").is_none() {
        return;
    }
    let folder = match env::var_os("NOGDRUT_LIB") {
        Some(folder) => PathBuf::from(folder),
        None => PathBuf::from(env::var_os("CARGO_MANIFEST_DIR").unwrap()).join("../crates/exports/out"),
    };
    let archive = folder.join("libexports.a");
    println!("cargo:rerun-if-changed={}", archive.display());
    if !archive.exists() {
        eprintln!(
            "{} is missing: build the archive first, name its folder in NOGDRUT_LIB, \
             or build with --no-default-features",
            archive.display()
        );
        std::process::exit(1);
    }
    println!("cargo:rustc-link-search=native={}", folder.display());
    // Handed to the linker as it is, not packed into this library first.
    println!("cargo:rustc-link-lib=static:-bundle=exports");
    println!("cargo:rustc-link-search=native={}", kit_libraries().display());
    for library in NEEDED {
        println!("cargo:rustc-link-lib=static:-bundle={library}");
    }
}
