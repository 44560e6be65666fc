//! Names the archive to the linker if the feature `link` asks for it.

use std::env;
use std::path::{Path, PathBuf};

fn main() {
    println!("cargo:rerun-if-changed=build.rs");
    println!("cargo:rerun-if-env-changed=ELSTERKABEL_ARCHIVE");
    if env::var_os("CARGO_FEATURE_LINK").is_none() {
        return;
    }
    // No failure on another machine, since what is only checked and never linked is well on any.
    match env::var("CARGO_CFG_TARGET_ARCH").as_deref() {
        Ok(arch @ ("x86_64" | "aarch64")) => link(arch),
        _ => println!("cargo:warning=the archive is for x86-64 and Arm, so it is not linked"),
    }
}

/// The folder of the archive; by default where `tools/library` leaves it.
fn folder(arch: &str) -> PathBuf {
    env::var_os("ELSTERKABEL_ARCHIVE").map_or_else(
        || {
            Path::new(env!("CARGO_MANIFEST_DIR"))
                .join("../../target/lib")
                .join(arch)
        },
        PathBuf::from,
    )
}

fn link(arch: &str) {
    let folder = folder(arch);
    let archive = folder.join("libelsterkabel.a");
    println!("cargo:rerun-if-changed={}", archive.display());
    if !archive.is_file() {
        let missing = archive.display();
        println!("cargo:warning=there is no {missing}; `tools/library {arch}` writes it");
    }
    println!("cargo:rustc-link-search=native={}", folder.display());
    println!("cargo:rustc-link-lib=static=elsterkabel");
}
