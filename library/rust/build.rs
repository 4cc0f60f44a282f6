//! Finds libnippersage: in the folder that NIPPERSAGE_LIB names, in lib/ of a package that this
//! crate lies in, in library/out of the repository, or where pkg-config has it. The first that is
//! there is taken, and of its two forms the static one, which needs no path at run time.

use std::env;
use std::path::{Path, PathBuf};
use std::process::Command;

/// The folders to look in, the first one first.
fn folders() -> Vec<PathBuf> {
    if let Some(named) = env::var_os("NIPPERSAGE_LIB") {
        return vec![PathBuf::from(named)];
    }
    let here =
        PathBuf::from(env::var_os("CARGO_MANIFEST_DIR").expect("cargo names the crate's folder"));
    let mut found = vec![here.join("../../lib"), here.join("../out")];
    found.extend(folder_of_pkg_config());
    found
}

fn folder_of_pkg_config() -> Option<PathBuf> {
    let told = Command::new("pkg-config")
        .args(["--variable=libdir", "nippersage"])
        .output()
        .ok()?;
    let text = String::from_utf8(told.stdout).ok()?;
    let folder = text.trim();
    (told.status.success() && !folder.is_empty()).then(|| PathBuf::from(folder))
}

/// Links the library of this folder, if it has one.
fn link(folder: &Path) -> bool {
    let is_static = folder.join("libnippersage.a").is_file();
    if !is_static && !folder.join("libnippersage.so").is_file() {
        return false;
    }
    println!("cargo:rustc-link-search=native={}", folder.display());
    if is_static {
        println!(
            "cargo:rerun-if-changed={}",
            folder.join("libnippersage.a").display()
        );
        println!("cargo:rustc-link-lib=static=nippersage");
    } else {
        println!("cargo:rustc-link-lib=dylib=nippersage");
        println!("cargo:rustc-link-arg=-Wl,-rpath,{}", folder.display());
    }
    true
}

fn main() {
    println!("cargo:rerun-if-changed=build.rs");
    println!("cargo:rerun-if-env-changed=NIPPERSAGE_LIB");
    println!("cargo:rerun-if-env-changed=PKG_CONFIG_PATH");
    let folders = folders();
    if !folders.iter().any(|folder| link(folder)) {
        let looked: Vec<_> = folders
            .iter()
            .map(|folder| folder.display().to_string())
            .collect();
        panic!(
            "no libnippersage.a or .so in {}, and pkg-config knows of none: name its folder in NIPPERSAGE_LIB",
            looked.join(", ")
        );
    }
}
