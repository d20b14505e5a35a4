//! Finds the library for C: the folder that `URLCHECK_LIB_DIR` names, which has `liburlcheck.a` or else the shared
//! library, or what pkg-config knows as `urlcheck`.

use std::env;
use std::path::Path;
use std::process::Command;

/// The versions of the library whose header is the one that this crate was written for.
const VERSIONS: &str = "urlcheck >= 0.5.0 urlcheck < 0.6.0";

fn main() {
    println!("cargo:rerun-if-changed=build.rs");
    println!("cargo:rerun-if-env-changed=URLCHECK_LIB_DIR");
    println!("cargo:rerun-if-env-changed=PKG_CONFIG_PATH");
    // (pages of documentation are made if the library can't be installed)
    if env::var_os("DOCS_RS").is_some() {
        return;
    }
    let linked = match env::var_os("URLCHECK_LIB_DIR") {
        Some(folder) => link_folder(Path::new(&folder)),
        None => link_installed(),
    };
    if let Err(reason) = linked {
        eprintln!("{reason}");
        std::process::exit(1);
    }
}

/// Links the archive of a folder, or the shared library if it has no archive.
fn link_folder(folder: &Path) -> Result<(), String> {
    let is_there = |name: &str| folder.join(name).exists();
    let kind = if is_there("liburlcheck.a") {
        "static"
    } else if is_there("liburlcheck.so") || is_there("liburlcheck.dylib") {
        "dylib"
    } else {
        return Err(format!("URLCHECK_LIB_DIR: {} has no liburlcheck", folder.display()));
    };
    println!("cargo:rerun-if-changed={}", folder.display());
    println!("cargo:rustc-link-search=native={}", folder.display());
    println!("cargo:rustc-link-lib={kind}=urlcheck");
    Ok(())
}

/// Links the shared library that pkg-config knows.
fn link_installed() -> Result<(), String> {
    let found = Command::new("pkg-config").args(["--libs", VERSIONS]).output();
    let output = found.map_err(|error| format!("URLCHECK_LIB_DIR isn't set, and pkg-config can't be run: {error}"))?;
    if !output.status.success() {
        let reason = String::from_utf8_lossy(&output.stderr).into_owned();
        return Err(format!("URLCHECK_LIB_DIR isn't set, and pkg-config has no liburlcheck 0.5: {reason}"));
    }
    for word in String::from_utf8_lossy(&output.stdout).split_whitespace() {
        if let Some(folder) = word.strip_prefix("-L") {
            println!("cargo:rustc-link-search=native={folder}");
        } else if let Some(name) = word.strip_prefix("-l") {
            println!("cargo:rustc-link-lib={name}");
        }
    }
    Ok(())
}
