//! Finds the library: in the folder that FFOSOLVE_LIB_DIR names, or where pkg-config says, or in /usr/local/lib.
use std::env::{var, var_os};
use std::path::PathBuf;
use std::process::Command;

fn default_folder() -> PathBuf {
    let pkg_config = var("PKG_CONFIG").unwrap_or_else(|_| "pkg-config".into());
    let ran = Command::new(pkg_config).args(["--variable=libdir", "ffosolve"]).output();
    // pkg-config writes a backslash before each blank in a path.
    match ran.map(|ran| String::from_utf8_lossy(&ran.stdout).trim().replace("\\ ", " ")) {
        Ok(folder) if !folder.is_empty() => folder.into(),
        _ => "/usr/local/lib".into(),
    }
}

fn main() {
    for name in ["FFOSOLVE_LIB_DIR", "PKG_CONFIG", "PKG_CONFIG_PATH"] {
        println!("cargo:rerun-if-env-changed={name}");
    }
    let (kind, file) = if cfg!(feature = "shared") { ("dylib", "libffosolve.so") } else { ("static", "libffosolve.a") };
    let named = var_os("FFOSOLVE_LIB_DIR").filter(|folder| !folder.is_empty());
    let folder = named.map_or_else(default_folder, PathBuf::from);
    let file = folder.join(file);
    println!("cargo:rerun-if-changed={}", file.display());
    assert!(file.exists(), "{} is missing: install ffosolve, or set FFOSOLVE_LIB_DIR to its folder", file.display());
    let folder = folder.canonicalize().expect("the folder of a file that is there");
    println!("cargo:rustc-env=FFOSOLVE_FOLDER={}", folder.display()); // where src/programs.rs looks for programs
    println!("cargo:rustc-link-search=native={}", folder.display());
    println!("cargo:rustc-link-lib={kind}=ffosolve");
}
