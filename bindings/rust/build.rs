//! Links libpam_c.a: from `PAM_LIB_DIR`, else where pkg-config finds `pam_c`, else from `bindings/c/out`, which `make` there fills.
use std::env;
use std::path::{Path, PathBuf};
use std::process::Command;

fn by_pkg_config() -> Option<PathBuf> {
    let found = Command::new("pkg-config").args(["--variable=libdir", "pam_c"]).output().ok()?;
    let folder = String::from_utf8(found.stdout).ok()?;
    (found.status.success() && !folder.trim().is_empty()).then(|| PathBuf::from(folder.trim()))
}

fn main() {
    println!("cargo:rerun-if-env-changed=PAM_LIB_DIR");
    let made_here = || Path::new(env!("CARGO_MANIFEST_DIR")).join("../c/out");
    let folder = env::var_os("PAM_LIB_DIR").map(PathBuf::from).or_else(by_pkg_config).unwrap_or_else(made_here);
    let archive = folder.join("libpam_c.a");
    assert!(archive.is_file(), "no {}: `make` in bindings/c makes it, or name its folder in PAM_LIB_DIR", archive.display());
    println!("cargo:rerun-if-changed={}", archive.display());
    println!("cargo:rustc-link-search=native={}", folder.display());
    println!("cargo:rustc-link-lib=static=pam_c");
}
