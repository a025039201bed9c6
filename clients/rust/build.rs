//! Says where the C library is. It is looked for in this order:
//!
//! 1. in the folder that the environment variable `NODEJS_SEMVER_LIB` names,
//! 2. in `lib/TARGET` of this package, or of the folder above it,
//! 3. where `pkg-config nodejs_semver` says.

use std::path::{Path, PathBuf};
use std::process::Command;
use std::{env, process};

const ARCHIVE: &str = "libnodejs_semver.a";
const SHARED: &str = "libnodejs_semver.so";

/// Links the library in a folder, and returns whether it is there. The archive is taken before the
/// shared object.
fn links(folder: &Path) -> bool {
    let kind = match (folder.join(ARCHIVE).exists(), folder.join(SHARED).exists()) {
        (true, _) => "static",
        (false, true) => "dylib",
        (false, false) => return false,
    };
    let shown = folder.display();
    println!("cargo:rerun-if-changed={shown}");
    println!("cargo:rustc-link-search=native={shown}");
    println!("cargo:rustc-link-lib={kind}=nodejs_semver");
    true
}

/// Returns the folders that pkg-config names.
fn told_by_pkg_config() -> Vec<PathBuf> {
    let asked = Command::new("pkg-config")
        .args(["--variable=libdir", "nodejs_semver"])
        .output();
    let libs = Command::new("pkg-config")
        .args(["--libs-only-L", "nodejs_semver"])
        .output();
    let said = |out: std::io::Result<process::Output>| match out {
        Ok(out) if out.status.success() => String::from_utf8_lossy(&out.stdout).into_owned(),
        _ => String::new(),
    };
    let (folder, flags) = (said(asked), said(libs));
    let words = flags
        .split_whitespace()
        .map(|it| it.trim_start_matches("-L"));
    words
        .chain([folder.trim()])
        .filter(|it| !it.is_empty())
        .map(PathBuf::from)
        .collect()
}

fn main() {
    for name in ["NODEJS_SEMVER_LIB", "PKG_CONFIG_PATH", "DOCS_RS"] {
        println!("cargo:rerun-if-env-changed={name}");
    }
    // Documentation is made without the library.
    if env::var_os("DOCS_RS").is_some() {
        return;
    }
    if let Some(folder) = env::var_os("NODEJS_SEMVER_LIB") {
        if !links(Path::new(&folder)) {
            eprintln!(
                "NODEJS_SEMVER_LIB is {}, where no {ARCHIVE} is",
                Path::new(&folder).display()
            );
            process::exit(1);
        }
        return;
    }
    let target = env::var("TARGET").unwrap_or_default();
    let package = PathBuf::from(env::var_os("CARGO_MANIFEST_DIR").unwrap_or_default());
    let own = ["lib", "../lib"].map(|it| package.join(it).join(&target));
    if own.iter().chain(&told_by_pkg_config()).any(|it| links(it)) {
        return;
    }
    eprintln!("no {ARCHIVE} for {target}: set NODEJS_SEMVER_LIB to its folder, or install it with");
    eprintln!("its nodejs_semver.pc. `tools/c_library FOLDER` of the repository makes it.");
    process::exit(1);
}
