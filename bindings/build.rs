//! Links the proved static library. It is looked for in the folder that FLAMECURL_LIB_DIR names, in the source tree, where
//! `./flamecurl build` writes it, and where pkg-config knows it from `make install`.

use std::env;
use std::path::{Path, PathBuf};
use std::process::{exit, Command};

const ARCHIVE: &str = "libflamecurl.a";

fn from_pkg_config() -> Option<PathBuf> {
    let output = Command::new("pkg-config")
        .args(["--variable=libdir", "flamecurl"])
        .output()
        .ok()?;
    let folder = String::from_utf8(output.stdout).ok()?;
    Some(PathBuf::from(folder.trim()))
}

fn folder() -> Option<PathBuf> {
    if let Some(named) = env::var_os("FLAMECURL_LIB_DIR") {
        return Some(PathBuf::from(named));
    }
    let manifest = env::var_os("CARGO_MANIFEST_DIR")?;
    let built = Path::new(&manifest).join("../target/staticlib");
    if built.join(ARCHIVE).exists() {
        return Some(built);
    }
    from_pkg_config()
}

fn main() {
    println!("cargo:rerun-if-env-changed=FLAMECURL_LIB_DIR");
    println!("cargo:rerun-if-env-changed=PKG_CONFIG_PATH");
    let found = folder().filter(|folder| folder.join(ARCHIVE).exists());
    let Some(folder) = found else {
        eprintln!(
            "{ARCHIVE} is not found. Set FLAMECURL_LIB_DIR to its folder, or install it (make install in Flamecurl's \
             source tree) where pkg-config looks."
        );
        exit(1);
    };
    println!("cargo:rerun-if-changed={}", folder.join(ARCHIVE).display());
    println!("cargo:rustc-link-search=native={}", folder.display());
    println!("cargo:rustc-link-lib=static=flamecurl");
}
