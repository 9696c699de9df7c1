//! Finds the C library kaftanclay: in the folder `KAFTANCLAY_LIB_DIR`, by pkg-config, or in `bindings/c/build` of the
//! tree that this crate is part of.

use std::env;
use std::path::{Path, PathBuf};
use std::process::{exit, Command};

/// How to link with what a folder has, if it has the library.
fn kind_in(folder: &Path) -> Option<&'static str> {
    if folder.join("libkaftanclay.a").is_file() {
        Some("static")
    } else if folder.join("libkaftanclay.so").is_file() {
        Some("dylib")
    } else {
        None
    }
}

/// The folder that pkg-config names, if there is one.
fn folder_of_package() -> Option<PathBuf> {
    let found = Command::new("pkg-config").args(["--variable=libdir", "kaftanclay"]).output().ok()?;
    let text = String::from_utf8(found.stdout).ok()?;
    (found.status.success() && !text.trim().is_empty()).then(|| PathBuf::from(text.trim()))
}

fn refuse(reason: &str) -> ! {
    eprintln!("kaftanclay: {reason}");
    eprintln!(
        "kaftanclay: name the folder of libkaftanclay.a in KAFTANCLAY_LIB_DIR, or install the package \
         libkaftanclay-dev, or run `make proved all` in bindings/c of the sources"
    );
    exit(1)
}

fn main() {
    println!("cargo:rerun-if-env-changed=KAFTANCLAY_LIB_DIR");
    println!("cargo:rerun-if-env-changed=PKG_CONFIG_PATH");
    println!("cargo:rerun-if-env-changed=DOCS_RS");
    // A build of the documentation alone links nothing.
    if env::var_os("DOCS_RS").is_some() {
        return;
    }
    let (folder, kind) = if let Some(named) = env::var_os("KAFTANCLAY_LIB_DIR") {
        let folder = PathBuf::from(named);
        match kind_in(&folder) {
            Some(kind) => (folder, kind),
            None => refuse(&format!("KAFTANCLAY_LIB_DIR is {}, which has no libkaftanclay.a or .so", folder.display())),
        }
    } else {
        let top = PathBuf::from(env::var_os("CARGO_MANIFEST_DIR").unwrap_or_default());
        let places = [folder_of_package(), Some(top.join("../c/build"))];
        match places.into_iter().flatten().find_map(|it| kind_in(&it).map(|kind| (it, kind))) {
            Some(found) => found,
            None => refuse("the C library is not found"),
        }
    };
    println!("cargo:rerun-if-changed={}", folder.display());
    println!("cargo:rustc-link-search=native={}", folder.display());
    println!("cargo:rustc-link-lib={kind}=kaftanclay");
}
