//! Finds the library fastbloom_c, and tells the compiler where it is.
//!
//! It is looked for in the folder that `FASTBLOOM_LIB` names; else where pkg-config says; else in
//! `out/c` of the repository that this crate lies in. The static library is taken where there is
//! one, unless `FASTBLOOM_SHARED` is `1`.

use std::env;
use std::ffi::OsString;
use std::fmt::Display;
use std::path::{Path, PathBuf};
use std::process::{exit, Command};

const WANTED: [&str; 2] = ["fastbloom >= 0.17.0", "fastbloom < 1"];

/// Ends the build for a reason.
fn refuse(why: impl Display) -> ! {
    eprintln!("fastbloom_c-sys: {why}");
    exit(1)
}

/// A variable of the environment. If it changes, this program runs again.
fn variable(name: &str) -> Option<OsString> {
    println!("cargo:rerun-if-env-changed={name}");
    env::var_os(name).filter(|value| !value.is_empty())
}

/// What pkg-config prints, where it is there and prints something.
fn pkg_config(words: &[&str]) -> Option<String> {
    let command = variable("PKG_CONFIG").unwrap_or_else(|| "pkg-config".into());
    let output = Command::new(command).args(words).output().ok()?;
    let text = String::from_utf8(output.stdout).ok()?;
    output.status.success().then(|| text.trim().to_owned())
}

/// The folder of the library, by pkg-config.
fn folder_by_pkg_config() -> Option<PathBuf> {
    for name in [
        "PKG_CONFIG_PATH",
        "PKG_CONFIG_LIBDIR",
        "PKG_CONFIG_SYSROOT_DIR",
    ] {
        variable(name);
    }
    pkg_config(&["--exists", WANTED[0], WANTED[1]])?;
    let folder = pkg_config(&["--variable=libdir", "fastbloom"])?;
    Path::new(&folder).canonicalize().ok()
}

/// The folder that `bin/build-c` fills, of the repository that this crate lies in.
fn folder_of_repository() -> Option<PathBuf> {
    let folder = Path::new(env!("CARGO_MANIFEST_DIR")).join("../../out/c");
    folder.canonicalize().ok()
}

/// The kind of the library that a folder has, as the compiler calls it, and its file.
fn library_in(folder: &Path, shared: bool) -> Option<(&'static str, PathBuf)> {
    let kinds = [
        ("static", "libfastbloom_c.a"),
        ("dylib", "libfastbloom_c.so"),
    ];
    let found = kinds.map(|(kind, name)| (kind, folder.join(name)));
    found
        .into_iter()
        .skip(shared.into())
        .find(|(_, file)| file.is_file())
}

/// The folder of the library, its kind, and its file.
fn find(shared: bool) -> (PathBuf, &'static str, PathBuf) {
    let within = |folder: PathBuf| {
        let found = library_in(&folder, shared);
        found.map(|(kind, file)| (folder, kind, file))
    };
    let what = if shared {
        "libfastbloom_c.so"
    } else {
        "libfastbloom_c.a or libfastbloom_c.so"
    };
    if let Some(folder) = variable("FASTBLOOM_LIB").map(PathBuf::from) {
        let name = folder.display().to_string();
        if folder.is_relative() {
            refuse(format!("FASTBLOOM_LIB={name} isn't an absolute path"));
        }
        return within(folder)
            .unwrap_or_else(|| refuse(format!("the folder FASTBLOOM_LIB={name} has no {what}")));
    }
    folder_by_pkg_config()
        .and_then(within)
        .or_else(|| within(folder_of_repository()?))
        .unwrap_or_else(|| {
            refuse(format!(
                "there is no {what}.\n\
                 `bin/build-c FOLDER` of the repository builds it. Then either\n\
                 - set FASTBLOOM_LIB to that folder,\n\
                 - or let pkg-config find it: set PKG_CONFIG_PATH to FOLDER/pkgconfig.\n\
                 pkg-config was asked for `{}`, `{}`.",
                WANTED[0], WANTED[1]
            ))
        })
}

fn main() {
    let target = ["CARGO_CFG_TARGET_ARCH", "CARGO_CFG_TARGET_OS"].map(|name| env::var(name).ok());
    if target.each_ref().map(Option::as_deref) != [Some("x86_64"), Some("linux")] {
        refuse("the library is built for Linux on x86-64 alone");
    }
    let shared = variable("FASTBLOOM_SHARED").is_some_and(|value| value == "1");
    let (folder, kind, file) = find(shared);
    println!("cargo:rustc-link-search=native={}", folder.display());
    println!("cargo:rustc-link-lib={kind}=fastbloom_c");
    println!("cargo:rerun-if-changed={}", file.display());
    // For build scripts of crates that depend on this one: DEP_FASTBLOOM_C_ROOT.
    println!("cargo:root={}", folder.display());
}
