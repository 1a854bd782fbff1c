//! Finds libdeolmutt: in the folder that DEOLMUTT_LIB_DIR names, or by pkg-config. DEOLMUTT_STATIC asks for libdeolmutt.a.

use std::env;
use std::path::Path;
use std::process::{Command, exit};

fn main() {
    for name in ["DEOLMUTT_LIB_DIR", "DEOLMUTT_STATIC", "PKG_CONFIG_PATH"] {
        println!("cargo:rerun-if-env-changed={name}");
    }
    let (kind, file) = match env::var_os("DEOLMUTT_STATIC") {
        Some(_) => ("static", "libdeolmutt.a"),
        None => ("dylib", "libdeolmutt.so"),
    };
    match env::var("DEOLMUTT_LIB_DIR").ok().or_else(by_pkg_config) {
        Some(folder) if Path::new(&folder).join(file).is_file() => println!("cargo:rustc-link-search=native={folder}"),
        Some(folder) => refuse(&format!(
            "{folder} has no {file}: set DEOLMUTT_LIB_DIR to the folder that tools/ffi-build or a package has it in"
        )),
        None => println!(
            "cargo:warning=libdeolmutt is looked for where the linker looks: set DEOLMUTT_LIB_DIR to its folder"
        ),
    }
    println!("cargo:rustc-link-lib={kind}=deolmutt");
}

fn refuse(why: &str) {
    eprintln!("deolmutt-sys: {why}");
    exit(1);
}

/// The folder of the library, where pkg-config knows it.
fn by_pkg_config() -> Option<String> {
    let ran = Command::new("pkg-config").args(["--variable=libdir", "deolmutt"]).output().ok()?;
    let folder = String::from_utf8(ran.stdout).ok()?.trim().to_owned();
    (ran.status.success() && !folder.is_empty()).then_some(folder)
}
