//! Finds `libs2xv2.a` and tells cargo to link it. The folder is `$S2XV2_LIB`; without that variable it is `target/dist/lib` at the
//! repository's root, where `dist/make` writes it. Where only `libcapi.a` is there, as `rt lib` in `crates/capi` names it, in
//! `$S2XV2_LIB` or in `crates/capi/out`, a copy of it is linked under the library's name.
//!
//! Nothing fails here: to check or to document the crate takes no archive. Where the archive is not there, or is not for the machine that is
//! built for, a warning says so, and the linker refuses.
use std::env;
use std::fs;
use std::path::{Path, PathBuf};

const NAME: &str = "libs2xv2.a";

fn folder(variable: &str) -> Option<PathBuf> {
    env::var_os(variable).filter(|folder| !folder.is_empty()).map(PathBuf::from)
}

/// Where the archive may be, and where under the other name.
fn places() -> (PathBuf, PathBuf) {
    match folder("S2XV2_LIB") {
        Some(folder) => (folder.join(NAME), folder.join("libcapi.a")),
        None => {
            let top = folder("CARGO_MANIFEST_DIR").unwrap_or_default().join("../..");
            (top.join("target/dist/lib").join(NAME), top.join("crates/capi/out/libcapi.a"))
        }
    }
}

/// The archive under the library's name, if it is there.
fn found(named: &Path, other: &Path) -> Option<PathBuf> {
    println!("cargo:rerun-if-changed={}", named.display());
    named.canonicalize().ok().or_else(|| {
        println!("cargo:rerun-if-changed={}", other.display());
        let copy = folder("OUT_DIR")?.join(NAME);
        fs::copy(other, &copy).ok()?;
        Some(copy)
    })
}

/// What cargo says of the machine that is built for.
fn target(what: &str) -> String {
    env::var(format!("CARGO_CFG_TARGET_{what}")).unwrap_or_default()
}

fn main() {
    println!("cargo:rerun-if-env-changed=S2XV2_LIB");
    let (named, other) = places();
    let found = found(&named, &other);
    if found.is_none() {
        println!(
            "cargo:warning={} is not there, and no program can be linked without it",
            named.display()
        );
        println!("cargo:warning=run `dist/make` at the repository's root, or set S2XV2_LIB to the folder that has {NAME}");
    }
    let (processor, system) = (target("ARCH"), target("OS"));
    if (processor.as_str(), system.as_str()) != ("x86_64", "linux") {
        println!("cargo:warning={NAME} is for x86-64 Linux (ELF), and cannot be linked with a program for {processor} {system}");
    }
    // An archive that is there becomes a part of the crate; one that is not is looked for when a program is linked.
    let kind = if found.is_some() { "static" } else { "static:-bundle" };
    println!(
        "cargo:rustc-link-search=native={}",
        found.unwrap_or(named).parent().unwrap_or(Path::new("")).display()
    );
    println!("cargo:rustc-link-lib={kind}=s2xv2");
}
