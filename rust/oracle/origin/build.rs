//! Finds the folder with the crate's sources and names its modules by their paths, so that they are compiled where they stand.
//! The folder is `$S2XV2_DOCS/src`; without that variable it is `../shared/docs/src`, seen from the repository's root.
use std::path::{Path, PathBuf};
use std::{env, fs};

fn docs() -> PathBuf {
    match env::var("S2XV2_DOCS") {
        Ok(folder) => PathBuf::from(folder),
        Err(_) => Path::new(&env::var("CARGO_MANIFEST_DIR").unwrap()).join("../../../../shared/docs"),
    }
}

fn main() {
    println!("cargo:rerun-if-env-changed=S2XV2_DOCS");
    let folder = docs().join("src");
    let Ok(folder) = folder.canonicalize() else {
        panic!(
            "{} is not there: set S2XV2_DOCS to the folder that has src/error.rs",
            folder.display()
        );
    };
    let out = env::var("OUT_DIR").unwrap();
    for (file, visibility, modules) in [
        ("root.rs", "pub", &["error", "traits"][..]),
        (
            "descriptors.rs",
            "pub",
            &["descriptors/satellite_delivery_system", "descriptors/cable_delivery_system"][..],
        ),
        (
            "extension.rs",
            "pub",
            &["descriptors/extension/s2xv2_satellite_delivery_system"][..],
        ),
    ] {
        let mut text = String::new();
        for module in modules {
            let path = folder.join(format!("{module}.rs"));
            println!("cargo:rerun-if-changed={}", path.display());
            let name = module.rsplit('/').next().unwrap();
            text += &format!("#[path = {:?}]\n{visibility} mod {name};\n", path.display().to_string());
        }
        fs::write(Path::new(&out).join(file), text).unwrap();
    }
}
