//! Links the archives with the engine's reader and its CRC; the variable JMUX_ARCHIVES names their
//! folder, and an archive that is not there comes from this checkout.
use std::{env, path::PathBuf};

fn main() {
    let own = PathBuf::from(env!("CARGO_MANIFEST_DIR")).join("../target/staticlib");
    let named = env::var("JMUX_ARCHIVES").map_or(own.clone(), PathBuf::from);
    println!("cargo:rerun-if-env-changed=JMUX_ARCHIVES");
    for folder in [&named, &own] {
        println!("cargo:rustc-link-search=native={}", folder.display());
    }
    for name in ["capture_export", "capture_scan", "crc_export"] {
        let archive = named.join(format!("lib{name}.a"));
        println!("cargo:rerun-if-changed={}", archive.display());
        println!("cargo:rustc-link-lib=static={name}");
    }
}
