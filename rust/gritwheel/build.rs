//! Finds the proved library's archives and links them.

use std::path::{Path, PathBuf};

/// What `include/libraries` makes, an archive for each part.
const PARTS: [&str; 5] = ["exports_bitio", "exports_field", "exports_packet", "exports_writer", "exports_bunch"];

/// What an installation has instead: all in one.
const WHOLE: &str = "gritwheel";

fn has(dir: &Path, name: &str) -> bool {
    dir.join(format!("lib{name}.a")).is_file()
}

fn names(dir: &Path) -> Option<&'static [&'static str]> {
    if has(dir, WHOLE) {
        return Some(&[WHOLE]);
    }
    PARTS.iter().all(|part| has(dir, part)).then_some(&PARTS)
}

fn link(dir: &Path, names: &[&str]) {
    println!("cargo::rustc-link-search=native={}", dir.display());
    for name in names {
        println!("cargo::rustc-link-lib=static={name}");
        println!("cargo::rerun-if-changed={}", dir.join(format!("lib{name}.a")).display());
    }
}

fn main() {
    println!("cargo::rerun-if-env-changed=GRITWHEEL_LIB_DIR");
    let root = PathBuf::from(std::env::var_os("CARGO_MANIFEST_DIR").expect("cargo sets it"));
    let places = match std::env::var_os("GRITWHEEL_LIB_DIR") {
        Some(dir) => vec![PathBuf::from(dir)],
        // In the repository, and in an installation (PREFIX/share/gritwheel/rust, PREFIX/lib).
        None => vec![root.join("../../target/staticlib"), root.join("../../../lib")],
    };
    // What stands in these two is for x86-64 Linux; for another target the folder must be named.
    let target = ["ARCH", "OS"].map(|part| std::env::var(format!("CARGO_CFG_TARGET_{part}")).expect("cargo sets it"));
    let fits = target == ["x86_64", "linux"] || std::env::var_os("GRITWHEEL_LIB_DIR").is_some();
    if !fits {
        println!("cargo::error=the target is {}, for which Gritwheel's library must be named", target.join(" "));
    } else if let Some((dir, names)) = places.iter().find_map(|dir| Some((dir, names(dir)?))) {
        return link(dir, names);
    } else {
        places.iter().for_each(|dir| println!("cargo::error=Gritwheel's library is not in {}", dir.display()));
    }
    println!(
        "cargo::error=Make it in the repository's root: include/libraries (for x86-64 Linux). Or name its \
         folder in GRITWHEEL_LIB_DIR: one with libgritwheel.a, or with these five: {}.",
        PARTS.join(" ")
    );
}
