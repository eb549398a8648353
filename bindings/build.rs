//! Links the proved archive: the one that HUB_ARCHIVE names, or else the one that
//! `dist/archive` writes.

use std::env;
use std::path::{Path, PathBuf};

fn main() {
    let written = Path::new(env!("CARGO_MANIFEST_DIR")).join("../target/staticlib/libexports.a");
    let archive = env::var_os("HUB_ARCHIVE").map_or(written, PathBuf::from);
    let archive = archive.canonicalize().unwrap_or_else(|error| {
        panic!(
            "{}: {error}: run `dist/archive` in the repository first, or let \
             HUB_ARCHIVE name the archive, as dist/libhub.a",
            archive.display()
        )
    });
    let folder = archive.parent().expect("a folder").display();
    let name = archive.file_stem().expect("a name").to_string_lossy();
    let name = name.strip_prefix("lib").expect("the name of a library");
    println!("cargo:rerun-if-env-changed=HUB_ARCHIVE");
    println!("cargo:rerun-if-changed={}", archive.display());
    println!("cargo:rustc-env=ARCHIVE={}", archive.display());
    println!("cargo:rustc-link-search=native={folder}");
    println!("cargo:rustc-link-lib=static={name}");
}
