//! Links the compiled library, whose path is in TABLEPATH_ARCHIVE. No other crate declares its functions or links it. Where there is no archive,
//! `cargo check`, `cargo doc` and rust-analyzer work, and only linking does not.

use std::path::{Path, PathBuf};
use std::{env, fs};

fn main() {
    println!("cargo:rerun-if-env-changed=TABLEPATH_ARCHIVE");
    let Some(archive) = env::var_os("TABLEPATH_ARCHIVE").map(PathBuf::from) else {
        return warn("TABLEPATH_ARCHIVE is not set");
    };
    println!("cargo:rerun-if-changed={}", archive.display());
    // Copied under a name of its own, so that what the file is called does not matter here.
    let out = env::var_os("OUT_DIR").expect("cargo sets OUT_DIR");
    if let Err(error) = fs::copy(&archive, Path::new(&out).join("libtablepath_archive.a")) {
        return warn(&format!("TABLEPATH_ARCHIVE is {}, which cannot be read ({error})", archive.display()));
    }
    println!("cargo:rustc-link-search=native={}", Path::new(&out).display());
    println!("cargo:rustc-link-lib=static=tablepath_archive");
}

fn warn(why: &str) {
    println!(
        "cargo:warning={why}: what uses tablepath can be checked, but not linked. It names the compiled library, as an absolute path: \
         `make lib` writes one for x86-64, `tools/test archive` one for this machine"
    );
}
