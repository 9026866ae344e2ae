//! Links the archive of proved functions, which `rt lib` in `crates/lxt_c` writes. `LXT_ARCHIVE_DIR` is the
//! folder that it lies in, where that is not `crates/lxt_c/out`.

use std::env;
use std::path::{Path, PathBuf};

fn main() {
    println!("cargo:rerun-if-env-changed=LXT_ARCHIVE_DIR");
    let manifest = env::var("CARGO_MANIFEST_DIR").expect("cargo sets the manifest's folder");
    let archives = match env::var_os("LXT_ARCHIVE_DIR") {
        Some(folder) => PathBuf::from(folder),
        None => Path::new(&manifest).join("../../crates/lxt_c/out"),
    };
    let archive = archives.join("liblxt_c.a");
    assert!(
        archive.is_file(),
        "there is no {}: run `rt lib` in crates/lxt_c first, or say by LXT_ARCHIVE_DIR in which folder it is",
        archive.display()
    );
    let archives = archives.canonicalize().expect("the archive's folder");
    println!("cargo:rustc-link-search=native={}", archives.display());
    println!("cargo:rustc-link-lib=static=lxt_c");
    println!("cargo:rerun-if-changed={}", archive.display());
}
