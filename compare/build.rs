//! Links libturning.a. LIBTURNING names the archive; the default is target/staticlib/libturning.a,
//! and a relative name counts from the repository's root.
use std::env;
use std::path::PathBuf;

fn main() {
    println!("cargo::rerun-if-env-changed=LIBTURNING");
    let here = PathBuf::from(env::var_os("CARGO_MANIFEST_DIR").unwrap());
    let default = "target/staticlib/libturning.a".into();
    let archive = here
        .parent()
        .unwrap()
        .join(env::var_os("LIBTURNING").unwrap_or(default));
    println!("cargo::rerun-if-changed={}", archive.display());
    if !archive.is_file() {
        println!(
            "cargo::error=no {}: run `scripts/archive` at the repository's root",
            archive.display()
        );
        return;
    }
    println!("cargo::rustc-link-arg={}", archive.display());
    println!("cargo::rustc-env=TURNING_ARCHIVE={}", archive.display());
}
