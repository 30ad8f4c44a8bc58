//! Links libturning.a.
//!
//! `TURNING_LIB` names the archive, or the folder that it is in; a relative name counts from the repository's root. Without it the
//! archive is the one that `scripts/archive` writes, or on a processor other than x86-64 the one of
//! `compare/native library target/libturning-native.a`. The archive is asked for its `turning_header()` before anything is built
//! over it, so that calls are never made with arguments of another header.
use std::env;
use std::fs;
use std::path::{Path, PathBuf};
use std::process::Command;

/// The number of the header that the crate is written for.
const HEADER: &str = include_str!("HEADER");

fn main() {
    println!("cargo::rerun-if-env-changed=TURNING_LIB");
    println!("cargo::rerun-if-changed=HEADER");
    println!("cargo::rerun-if-changed=build.rs");
    if let Err(sentence) = link() {
        println!("cargo::error={sentence}");
    }
}

fn link() -> Result<(), String> {
    let archive = archive()?;
    println!("cargo::rerun-if-changed={}", archive.display());
    if !archive.is_file() {
        return Err(format!(
            "there is no archive {}: make it with `{}` at the repository's root, or name another in TURNING_LIB",
            archive.display(),
            if wants("x86_64") {
                "scripts/archive"
            } else {
                "compare/native library target/libturning-native.a"
            }
        ));
    }
    let out = folder("OUT_DIR")?;
    // The linker looks for a library by its name, and the archive may have any.
    fs::copy(&archive, out.join("libturning.a"))
        .map_err(|e| format!("{} cannot be copied: {e}", archive.display()))?;
    asks_header(&archive, &out)?;
    println!("cargo::rustc-link-search=native={}", out.display());
    println!("cargo::rustc-link-lib=static=turning");
    println!("cargo::metadata=archive={}", archive.display());
    Ok(())
}

fn folder(name: &str) -> Result<PathBuf, String> {
    env::var_os(name)
        .map(PathBuf::from)
        .ok_or_else(|| format!("{name} is not set: build.rs is run by cargo"))
}

fn wants(processor: &str) -> bool {
    env::var("CARGO_CFG_TARGET_ARCH").is_ok_and(|a| a == processor)
}

/// Where the archive should be.
fn archive() -> Result<PathBuf, String> {
    let here = folder("CARGO_MANIFEST_DIR")?;
    let root = here
        .ancestors()
        .nth(2)
        .ok_or("the crate does not stand in the repository")?;
    let Some(named) = env::var_os("TURNING_LIB").filter(|n| !n.is_empty()) else {
        return Ok(root.join(if wants("x86_64") {
            "target/staticlib/libturning.a"
        } else {
            "target/libturning-native.a"
        }));
    };
    let named = root.join(named);
    Ok(if named.is_dir() {
        named.join("libturning.a")
    } else {
        named
    })
}

/// Asks the archive for the number of its header, where its code can run here.
fn asks_header(archive: &Path, out: &Path) -> Result<(), String> {
    if env::var_os("HOST") != env::var_os("TARGET") {
        return Ok(());
    }
    let source = out.join("header.rs");
    let program = out.join("header");
    fs::write(
        &source,
        "extern \"C\" { fn turning_header() -> u32; }\nfn main() { println!(\"{}\", unsafe { turning_header() }); }\n",
    )
    .map_err(|e| format!("{} cannot be written: {e}", source.display()))?;
    let built = Command::new(env::var_os("RUSTC").unwrap_or_else(|| "rustc".into()))
        .args(["--edition", "2021", "-o"])
        .arg(&program)
        .arg("-L")
        .arg(out)
        .args(["-l", "static=turning"])
        .arg(&source)
        .output()
        .map_err(|e| format!("rustc cannot be run: {e}"))?;
    if !built.status.success() {
        return Err(format!(
            "{} has no turning_header, or is not for this processor",
            archive.display()
        ));
    }
    let said = Command::new(&program)
        .output()
        .map_err(|e| format!("{} cannot be asked for its header: {e}", archive.display()))?;
    let said = String::from_utf8_lossy(&said.stdout);
    if said.trim() != HEADER.trim() {
        return Err(format!(
            "{} is of header {}, and this crate is written for header {}: take the archive and the crate from one checkout",
            archive.display(),
            said.trim(),
            HEADER.trim()
        ));
    }
    Ok(())
}
