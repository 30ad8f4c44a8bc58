//! examples/thread.c, as C and as C++, linked with the archive that is compared, writes examples/thread.out.
use std::path::{Path, PathBuf};
use std::process::Command;

fn root() -> PathBuf {
    Path::new(env!("CARGO_MANIFEST_DIR"))
        .parent()
        .unwrap()
        .into()
}

/// Builds the example with a compiler, strictly, and answers what it writes.
fn written(compiler: &str, words: &[&str]) -> String {
    let program = Path::new(env!("CARGO_TARGET_TMPDIR")).join(format!("thread-{compiler}"));
    let mut build = Command::new(compiler);
    build.current_dir(root()).args(words).args([
        "-Wall",
        "-Wextra",
        "-Wpedantic",
        "-Werror",
        "-Iinclude",
    ]);
    build
        .args([
            "examples/thread.c",
            "-x",
            "none",
            env!("TURNING_ARCHIVE"),
            "-o",
        ])
        .arg(&program);
    let status = build.status().unwrap_or_else(|e| panic!("{compiler}: {e}"));
    assert!(status.success(), "{compiler} does not build the example");
    let run = Command::new(program).output().unwrap();
    assert!(
        run.status.success(),
        "{}",
        String::from_utf8_lossy(&run.stderr)
    );
    String::from_utf8(run.stdout).unwrap()
}

fn expected() -> String {
    std::fs::read_to_string(root().join("examples/thread.out")).unwrap()
}

#[test]
fn in_c() {
    assert_eq!(written("cc", &["-std=c99"]), expected());
}

#[test]
fn in_cpp() {
    assert_eq!(written("c++", &["-std=c++11", "-x", "c++"]), expected());
}
