//! The crate is built with a copy of the published files, and is not where a
//! byte of one of them is changed.

#[path = "../sha256.rs"]
mod sha256;

use std::{
    fs,
    path::{Path, PathBuf},
    process::{Command, Output},
};

const FILES: [&str; 4] = [
    "program/src/compact.rs",
    "program/src/error.rs",
    "program/src/processor/execute_actions.rs",
    "program/src/state/action.rs",
];

/// Where what these tests build and copy goes.
fn place() -> PathBuf {
    Path::new(env!("CARGO_TARGET_TMPDIR")).join("unchanged")
}

/// What cargo says when it builds the crate with the files of a checkout.
fn built(checkout: &Path) -> Output {
    let mut cargo = Command::new(env!("CARGO"));
    cargo.args(["check", "--quiet", "--locked", "--offline", "--package"]);
    cargo
        .args([env!("CARGO_PKG_NAME"), "--target-dir"])
        .arg(place());
    let cargo = cargo.current_dir(env!("CARGO_MANIFEST_DIR"));
    let output = cargo.env("LAZORKIT_PROGRAM", checkout).output();
    output.expect("cargo runs")
}

#[test]
#[cfg_attr(not(oracle_sources), ignore)]
fn a_changed_byte_is_refused() {
    let published = Path::new(env!("LAZORKIT_SOURCES"));
    let copy = place().join("copy");
    for file in FILES {
        let path = copy.join(file);
        fs::create_dir_all(path.parent().expect("a file has a folder")).unwrap();
        fs::write(path, fs::read(published.join(file)).unwrap()).unwrap();
    }
    let output = built(&copy);
    assert!(output.status.success(), "{output:?}");
    for file in FILES {
        let path = copy.join(file);
        let sound = fs::read(&path).unwrap();
        let mut changed = sound.clone();
        // A space for a line end: the code is the same.
        let end = changed.iter().rposition(|byte| *byte == b'\n').unwrap();
        changed[end] = b' ';
        fs::write(&path, &changed).unwrap();
        let output = built(&copy);
        let said = String::from_utf8_lossy(&output.stderr);
        assert!(!output.status.success(), "{file}: {said}");
        let words = [
            format!("{} is not the published file", path.display()),
            format!("its SHA-256 digest is {}", sha256::digest(&changed)),
            format!("{file} at commit 6c727b9f05 is {}", sha256::digest(&sound)),
        ];
        assert!(words.iter().all(|words| said.contains(words)), "{said}");
        fs::write(&path, sound).unwrap();
    }
}
