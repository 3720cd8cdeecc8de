//! The runner where the published sources are not: it is built once more, with
//! a folder named that is not there.

use std::{
    path::Path,
    process::{Command, Output},
};

use compare::NOTHING_COMPARED;

#[test]
fn nothing_is_compared_without_the_sources() {
    let target = Path::new(env!("CARGO_TARGET_TMPDIR")).join("absent");
    let nowhere = target.join("nowhere");
    let mut cargo = Command::new(env!("CARGO"));
    cargo.args(["build", "--quiet", "--locked", "--offline", "--bin"]);
    cargo
        .args([env!("CARGO_PKG_NAME"), "--target-dir"])
        .arg(&target);
    let cargo = cargo.current_dir(env!("CARGO_MANIFEST_DIR"));
    let built = cargo.env("LAZORKIT_PROGRAM", &nowhere).output();
    let built = built.expect("cargo runs");
    assert!(built.status.success(), "{built:?}");

    let runner = target.join("debug").join(env!("CARGO_PKG_NAME"));
    let output = |arguments: &[&str]| -> Output {
        let output = Command::new(&runner).args(arguments).output();
        output.expect("the runner was built")
    };
    let place = nowhere.display();
    let reason = format!("LAZORKIT_PROGRAM names {place}, which has no program/src/compact.rs");
    for (arguments, said) in [
        (&["run"][..], NOTHING_COMPARED),
        (&["replay", "--program", "any"], NOTHING_COMPARED),
        (&["record", "--check"], NOTHING_COMPARED),
        (&["again", "any"], NOTHING_COMPARED),
        (&["bench"], "compare: the published sources were not found:"),
    ] {
        let output = output(arguments);
        assert_eq!(output.status.code(), Some(2), "{arguments:?}");
        assert_eq!(output.stdout, b"", "{arguments:?}");
        let error = String::from_utf8(output.stderr).unwrap();
        assert_eq!(error, format!("{said} {reason}\n"), "{arguments:?}");
    }
    assert_eq!(output(&["help"]).status.code(), Some(0));
}
