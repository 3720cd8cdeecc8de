//! Finds the published sources, sees that they are those of the commit, and
//! writes the module lines that compile them where they lie.
//!
//! They are looked for in the checkout that `LAZORKIT_PROGRAM` names (an
//! absolute path), else in `shared/docs/src` beside the repository. A checkout
//! that is named and not there counts as absent: falling back to another one
//! would compare with sources that nobody asked for. Other files than the
//! commit's stop the build: what holds of them is not said of the published code.

mod sha256;

use std::{
    env, fs,
    path::{Path, PathBuf},
    process::exit,
};

/// The commit of lazor-kit/program-v2 that the port follows.
const COMMIT: &str = "6c727b9f05";

/// A published file and the module that it is compiled as.
struct Source {
    /// The enclosing module, or none: the crate root.
    parent: Option<&'static str>,
    module: &'static str,
    /// Its place in the checkout.
    file: &'static str,
    /// The SHA-256 digest that it has at the commit.
    digest: &'static str,
}

const SOURCES: [Source; 4] = [
    Source {
        parent: None,
        module: "compact",
        file: "program/src/compact.rs",
        digest: "2477edcab94568bd813ec03958fca3d42734b5a7ee74421e8cec2605be71e45a",
    },
    Source {
        parent: None,
        module: "error",
        file: "program/src/error.rs",
        digest: "2a9d851b699f581fa31f6dc95bb03f96eb49baa2583980f2a28414051224dfa0",
    },
    Source {
        parent: Some("processor"),
        module: "execute_actions",
        file: "program/src/processor/execute_actions.rs",
        digest: "bb622a9c38e33c3bd1ca17acaa090891c465cadd08b7334ddac1a75f874354cb",
    },
    Source {
        parent: Some("state"),
        module: "action",
        file: "program/src/state/action.rs",
        digest: "d56bcc9bb73c4770642cec3b5684e49515ff0d9b276c8014c83eb4d07c7822d7",
    },
];

/// Foreign code is compiled as it is: no lint speaks about it.
const SILENCE: &str = "#[allow(warnings, clippy::all, unsafe_code, rustdoc::all)]";

fn main() {
    println!("cargo::rustc-check-cfg=cfg(oracle_sources)");
    println!("cargo::rerun-if-env-changed=LAZORKIT_PROGRAM");
    println!("cargo::rustc-env=LAZORKIT_COMMIT={COMMIT}");

    let named = env::var_os("LAZORKIT_PROGRAM").map(PathBuf::from);
    let checkout = named.clone().unwrap_or_else(beside_the_repository);
    for source in &SOURCES {
        let path = checkout.join(source.file);
        println!("cargo::rerun-if-changed={}", path.display());
    }
    let place = checkout.display();
    // For the test that changes them.
    println!("cargo::rustc-env=LAZORKIT_SOURCES={place}");
    let missing = |source: &&Source| !checkout.join(source.file).is_file();
    if let Some(Source { file, .. }) = SOURCES.iter().find(missing) {
        let absent = match named {
            Some(_) => format!("LAZORKIT_PROGRAM names {place}, which has no {file}"),
            None => format!("{place} has no {file}, and LAZORKIT_PROGRAM names no other place"),
        };
        println!("cargo::rustc-env=LAZORKIT_ABSENT={absent}");
        return;
    }
    let lines = SOURCES.iter().map(|source| source.lines(&checkout));
    let lines = lines
        .collect::<Result<String, _>>()
        .unwrap_or_else(|refusal| {
            println!("cargo::error={refusal}");
            exit(1)
        });
    let out = PathBuf::from(env::var_os("OUT_DIR").unwrap());
    fs::write(out.join("sources.rs"), lines).expect("the build directory can be written to");
    println!("cargo::rustc-cfg=oracle_sources");
    println!("cargo::metadata=sources=found");
}

fn beside_the_repository() -> PathBuf {
    let this = PathBuf::from(env::var_os("CARGO_MANIFEST_DIR").unwrap());
    let beside = fs::canonicalize(this.join("../../..")).expect("this crate is in a repository");
    beside.join("shared/docs/src")
}

impl Source {
    /// The lines that compile the file, or why it is not compiled.
    fn lines(&self, checkout: &Path) -> Result<String, String> {
        let Self { module, file, .. } = self;
        let path = checkout.join(file);
        let bytes = fs::read(&path).map_err(|error| format!("{}: {error}", path.display()))?;
        let found = sha256::digest(&bytes);
        if found != self.digest {
            let (path, digest) = (path.display(), self.digest);
            return Err(format!(
                "{path} is not the published file: its SHA-256 digest is {found}, \
                 that of {file} at commit {COMMIT} is {digest}"
            ));
        }
        let path = fs::canonicalize(path).map_err(|error| format!("{file}: {error}"))?;
        let declared = format!("{SILENCE}\n#[path = {path:?}]\npub mod {module};\n");
        Ok(match self.parent {
            // The session header is the oracle's own and stands beside the published actions.
            Some("state") => format!("mod state {{\npub use crate::session;\n{declared}}}\n"),
            Some(parent) => format!("mod {parent} {{\n{declared}}}\n"),
            None => declared,
        })
    }
}
