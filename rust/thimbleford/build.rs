//! Finds `libthimbleford.a`, the archive of the C functions, and links a copy of it.
//!
//! It is looked for in the folder that `THIMBLEFORD_ARCHIVE` names, a relative one
//! from where cargo is run, else in `target/staticlib` of the repository. It is not
//! made here: `.ci/archive` proves crates for minutes and writes to the repository,
//! and a build script writes to `OUT_DIR` alone.
//!
//! `cargo check` and `cargo doc` link nothing and pass without an archive. Where
//! there is none for the target a warning says so, and what links stops.

use std::{
    env, fs,
    path::{Path, PathBuf},
};

const ARCHIVE: &str = "libthimbleford.a";

/// Stands in for the library where there is none. rustc says the name that it does
/// not find, and it alone is seen where `--quiet` hides the warning.
const MISSING: &str = "thimbleford, which .ci/archive makes";

fn main() {
    println!("cargo::rerun-if-env-changed=THIMBLEFORD_ARCHIVE");
    match find() {
        Ok(folder) => {
            println!("cargo::rustc-link-search=native={}", folder.display());
            println!("cargo::rustc-link-lib=static=thimbleford");
        }
        Err(why) => {
            let processor = cargo("CARGO_CFG_TARGET_ARCH").unwrap_or_default();
            println!("cargo::warning={why}");
            println!(
                "cargo::warning=`.ci/archive {processor}` makes {ARCHIVE} in target/staticlib of \
                 the repository; THIMBLEFORD_ARCHIVE may name another folder"
            );
            println!("cargo::rustc-link-lib=static={MISSING}");
        }
    }
}

/// A variable that cargo sets for each build script.
fn cargo(name: &str) -> Result<String, String> {
    env::var(name).map_err(|error| format!("{name}: {error}"))
}

/// The folder of a copy of the archive, or why there is none.
fn find() -> Result<PathBuf, String> {
    let archive = folder()?.join(ARCHIVE);
    let path = archive.display();
    println!("cargo::rerun-if-changed={path}");
    let bytes = fs::read(&archive).map_err(|error| format!("{path} cannot be read: {error}"))?;
    check(&bytes).map_err(|why| format!("{path} {why}"))?;
    copy(&bytes)
}

/// The folder to look in. This script runs in the package's folder; the shell's
/// PWD has the one where cargo is run.
fn folder() -> Result<PathBuf, String> {
    let Some(named) = env::var_os("THIMBLEFORD_ARCHIVE").map(PathBuf::from) else {
        let root = Path::new(&cargo("CARGO_MANIFEST_DIR")?).join("../..");
        return Ok(root.canonicalize().unwrap_or(root).join("target/staticlib"));
    };
    if named.is_absolute() {
        return Ok(named);
    }
    println!("cargo::rerun-if-env-changed=PWD");
    match env::var_os("PWD").map(PathBuf::from) {
        Some(start) if start.is_absolute() => Ok(start.join(named)),
        _ => Err(format!(
            "THIMBLEFORD_ARCHIVE is relative, {}, and PWD does not say where cargo is run",
            named.display()
        )),
    }
}

/// Whether the archive can be linked for the target, or why not.
fn check(archive: &[u8]) -> Result<(), String> {
    let object = object(archive).ok_or("is no whole archive of ELF objects")?;
    let made_for = format!("{} on linux", processor(object));
    let arch = cargo("CARGO_CFG_TARGET_ARCH")?;
    let target = format!("{arch} on {}", cargo("CARGO_CFG_TARGET_OS")?);
    if made_for != target {
        return Err(format!("is for {made_for}, and the target is {target}"));
    }
    let version = b"thimbleford_version\0";
    if !archive.windows(version.len()).any(|name| name == version) {
        return Err("is older than this crate: it has no thimbleford_version".to_owned());
    }
    Ok(())
}

/// The first ELF object of an `ar` archive. Each member has a header of 60 bytes,
/// with the size in decimal at 48, and is padded to an even length.
fn object(archive: &[u8]) -> Option<&[u8]> {
    let mut rest = archive.strip_prefix(b"!<arch>\n")?;
    loop {
        let (header, members) = rest.split_at_checked(60)?;
        let size = std::str::from_utf8(&header[48..58]).ok()?.trim_end();
        let (member, next) = members.split_at_checked(size.parse().ok()?)?;
        if member.starts_with(b"\x7fELF") {
            return Some(member);
        }
        rest = next.get(member.len() % 2..)?;
    }
}

/// The processor of an ELF object, as cargo names it. Behind the mark it says that
/// it has 64 bits and is little-endian, and the processor's number is at 18.
fn processor(object: &[u8]) -> &'static str {
    match object.get(4..20) {
        Some([2, 1, .., 62, 0]) => "x86_64",
        Some([2, 1, .., 183, 0]) => "aarch64",
        _ => "another processor",
    }
}

/// Writes the copy that is linked, writable also where the archive is not. An older
/// copy that is read-only is removed, since it cannot be written over.
fn copy(archive: &[u8]) -> Result<PathBuf, String> {
    let folder = PathBuf::from(cargo("OUT_DIR")?);
    let copy = folder.join(ARCHIVE);
    // Where this fails and matters, writing fails too and says why.
    let _ = fs::remove_file(&copy);
    fs::write(&copy, archive)
        .map_err(|error| format!("{} cannot be written: {error}", copy.display()))?;
    Ok(folder)
}
