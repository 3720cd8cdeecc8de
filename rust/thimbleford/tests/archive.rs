//! The build script, on its own and below cargo: which archive it takes, which it
//! refuses and in what words, and what passes where there is none. One of another
//! boundary is linked too, and called for its version alone.

use std::{
    env, fs,
    path::{Path, PathBuf},
    process::Command,
    sync::OnceLock,
    time::SystemTime,
};

use thimbleford::{archive_version, Refusal};

const ARCHIVE: &str = "libthimbleford.a";
const PACKAGE: &str = env!("CARGO_MANIFEST_DIR");
const HOST: &str = env::consts::ARCH;

/// How an archive begins, and an object.
const START: &[u8] = b"!<arch>\n";
const MARK: &[u8] = b"\x7fELF";

/// How cargo begins what the build script warns of.
const WARNING: &str = concat!("warning: thimbleford@", env!("CARGO_PKG_VERSION"), ": ");

/// What rustc says where there is no archive, also below a quiet cargo.
const MISSING: &str = "could not find native static library \
    `thimbleford, which .ci/archive makes`";

/// The archive that this test is linked with.
fn linked() -> Vec<u8> {
    fs::read(Path::new(env!("OUT_DIR")).join(ARCHIVE)).unwrap()
}

/// Where the archive has a mark first.
fn place(archive: &[u8], mark: &[u8]) -> usize {
    let mut places = archive.windows(mark.len());
    places.position(|place| place == mark).unwrap()
}

/// The linked archive with other bytes, so far behind a mark.
fn patched(mark: &[u8], behind: usize, bytes: &[u8]) -> Vec<u8> {
    let mut archive = linked();
    let at = place(&archive, mark) + behind;
    archive[at..at + bytes.len()].copy_from_slice(bytes);
    archive
}

/// An archive of one member.
fn archive_of(member: &[u8]) -> Vec<u8> {
    let header = format!("{:<48}{:<10}`\n", "member/", member.len());
    let padding = &b"\n"[..member.len() % 2];
    [START, header.as_bytes(), member, padding].concat()
}

/// An empty folder.
fn empty(name: &str) -> PathBuf {
    let folder = Path::new(env!("CARGO_TARGET_TMPDIR"))
        .join("archive")
        .join(name);
    if folder.exists() {
        fs::remove_dir_all(&folder).unwrap();
    }
    fs::create_dir_all(&folder).unwrap();
    folder.canonicalize().unwrap()
}

/// Writes the archive to a folder, over an older one.
fn put(folder: &Path, archive: &[u8]) {
    fs::create_dir_all(folder).unwrap();
    fs::write(folder.join(ARCHIVE), archive).unwrap();
}

/// What is below a folder: each path, with the time and a file's bytes.
fn below(folder: &Path) -> Vec<(PathBuf, SystemTime, Vec<u8>)> {
    let mut found = Vec::new();
    for entry in fs::read_dir(folder).unwrap() {
        let path = entry.unwrap().path();
        if path.is_dir() {
            found.extend(below(&path));
        }
        let written = path.metadata().unwrap().modified().unwrap();
        let bytes = fs::read(&path).unwrap_or_default();
        found.push((path, written, bytes));
    }
    found.sort();
    found
}

/// The archives below a folder, with their bytes.
fn archives_below(folder: &Path) -> Vec<(PathBuf, Vec<u8>)> {
    let all = below(folder).into_iter();
    all.filter(|(path, ..)| path.ends_with(ARCHIVE))
        .map(|(path, _, bytes)| (path, bytes))
        .collect()
}

/// Whether a command ended well, and its two outputs.
fn run(command: &mut Command) -> (bool, String, String) {
    let output = command.output().unwrap();
    let [out, err] = [output.stdout, output.stderr].map(|bytes| String::from_utf8(bytes).unwrap());
    (output.status.success(), out, err)
}

/// The two outputs of a command that ends well.
fn passes(command: &mut Command) -> (String, String) {
    let (passed, out, err) = run(command);
    assert!(passed, "{command:?}\n{out}{err}");
    (out, err)
}

/// What a command complained that does not end well.
fn fails(command: &mut Command) -> String {
    let (passed, out, err) = run(command);
    assert!(!passed, "{command:?}\n{out}{err}");
    err
}

/// The compiler that cargo uses.
fn rustc() -> Command {
    let beside = || Path::new(env!("CARGO")).with_file_name("rustc").into();
    let mut rustc = Command::new(env::var_os("RUSTC").unwrap_or_else(beside));
    rustc.arg("--edition=2021");
    rustc
}

/// The build script as cargo runs it for this machine, in the package of an empty
/// repository.
fn script(world: &Path) -> Command {
    static SCRIPT: OnceLock<PathBuf> = OnceLock::new();
    let compiled = SCRIPT.get_or_init(|| {
        let script = empty("script").join("script");
        let source = Path::new(PACKAGE).join("build.rs");
        passes(rustc().arg(source).arg("-o").arg(&script));
        script
    });
    let (package, out) = (world.join("repository/rust/thimbleford"), world.join("out"));
    fs::create_dir_all(&package).unwrap();
    fs::create_dir_all(&out).unwrap();
    let mut script = Command::new(compiled);
    script
        .current_dir(&package)
        .env("CARGO_MANIFEST_DIR", package)
        .env("CARGO_CFG_TARGET_ARCH", HOST)
        .env("CARGO_CFG_TARGET_OS", "linux")
        .env("OUT_DIR", out)
        .env_remove("THIMBLEFORD_ARCHIVE")
        .env_remove("PWD");
    script
}

/// cargo on a package, run in a folder that has the target folder too.
fn cargo(words: &[&str], package: &Path, world: &Path) -> Command {
    let mut cargo = Command::new(env!("CARGO"));
    cargo
        .args(words)
        .args(["--offline", "--color=never", "--manifest-path"])
        .arg(package.join("Cargo.toml"))
        .arg("--target-dir")
        .arg(world.join("target"))
        .current_dir(world)
        .env("PWD", world);
    cargo
}

/// Why the build script refuses an archive for a target; nothing where it links it.
fn refusal(world: &Path, archive: &[u8], arch: &str, os: &str) -> Option<String> {
    let folder = world.join("folder");
    put(&folder, archive);
    let mut script = script(world);
    script
        .env("THIMBLEFORD_ARCHIVE", &folder)
        .env("CARGO_CFG_TARGET_ARCH", arch)
        .env("CARGO_CFG_TARGET_OS", os);
    let (lines, _) = passes(&mut script);
    let path = folder.join(ARCHIVE);
    let warning = format!("cargo::warning={} ", path.display());
    let why = lines.lines().find_map(|line| line.strip_prefix(&warning));
    let searched = lines.contains("cargo::rustc-link-search=");
    assert_ne!(why.is_some(), searched, "{lines}");
    why.map(str::to_owned)
}

#[test]
fn the_repositorys_archive_is_copied_and_nothing_else_is_written() {
    let world = empty("written");
    let (repository, out) = (world.join("repository"), world.join("out"));
    let archive = repository.join("target/staticlib").join(ARCHIVE);
    let mut script = script(&world);

    // It is not made where it is missing.
    let before = below(&world);
    let (lines, _) = passes(&mut script);
    assert_eq!(below(&world), before);
    let path = archive.display();
    let expected = format!(
        "cargo::rerun-if-env-changed=THIMBLEFORD_ARCHIVE\n\
         cargo::rerun-if-changed={path}\n\
         cargo::warning={path} cannot be read: No such file or directory (os error 2)\n\
         cargo::warning=`.ci/archive {HOST}` makes libthimbleford.a in target/staticlib of the \
         repository; THIMBLEFORD_ARCHIVE may name another folder\n\
         cargo::rustc-link-lib=static=thimbleford, which .ci/archive makes\n"
    );
    assert_eq!(lines, expected);

    put(archive.parent().unwrap(), &linked());
    let before = below(&repository);
    let (lines, _) = passes(&mut script);
    assert_eq!(below(&repository), before);
    assert_eq!(below(&out).len(), 1);
    assert_eq!(archives_below(&out), [(out.join(ARCHIVE), linked())]);
    let expected = format!(
        "cargo::rerun-if-env-changed=THIMBLEFORD_ARCHIVE\n\
         cargo::rerun-if-changed={path}\n\
         cargo::rustc-link-search=native={}\n\
         cargo::rustc-link-lib=static=thimbleford\n",
        out.display()
    );
    assert_eq!(lines, expected);
}

#[test]
fn an_archive_for_another_target_is_refused_in_words() {
    let world = empty("target");
    let refusal = |archive: &[u8], arch, os| refusal(&world, archive, arch, os);
    let numbers = [("x86_64", 62), ("aarch64", 183)];
    for (processor, number) in numbers {
        let archive = patched(MARK, 18, &[number, 0]);
        for (target, _) in numbers {
            let why = format!("is for {processor} on linux, and the target is {target} on linux");
            let expected = (processor != target).then_some(why);
            assert_eq!(refusal(&archive, target, "linux"), expected);
        }
        let why = format!("is for {processor} on linux, and the target is {processor} on macos");
        assert_eq!(refusal(&archive, processor, "macos"), Some(why));
    }
    // 32 bits, big-endian, the numbers of other processors, and an object's mark alone.
    let strange = [(4, 1), (5, 2), (18, 243), (19, 1)];
    let mut strange = strange
        .map(|(at, byte)| patched(MARK, at, &[byte]))
        .to_vec();
    strange.push(archive_of(MARK));
    for archive in strange {
        let why = format!("is for another processor on linux, and the target is {HOST} on linux");
        assert_eq!(refusal(&archive, HOST, "linux"), Some(why));
    }
}

#[test]
fn an_archive_from_before_the_version_is_refused_in_words() {
    let world = empty("older");
    let mut older = linked();
    let name = b"thimbleford_version";
    while let Some(at) = older.windows(name.len()).position(|place| place == name) {
        older[at..at + name.len()].copy_from_slice(b"thimbleford_edition");
    }
    let why = "is older than this crate: it has no thimbleford_version".to_owned();
    assert_eq!(refusal(&world, &older, HOST, "linux"), Some(why));
    assert_eq!(refusal(&world, &linked(), HOST, "linux"), None);
}

#[test]
fn any_other_bytes_are_refused_in_words() {
    let world = empty("bytes");
    let archive = linked();
    let object = place(&archive, MARK);
    let mut others = vec![archive[object..].to_vec(), b"no archive at all".to_vec()];
    // One that only names the files of its members.
    others.push(patched(START, 0, b"!<thin>\n"));
    // Cut in a header, in a member, and at the last bytes.
    let cuts = (0..object + 20).chain([archive.len() - 2]);
    others.extend(cuts.map(|end| archive[..end].to_vec()));
    // Sizes of the first member.
    for size in [
        &b""[..],
        b"0",
        b"-1",
        b"0x10",
        b"9999999999",
        b"\0",
        b"\xff",
    ] {
        let mut field = [b' '; 10];
        field[..size.len()].copy_from_slice(size);
        others.push(patched(START, 8 + 48, &field));
    }
    let why = Some("is no whole archive of ELF objects".to_owned());
    for other in others {
        assert_eq!(refusal(&world, &other, HOST, "linux"), why, "{other:?}");
    }
    // A member before the object is passed over, of an odd length too.
    let behind = [archive_of(b"odd"), linked()[START.len()..].to_vec()].concat();
    assert_eq!(refusal(&world, &behind, HOST, "linux"), None);
}

#[test]
fn a_relative_folder_is_taken_from_where_cargo_is_run() {
    let world = empty("relative");
    let (here, elsewhere) = (world.join("here"), world.join("elsewhere/deeper"));
    put(&world.join("named"), &linked());
    let from = |start: &Path| {
        fs::create_dir_all(start).unwrap();
        let mut cargo = cargo(&["build", "--locked"], Path::new(PACKAGE), &world);
        let named = "../named";
        cargo
            .current_dir(start)
            .env("PWD", start)
            .env("THIMBLEFORD_ARCHIVE", named);
        cargo
    };
    let (_, err) = passes(&mut from(&here));
    assert!(!err.contains(WARNING), "{err}");
    let looked = elsewhere.join("../named").join(ARCHIVE);
    let err = fails(&mut from(&elsewhere));
    let words = format!("{WARNING}{} cannot be read", looked.display());
    assert!(err.contains(&words), "{err}");

    // A shell sets PWD; what else runs cargo may not.
    let words = "cargo::warning=THIMBLEFORD_ARCHIVE is relative, ../named, and PWD does not say \
        where cargo is run\n";
    for pwd in [None, Some("here")] {
        let mut script = script(&world);
        script
            .env("THIMBLEFORD_ARCHIVE", "../named")
            .envs(pwd.map(|path| ("PWD", path)));
        let (lines, _) = passes(&mut script);
        assert!(lines.contains(words), "{lines}");
    }
}

/// Makes a folder's archive read-only, with the bytes.
fn put_read_only(folder: &Path, archive: &[u8]) {
    let path = folder.join(ARCHIVE);
    let _ = fs::remove_file(&path);
    put(folder, archive);
    set_read_only(&path);
}

fn set_read_only(path: &Path) {
    let mut mode = path.metadata().unwrap().permissions();
    mode.set_readonly(true);
    fs::set_permissions(path, mode).unwrap();
}

#[test]
fn a_read_only_archive_is_linked_again() {
    let world = empty("read-only");
    let named = world.join("named");
    let target = world.join("target");
    // Another date in the header of the first member.
    let dated = patched(START, 8 + 16, b"1");
    assert_ne!(dated, linked());
    for archive in [linked(), dated] {
        put_read_only(&named, &archive);
        let before = below(&named);
        let mut cargo = cargo(&["build", "--locked"], Path::new(PACKAGE), &world);
        passes(cargo.env("THIMBLEFORD_ARCHIVE", &named));
        assert_eq!(below(&named), before);
        let copies = archives_below(&target);
        assert_eq!(copies.len(), 1);
        let (copy, bytes) = &copies[0];
        assert_eq!(bytes, &archive);
        // Whoever may do anything writes over a read-only file, which stays one.
        assert!(!copy.metadata().unwrap().permissions().readonly());
        set_read_only(copy);
    }
}

#[test]
fn without_an_archive_checks_and_documents_pass_and_a_build_says_what_is_missing() {
    let world = empty("missing");
    let named = world.join("named");
    let cargo = |words: &[&str]| {
        let mut cargo = cargo(words, Path::new(PACKAGE), &world);
        cargo.arg("--locked").env("THIMBLEFORD_ARCHIVE", &named);
        cargo
    };
    let said = |err: &str| {
        let read = format!("{} cannot be read: ", named.join(ARCHIVE).display());
        let made = format!("`.ci/archive {HOST}` makes libthimbleford.a");
        [read, made]
            .iter()
            .all(|words| err.contains(&format!("{WARNING}{words}")))
    };
    for words in [&["check", "--all-targets"][..], &["doc", "--no-deps"]] {
        let (_, err) = passes(&mut cargo(words));
        assert!(said(&err), "{err}");
    }
    let err = fails(&mut cargo(&["build"]));
    assert!(said(&err) && err.contains(MISSING), "{err}");
    let err = fails(&mut cargo(&["build", "--quiet"]));
    assert!(!said(&err) && err.contains(MISSING), "{err}");

    // It is found once it is there.
    put(&named, &linked());
    let (_, err) = passes(&mut cargo(&["build"]));
    assert!(!said(&err), "{err}");
}

/// The source of an archive of another boundary, whose other functions must not be
/// called: who calls them ends there.
fn other_boundary(version: u32) -> String {
    format!(
        "#![no_std]
        extern \"C\" {{ fn abort() -> !; }}
        #[no_mangle] pub extern \"C\" fn thimbleford_version() -> u32 {{ {version} }}
        #[no_mangle] pub extern \"C\" fn thimbleford_create() {{ unsafe {{ abort() }} }}
        #[no_mangle] pub extern \"C\" fn thimbleford_judge() {{ unsafe {{ abort() }} }}"
    )
}

/// A program that creates, makes a policy and judges, and prints each refusal.
const ASKING: &str = r#"
use thimbleford::{create, judge, region::{Action, Rule, NEVER}, Call, Policy};

fn main() {
    println!("{}", create(&[]).unwrap_err());
    let limit = Action { expires_at: NEVER, rule: Rule::SolLimit { remaining: 1 } };
    println!("{}", Policy::create(&[limit]).unwrap_err().refusal());
    let call = Call {
        before: &[0, 0],
        after: &[0, 0],
        instructions: &[0],
        vault: &[7; 32],
        slot: 1,
        lamports_before: 0,
        lamports_after: 0,
        gross: 0,
    };
    println!("{}", judge(&mut [], &call).unwrap_err());
}
"#;

#[test]
fn an_archive_of_another_boundary_is_called_for_its_version_alone() {
    let world = empty("boundary");
    let (named, program) = (world.join("named"), world.join("program"));
    let (source, object) = (world.join("other.rs"), world.join("other.o"));
    fs::create_dir_all(program.join("src")).unwrap();
    let manifest = format!(
        "package.name = \"program\"\n\
         package.edition = \"2021\"\n\
         dependencies.thimbleford.path = {PACKAGE:?}\n\
         workspace = {{}}\n"
    );
    fs::write(program.join("Cargo.toml"), manifest).unwrap();
    fs::write(program.join("src/main.rs"), ASKING).unwrap();
    let mut cargo = cargo(&["run"], &program, &world);
    cargo.env("THIMBLEFORD_ARCHIVE", &named);

    // Who depends on the crate sees its words too.
    let err = fails(&mut cargo);
    let words = format!("{WARNING}{} cannot be read", named.join(ARCHIVE).display());
    assert!(err.contains(&words) && err.contains(MISSING), "{err}");

    let version = archive_version() + 1;
    fs::write(&source, other_boundary(version)).unwrap();
    let mut rustc = rustc();
    rustc.args(["--crate-type=lib", "--emit=obj", "-o"]);
    passes(rustc.arg(&object).arg(&source));
    put(&named, &archive_of(&fs::read(object).unwrap()));
    let (out, _) = passes(&mut cargo);
    let refused = format!("{}\n", Refusal::OtherArchive { version });
    assert_eq!(out, refused.repeat(3));
}
