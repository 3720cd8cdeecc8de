//! The recorded runs of the program `replay`: the small ones of the named runs,
//! and what has to be printed for each.

use std::{
    env, fs,
    path::{Path, PathBuf},
    process,
};

use compare::{
    replay,
    subjects::{Archive, Published},
};
use oracle::Oracle;

fn recorded() -> PathBuf {
    Path::new(env!("CARGO_MANIFEST_DIR")).join("../../samples")
}

/// The names and the bytes of a folder's files.
fn files(dir: &Path) -> Vec<(String, Vec<u8>)> {
    let entries = fs::read_dir(dir).expect("the folder is there");
    let mut files: Vec<_> = entries
        .map(|entry| {
            let entry = entry.expect("the folder can be read");
            let name = entry.file_name().to_string_lossy().into_owned();
            (name, fs::read(entry.path()).expect("the file can be read"))
        })
        .collect();
    files.sort();
    files
}

/// By the archive's numbers, where the published sources are not there too.
#[test]
fn the_named_runs_are_recorded() {
    let expected = replay::samples(&mut Archive);
    let both = |(name, input, text): (String, Vec<u8>, String)| {
        let text = text.into_bytes();
        [
            (format!("{name}.replay"), input),
            (format!("{name}.txt"), text),
        ]
    };
    let mut expected: Vec<_> = expected.into_iter().flat_map(both).collect();
    expected.sort();
    assert!(files(&recorded()) == expected, "compare samples");
    let all: usize = expected.iter().map(|(_, bytes)| bytes.len()).sum();
    assert!(all < 20_000, "{all}");
}

#[test]
#[cfg_attr(not(oracle_sources), ignore)]
fn what_is_written_is_recorded() {
    let oracle = Oracle::find().expect("ignored where the sources were not found");
    let dir = env::temp_dir().join(format!("compare-samples-{}", process::id()));
    replay::write_samples(&mut Published(oracle), &dir).unwrap();
    assert!(files(&dir) == files(&recorded()), "compare samples");
    fs::remove_dir_all(dir).unwrap();
}
