//! The recorded sample: cases for the program `vectors` and the lines of the
//! published Rust, which on token accounts is [amended](crate::subjects::Amended),
//! so that the port is tested where the sources are not.

use std::{fs, io, path::Path};

use oracle::Oracle;

use crate::{
    chance::Chance,
    vectors::{answer, draw, encode, Kind, KINDS},
};

/// The sample is drawn from this seed.
const SEED: u64 = 1;

/// So many cases of a kind: among them are every two breaches of creation, every
/// prefix of a stream, and the named pairs of keys, entries, tables and calls.
fn cases_of(kind: Kind) -> u64 {
    match kind {
        Kind::SameKey => 480,
        Kind::Judge => 130,
        Kind::Create | Kind::Read => 100,
        Kind::Resolve => 80,
        _ => 64,
    }
}

/// A sample: what the program reads, and what it has to print.
#[derive(Debug, PartialEq, Eq)]
pub struct Sample {
    /// The cases.
    pub stdin: Vec<u8>,
    /// The lines.
    pub stdout: String,
}

impl Sample {
    /// The sample of the published code. It is the same every time.
    pub fn draw(oracle: &Oracle) -> Self {
        let mut cases = Vec::new();
        let mut stdout = String::new();
        for kind in KINDS {
            for number in 0..cases_of(kind) {
                let mut chance = Chance::of_case(SEED, kind.name(), number);
                let case = draw(&mut chance, kind, number);
                let expected = answer(oracle, &case).expect("drawn payloads are long enough");
                stdout += &expected.line;
                stdout.push('\n');
                cases.push(case);
            }
        }
        Self {
            stdin: encode(&cases),
            stdout,
        }
    }

    /// Writes the sample's two files.
    pub fn write(&self, dir: &Path) -> io::Result<()> {
        fs::create_dir_all(dir)?;
        fs::write(dir.join("stdin"), &self.stdin)?;
        fs::write(dir.join("stdout"), &self.stdout)
    }

    /// Whether the two files are there and are this sample.
    pub fn is_recorded(&self, dir: &Path) -> bool {
        let holds = |name, bytes: &[u8]| fs::read(dir.join(name)).is_ok_and(|file| file == bytes);
        holds("stdin", &self.stdin) && holds("stdout", self.stdout.as_bytes())
    }
}

#[cfg(test)]
mod tests {
    use super::*;
    use crate::vectors::decode;

    #[test]
    #[cfg_attr(not(oracle_sources), ignore)]
    fn the_sample_is_small_and_the_same_every_time() {
        let oracle = Oracle::find().expect("ignored where the sources were not found");
        let sample = Sample::draw(&oracle);
        assert_eq!(sample, Sample::draw(&oracle));
        assert!(sample.stdin.len() < 700_000 && sample.stdout.len() < 700_000);
        let cases = decode(&sample.stdin).unwrap();
        assert_eq!(cases.len(), sample.stdout.lines().count());
        for kind in KINDS {
            let sorts: Vec<_> = cases
                .iter()
                .filter(|case| case.kind == kind)
                .map(|case| answer(&oracle, case).unwrap().sort)
                .collect();
            for sort in kind.domain().answers {
                assert!(sorts.contains(&sort), "{}: {sort}", kind.name());
            }
        }
    }
}
