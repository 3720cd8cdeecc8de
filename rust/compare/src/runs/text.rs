//! A run as the text of a file: one name and its value a line, bytes in hex.

use std::{fmt, str::FromStr};

use super::Run;
use crate::{
    bytes::{hex, unhex},
    calls::Call,
};

impl fmt::Display for Run {
    fn fmt(&self, f: &mut fmt::Formatter) -> fmt::Result {
        writeln!(f, "region {}", hex(&self.region))?;
        for call in &self.calls {
            writeln!(f, "call")?;
            for (name, value) in fields(call) {
                writeln!(f, "{name} {value}")?;
            }
        }
        Ok(())
    }
}

/// What a call is given, each part with its name.
fn fields(call: &Call) -> [(&'static str, String); 8] {
    [
        ("before", hex(&call.before)),
        ("after", hex(&call.after)),
        ("instructions", hex(&call.instructions)),
        ("vault", hex(&call.vault)),
        ("slot", call.slot.to_string()),
        ("lamports-before", call.lamports_before.to_string()),
        ("lamports-after", call.lamports_after.to_string()),
        ("gross", call.gross.to_string()),
    ]
}

/// Says which line is expected in place of the one that is there.
fn expected(what: &str) -> String {
    format!("a line `{what}` is expected")
}

impl FromStr for Run {
    type Err = String;

    fn from_str(text: &str) -> Result<Self, String> {
        let mut lines = text.lines();
        let region = bytes(&mut lines, "region")?;
        let mut calls = Vec::new();
        while let Some(line) = lines.next() {
            if line != "call" {
                return Err(expected("call"));
            }
            calls.push(Call {
                before: bytes(&mut lines, "before")?,
                after: bytes(&mut lines, "after")?,
                instructions: bytes(&mut lines, "instructions")?,
                vault: bytes(&mut lines, "vault")?
                    .try_into()
                    .map_err(|_| expected("vault with a key"))?,
                slot: number(&mut lines, "slot")?,
                lamports_before: number(&mut lines, "lamports-before")?,
                lamports_after: number(&mut lines, "lamports-after")?,
                gross: number(&mut lines, "gross")?,
            });
        }
        Ok(Self { region, calls })
    }
}

/// The value of the next line, which has the name.
fn value<'a>(lines: &mut std::str::Lines<'a>, name: &str) -> Result<&'a str, String> {
    let line = lines.next().and_then(|line| line.strip_prefix(name));
    line.map(str::trim).ok_or_else(|| expected(name))
}

fn bytes(lines: &mut std::str::Lines, name: &str) -> Result<Vec<u8>, String> {
    unhex(value(lines, name)?).ok_or_else(|| expected(&format!("{name} with bytes in hex")))
}

fn number(lines: &mut std::str::Lines, name: &str) -> Result<u64, String> {
    let value = value(lines, name)?;
    value
        .parse()
        .map_err(|_| expected(&format!("{name} with a number")))
}

#[cfg(test)]
mod tests {
    use super::*;
    use crate::{chance::Chance, runs};

    #[test]
    fn a_run_comes_back() {
        let creation = Run {
            region: vec![],
            calls: vec![],
        };
        assert_eq!(creation.to_string().parse(), Ok(creation));
        let run = runs::draw(&mut Chance::new(1));
        let text = run.to_string();
        assert_eq!(text.parse(), Ok(run));
        // A line less, and a line that is cut.
        let (less, _) = text.trim_end().rsplit_once('\n').unwrap();
        assert!(less.parse::<Run>().unwrap_err().contains("gross"));
        assert!(text.trim_end_matches(|c| c != ' ').parse::<Run>().is_err());
    }
}
