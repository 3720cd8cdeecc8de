//! The program `replay`, written a second time by places in its input: right,
//! and with each fault. Its numbers are the archive's.

use compare::{
    calls::Call,
    replay::{self, ENDS},
    report::{Outcome, Report},
    subjects::{Archive, Subject},
};

/// What a program does wrong.
#[derive(Clone, Copy, Debug, PartialEq, Eq)]
enum Fault {
    NoCutLine,
    NoEndAfterCut,
    PartsOf60001Bytes,
    NoPartsOf60000Bytes,
    LengthsAddedIn32Bits,
    NoLongRegion,
    OpeningFilledUp,
    CallFilledUp,
    HeadCutIsTheEnd,
    NoPartsAreTheEnd,
    GoesOnAfterCut,
    RefusedRegionRuns,
    RefusedCallsCounted,
}

const FAULTS: [Fault; 13] = [
    Fault::NoCutLine,
    Fault::NoEndAfterCut,
    Fault::PartsOf60001Bytes,
    Fault::NoPartsOf60000Bytes,
    Fault::LengthsAddedIn32Bits,
    Fault::NoLongRegion,
    Fault::OpeningFilledUp,
    Fault::CallFilledUp,
    Fault::HeadCutIsTheEnd,
    Fault::NoPartsAreTheEnd,
    Fault::GoesOnAfterCut,
    Fault::RefusedRegionRuns,
    Fault::RefusedCallsCounted,
];

/// What the program prints.
fn print(fault: Option<Fault>, input: &[u8]) -> String {
    let has = |other| fault == Some(other);
    let cut = if has(Fault::NoCutLine) { "" } else { "cut\n" };
    let max_parts = match fault {
        Some(Fault::PartsOf60001Bytes) => 60_001,
        Some(Fault::NoPartsOf60000Bytes) => 59_999,
        _ => 60_000,
    };
    // Zeros stand behind the input, so that every place can be read.
    let bytes = [input, &[0; 70_000]].concat();
    let number = |at: usize, len: usize| {
        let bytes = bytes[at..at + len].iter().rev();
        bytes.fold(0, |sum, byte| sum << 8 | u64::from(*byte))
    };

    let mut at = 2 + number(0, 2) as usize;
    let too_long = has(Fault::NoLongRegion) && at > 2 + 1_200;
    if too_long || at > input.len() && !has(Fault::OpeningFilledUp) {
        return format!("{cut}end 0\n");
    }
    let mut region = bytes[2..at].to_vec();
    let created = Archive.create(&region);
    let mut text = format!("region {created}\n");
    if created != 0 && !has(Fault::RefusedRegionRuns) {
        return text + "end 0\n";
    }

    let (mut calls, mut counted) = (0, 0);
    while at < input.len() {
        let lengths = [32, 36, 40].map(|place| number(at + place, 4) as usize);
        let parts: usize = match has(Fault::LengthsAddedIn32Bits) {
            true => lengths.iter().sum::<usize>() as u32 as usize,
            false => lengths.iter().sum(),
        };
        let body = at + 76;
        if body > input.len() && has(Fault::HeadCutIsTheEnd) {
            break;
        }
        if parts == 0 && has(Fault::NoPartsAreTheEnd) {
            break;
        }
        let is_cut = body + parts > input.len() && !has(Fault::CallFilledUp);
        if parts > max_parts || is_cut {
            text += cut;
            if has(Fault::NoEndAfterCut) {
                return text;
            }
            if has(Fault::GoesOnAfterCut) {
                at = body;
                continue;
            }
            break;
        }
        let mut end = body;
        let mut take = |len: usize| {
            end += len;
            bytes.get(end - len..end).unwrap_or_default().to_vec()
        };
        let call = Call {
            before: take(lengths[0]),
            after: take(lengths[1]),
            instructions: take(lengths[2]),
            vault: bytes[at + 44..body].try_into().expect("a key's length"),
            slot: number(at, 8),
            lamports_before: number(at + 8, 8),
            lamports_after: number(at + 16, 8),
            gross: number(at + 24, 8),
        };
        let answer = Archive.judge(&mut region, &call);
        calls += 1;
        counted += u64::from(answer == 0 || has(Fault::RefusedCallsCounted));
        text += &format!("call {calls} {answer}\n");
        at = body + parts;
    }
    text + &format!("end {counted}\n")
}

fn report(fault: Option<Fault>, runs: u64) -> Report {
    let mut prints = |input: Vec<u8>| Ok(print(fault, &input));
    replay::compare(&mut Archive, &mut prints, 1, runs).expect("nothing is read or written")
}

#[test]
fn the_second_program_is_right() {
    let report = report(None, 100);
    assert!(report.passed(), "{report}");
}

/// The named runs end in every way, and do not reach every number.
#[test]
fn too_few_runs_fail() {
    let report = report(None, 0);
    assert_eq!(report.outcome(), Outcome::TooFew);
    assert!(report.missing().iter().all(|(of, _)| *of != ENDS));
}

#[test]
fn each_fault_is_found_by_a_named_run() {
    for fault in FAULTS {
        let report = report(Some(fault), 0);
        let text = report.to_string();
        assert_eq!(report.outcome(), Outcome::Differs, "{fault:?}: {text}");
        assert!(text.contains("difference: replay, seed 1, case "), "{text}");
    }
}

/// Not the whole input and both texts, which may be long.
#[test]
fn the_first_line_that_differs_is_shown() {
    let text = report(Some(Fault::RefusedCallsCounted), 0).to_string();
    let shown = "  run                     sol-limit
  input                   264 bytes
  line                    5
  expected                \"end 2\\n\"
  got                     \"end 3\\n\"
";
    assert!(text.contains(shown), "{text}");
}
