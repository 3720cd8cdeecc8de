//! What document 01's 'Replay program' says of an input, read from the input's
//! bytes alone. The numbers are a subject's.

use std::{fmt, iter};

use super::frame::{read_opening, Head, MAX_PARTS};
use crate::{bytes::Cursor, calls::Call, subjects::Subject};

/// How a run ends.
#[derive(Clone, Copy, Debug, PartialEq, Eq)]
pub enum Ending {
    /// The input is over where a call may begin.
    Over,
    /// Creation refused the region, and no call is run.
    Refused,
    /// The input stops inside the opening region or its length.
    CutInOpening,
    /// The input stops inside a call, before its parts.
    CutInHead,
    /// The input stops inside the parts of a call.
    CutInParts,
    /// The parts of a call are too long together.
    TooLong,
}

/// Every ending.
pub const ENDINGS: [Ending; 6] = [
    Ending::Over,
    Ending::Refused,
    Ending::CutInOpening,
    Ending::CutInHead,
    Ending::CutInParts,
    Ending::TooLong,
];

impl Ending {
    /// The name in a report.
    pub fn name(self) -> &'static str {
        match self {
            Self::Over => "the end of the input",
            Self::Refused => "a refused region",
            Self::CutInOpening => "cut in the opening",
            Self::CutInHead => "cut in a call's head",
            Self::CutInParts => "cut in a call's parts",
            Self::TooLong => "parts too long",
        }
    }

    /// Whether the run has a line for it.
    fn is_cut(self) -> bool {
        !matches!(self, Self::Over | Self::Refused)
    }
}

/// An input as it is read. Shown, it is what the program has to print.
#[derive(Clone, Debug, PartialEq, Eq)]
pub struct Reading {
    /// The region's number, where the opening is all there.
    pub region: Option<u32>,
    /// The numbers of the calls that are run.
    pub calls: Vec<u32>,
    /// How the run ends.
    pub ending: Ending,
}

impl Reading {
    /// Reads an input, and asks the subject for each number.
    pub fn of(subject: &mut dyn Subject, input: &[u8]) -> Self {
        let mut input = Cursor::new(input);
        let Some(mut region) = read_opening(&mut input) else {
            return Self {
                region: None,
                calls: vec![],
                ending: Ending::CutInOpening,
            };
        };
        let created = subject.create(&region);
        let mut calls = Vec::new();
        let ending = match created {
            0 => run(subject, &mut region, &mut input, &mut calls),
            _ => Ending::Refused,
        };
        Self {
            region: Some(created),
            calls,
            ending,
        }
    }
}

/// The calls of an input that are read, whatever creation says of its region.
pub fn calls(input: &[u8]) -> Vec<Call> {
    let mut input = Cursor::new(input);
    match read_opening(&mut input) {
        Some(_) => iter::from_fn(|| next(&mut input).ok()).collect(),
        None => vec![],
    }
}

/// Has each call judged in turn, until the run ends.
fn run(
    subject: &mut dyn Subject,
    region: &mut [u8],
    input: &mut Cursor,
    numbers: &mut Vec<u32>,
) -> Ending {
    while !input.is_done() {
        match next(input) {
            Ok(call) => numbers.push(subject.judge(region, &call)),
            Err(ending) => return ending,
        }
    }
    Ending::Over
}

/// The call that comes next, or how the run ends inside it.
fn next(input: &mut Cursor) -> Result<Call, Ending> {
    let head = Head::read(input).ok_or(Ending::CutInHead)?;
    if head.lengths.iter().sum::<usize>() > MAX_PARTS {
        return Err(Ending::TooLong);
    }
    head.read_parts(input).ok_or(Ending::CutInParts)
}

impl fmt::Display for Reading {
    fn fmt(&self, f: &mut fmt::Formatter) -> fmt::Result {
        if let Some(number) = self.region {
            writeln!(f, "region {number}")?;
        }
        for (number, call) in self.calls.iter().zip(1..) {
            writeln!(f, "call {call} {number}")?;
        }
        if self.ending.is_cut() {
            writeln!(f, "cut")?;
        }
        let accepted = self.calls.iter().filter(|number| **number == 0);
        writeln!(f, "end {}", accepted.count())
    }
}

#[cfg(test)]
mod tests {
    use super::*;
    use crate::{
        chance::Chance,
        runs::{self, Run},
        subjects::Archive,
    };

    /// What is printed for the first bytes of a run that creation accepts, said
    /// by where its calls end.
    fn of_first(len: usize, run: &Run, numbers: &[u32]) -> String {
        let opening = 2 + run.region.len();
        if len < opening {
            return "cut\nend 0\n".to_string();
        }
        let mut text = "region 0\n".to_string();
        let (mut end, mut accepted) = (opening, 0);
        for (at, call) in run.calls.iter().enumerate() {
            if end == len {
                break;
            }
            end += call.encode().len();
            if end > len {
                text += "cut\n";
                break;
            }
            text += &format!("call {} {}\n", at + 1, numbers[at]);
            accepted += usize::from(numbers[at] == 0);
        }
        text + &format!("end {accepted}\n")
    }

    /// Three runs, each with calls that are accepted and calls that are not.
    #[test]
    fn an_input_cut_at_every_byte() {
        let numbers = |run: &Run| Reading::of(&mut Archive, &run.encode()).calls;
        let mixed = |run: &Run| {
            let accepted = numbers(run).iter().filter(|number| **number == 0).count();
            run.encode().len() < 10_000 && accepted > 1 && accepted < run.calls.len()
        };
        let drawn = (0..).map(|case| runs::draw(&mut Chance::of_case(1, "cut", case)));
        let mut endings = Vec::new();
        for run in drawn.filter(mixed).take(3) {
            let (input, numbers) = (run.encode(), numbers(&run));
            for len in 0..=input.len() {
                let reading = Reading::of(&mut Archive, &input[..len]);
                assert_eq!(reading.to_string(), of_first(len, &run, &numbers));
                endings.push(reading.ending);
            }
        }
        for ending in [
            Ending::Over,
            Ending::CutInOpening,
            Ending::CutInHead,
            Ending::CutInParts,
        ] {
            assert!(endings.contains(&ending), "{}", ending.name());
        }
    }
}
