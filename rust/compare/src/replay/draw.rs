//! Inputs by chance: runs as they are, and runs that end early.

use super::frame::{opening, Head, MAX_PARTS};
use crate::{
    calls::Call,
    chance::Chance,
    creation,
    damage::damage,
    runs::{self, Run},
};

/// An input. Half of them end with their last call.
pub fn draw(chance: &mut Chance) -> Vec<u8> {
    let mut run = runs::draw(chance);
    match chance.below(16) {
        0 | 1 => run.region = creation::draw(chance),
        2 => {
            let call = chance.one_of(&mut run.calls);
            let tables = [&mut call.before, &mut call.after];
            let table = chance.below(tables.len());
            damage(chance, tables[table]);
        }
        3 => fill(chance, &mut run),
        _ => {}
    }
    let mut input = run.encode();
    match chance.below(12) {
        0..=3 => input.truncate(place(chance, &run)),
        4 => {
            let stray = 1 + chance.below(100);
            input.extend(chance.bytes(stray));
        }
        5 => {
            let at = chance.below(run.calls.len());
            let start = start(&run, at);
            let head = too_long(chance, &run.calls[at]);
            // What follows would be calls.
            input.splice(start..start, head.encode());
        }
        _ => {}
    }
    input
}

/// Fills up the parts of a call to the most that they may be, or one byte less
/// or more. Bytes after the last instruction are not looked at.
fn fill(chance: &mut Chance, run: &mut Run) {
    let call = chance.one_of(&mut run.calls);
    let len = chance.around(MAX_PARTS as u64) as usize;
    let more = len.saturating_sub(call.parts_len());
    call.instructions.extend(chance.bytes(more));
}

/// A call's head that says of its parts that they are too long.
fn too_long(chance: &mut Chance, call: &Call) -> Head {
    let top = u32::MAX as usize;
    let over = MAX_PARTS + 1;
    let part = chance.below(over);
    let mut lengths = chance.pick(&[
        [over, 0, 0],
        [part, over - part, 0],
        [MAX_PARTS, MAX_PARTS, MAX_PARTS],
        // In 32 bits these are nothing or little together.
        [top, 1, 0],
        [top / 2 + 1, top / 2 + 1, part],
        [top, top, top],
    ]);
    chance.shuffle(&mut lengths);
    Head {
        lengths,
        ..Head::of(call)
    }
}

/// A place in a run's bytes: any, or at or beside the border of a field.
fn place(chance: &mut Chance, run: &Run) -> usize {
    let border = match chance.below(8) {
        0 | 1 => return chance.below(start(run, run.calls.len())),
        2 => chance.pick(&[0, 2, start(run, 0)]),
        _ => {
            let at = chance.below(run.calls.len());
            let fields = run.calls[at].layout();
            let whole = &fields[..chance.below(fields.len())];
            start(run, at) + whole.iter().map(|(_, len)| len).sum::<usize>()
        }
    };
    chance.around(border as u64) as usize
}

/// Where a call starts in a run's bytes, or would after the last one.
fn start(run: &Run, call: usize) -> usize {
    let before = run.calls[..call].iter().map(|call| call.encode().len());
    opening(&run.region).len() + before.sum::<usize>()
}

#[cfg(test)]
mod tests {
    use super::*;
    use crate::{
        numbers::CREATION,
        replay::{Ending, Reading, ENDINGS},
        subjects::Archive,
    };

    #[test]
    fn every_ending_is_drawn() {
        let readings: Vec<_> = (0..150)
            .map(|case| draw(&mut Chance::of_case(2, "ending", case)))
            .map(|input| Reading::of(&mut Archive, &input))
            .collect();
        for ending in ENDINGS {
            let times = readings.iter().filter(|r| r.ending == ending).count();
            assert!(times >= 3, "{}: {times} times", ending.name());
        }
        for number in CREATION {
            assert!(readings.iter().any(|r| r.region == Some(number)));
        }
        // Calls were accepted before an input was cut.
        let late = |r: &&Reading| r.ending == Ending::CutInHead && r.calls.contains(&0);
        assert!(readings.iter().filter(late).count() >= 3);
    }
}
