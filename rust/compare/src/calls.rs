//! Judged calls: most of them come past the earlier steps and end near an edge
//! of a later one.

use crate::{
    aim::Aim,
    chance::Chance,
    damage::damage,
    long_records::LONG,
    region::{self, Action, Rule, MAX_ACTIONS},
    stream::{self, Entry, MAX_INSTRUCTIONS},
    table::{self, Record, MAX_RECORDS},
    world::World,
    Key,
};

/// What a judged call is given besides the region, tables as their bytes.
#[derive(Clone, Debug, PartialEq, Eq)]
pub struct Call {
    /// The account table before the instructions ran.
    pub before: Vec<u8>,
    /// The account table after.
    pub after: Vec<u8>,
    /// The compact instructions.
    pub instructions: Vec<u8>,
    /// The vault's key.
    pub vault: Key,
    /// The slot.
    pub slot: u64,
    /// The vault's lamports before.
    pub lamports_before: u64,
    /// The vault's lamports after.
    pub lamports_after: u64,
    /// The gross outflow.
    pub gross: u64,
}

impl Call {
    /// A call at slot 1 without instructions and lamports.
    pub fn quiet(vault: Key, before: &[Record], after: &[Record]) -> Self {
        Self {
            before: table::encode(before),
            after: table::encode(after),
            instructions: vec![0],
            vault,
            slot: 1,
            lamports_before: 0,
            lamports_after: 0,
            gross: 0,
        }
    }

    /// How many records of its tables only the published code takes for token
    /// accounts. Where a table is malformed no record is looked at.
    pub fn only_published(&self) -> usize {
        let tables = [&self.before, &self.after].map(|bytes| table::cut(bytes));
        let [Some(before), Some(after)] = tables else {
            return 0;
        };
        let records = before.iter().chain(&after);
        records
            .filter(|record| table::is_only_published(&record.owner, record.data))
            .count()
    }

    /// The length of its longest record, where there is a [long](LONG) one in a
    /// well-formed table.
    pub fn long_record(&self) -> Option<usize> {
        let tables = [&self.before, &self.after];
        let longer = tables.into_iter().filter(|bytes| bytes.len() > LONG);
        let records = longer.filter_map(|bytes| table::cut(bytes)).flatten();
        let lengths = records.map(|record| record.data.len());
        lengths.filter(|len| *len >= LONG).max()
    }

    /// The call as the C boundary takes it.
    pub fn lent(&self) -> thimbleford::Call<'_> {
        thimbleford::Call {
            before: &self.before,
            after: &self.after,
            instructions: &self.instructions,
            vault: &self.vault,
            slot: self.slot,
            lamports_before: self.lamports_before,
            lamports_after: self.lamports_after,
            gross: self.gross,
        }
    }
}

/// A region and a call on it. One in ten is spoilt, and may then lie
/// outside the domain of the published code.
pub fn draw(chance: &mut Chance) -> (Vec<u8>, Call) {
    let (actions, mut call) = sound(chance);
    let mut region = region::encode(&actions);
    if chance.one_in(10) {
        // Two of them together show which one decides.
        for _ in 0..1 + chance.below(2) {
            spoil(chance, &actions, &mut region, &mut call);
        }
    }
    (region, call)
}

/// The actions of a region in stored form, and a call with well-formed tables
/// and instructions.
pub fn sound(chance: &mut Chance) -> (Vec<Action>, Call) {
    let world = World::draw(chance);
    let before = world.before(chance);
    let after = world.after(chance, &before);
    let slot = match chance.below(8) {
        0 => chance.edge(),
        1 => chance.draw(),
        _ => 2 + chance.below(200) as u64,
    };
    let [lamports_before, lamports_after, gross] = lamports(chance);
    let aim = Aim {
        slot,
        decrease: lamports_before.saturating_sub(lamports_after),
        gross,
    };

    let entries = instructions(chance, before.len());
    let mut actions = aim.limits(chance, &world, &before, &after);
    actions.extend(aim.lists(chance, &before, &entries));
    chance.shuffle(&mut actions);
    actions.truncate(MAX_ACTIONS);
    if chance.one_in(25) {
        actions.clear();
    }

    let mut call = Call {
        before: table::encode(&before),
        after: table::encode(&after),
        instructions: stream::encode(&entries),
        vault: world.vault,
        slot,
        lamports_before,
        lamports_after,
        gross,
    };
    if chance.one_in(10) {
        let more = 1 + chance.below(8);
        call.instructions.extend(chance.bytes(more));
    }
    (actions, call)
}

/// Spoils the instructions, which the published code refuses, or a table or the
/// region, which it does not look at so closely.
fn spoil(chance: &mut Chance, actions: &[Action], region: &mut Vec<u8>, call: &mut Call) {
    match chance.below(10) {
        0 | 1 => damage(chance, &mut call.instructions),
        2 => {
            if let Some(count) = call.instructions.first_mut() {
                *count = MAX_INSTRUCTIONS as u8 + 1;
            }
        }
        3 => damage(chance, &mut call.before),
        4 => damage(chance, &mut call.after),
        5 => {
            let empty = Record {
                key: call.vault,
                owner: call.vault,
                data: vec![],
            };
            call.after = table::encode(&vec![empty; MAX_RECORDS + 1]);
        }
        6 | 7 => damage(chance, region),
        8 => {
            let mut actions = actions.to_vec();
            for fields in actions.iter_mut().filter_map(|a| a.rule.recurring_mut()) {
                fields.window = 0;
            }
            *region = region::encode(&actions);
        }
        _ => {
            let lists = [Rule::ProgramWhitelist, Rule::ProgramBlacklist];
            *region = match chance.one_in(2) {
                true => region::encode(&[actions, actions].concat()),
                false => region::lasting(&lists.map(|list| list(call.vault))),
            };
        }
    }
}

/// Lamports before and after, and the gross outflow.
fn lamports(chance: &mut Chance) -> [u64; 3] {
    let decrease = match chance.below(8) {
        0 | 1 => 0,
        2 => chance.edge(),
        _ => 1 + chance.below(1000) as u64,
    };
    let gross = match chance.below(8) {
        0 | 1 => 0,
        2 => chance.edge(),
        3 => chance.around(decrease),
        _ => decrease.saturating_add(chance.below(100) as u64),
    };
    let rest = (chance.below(1 << 40) as u64).min(u64::MAX - decrease);
    match chance.below(6) {
        0 => [0, decrease, gross],
        1 => [decrease, 0, gross],
        _ => [decrease + rest, rest, gross],
    }
}

/// Instructions on a table of `count` records. The accounts' indexes may be
/// anything, since a judged call does not look at them.
fn instructions(chance: &mut Chance, count: usize) -> Vec<Entry> {
    let entries = match chance.below(24) {
        0 => MAX_INSTRUCTIONS,
        few => few % 4,
    };
    let stray = chance.one_in(20);
    (0..entries)
        .map(|_| {
            let program = match count {
                0 => chance.below(2),
                _ if stray && chance.one_in(3) => chance.pick(&[count, 255]),
                _ => chance.below(count),
            };
            Entry::draw(chance, program as u8)
        })
        .collect()
}
