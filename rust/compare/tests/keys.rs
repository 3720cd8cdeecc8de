//! Near misses: for every place of a key there are drawn calls that end
//! otherwise where that byte is not compared.

use std::collections::BTreeSet;

use compare::{
    calls::{self, Call},
    chance::Chance,
    region::{self, Rule},
    runner::JUDGE,
    subjects::{Published, Subject},
    table::{self, SPL_TOKEN, TOKEN_2022},
    Key,
};
use oracle::Oracle;

#[test]
#[cfg_attr(not(oracle_sources), ignore)]
fn every_byte_of_a_key_decides_somewhere() {
    let mut right = Published(Oracle::find().expect("ignored where the sources were not found"));
    let mut judge = |(mut region, call): (Vec<u8>, Call)| (right.judge(&mut region, &call), region);
    let mut decides = BTreeSet::new();
    for case in 0..20_000 {
        let (region, call) = calls::draw(&mut Chance::of_case(1, JUDGE, case));
        let mut keys = vec![SPL_TOKEN, TOKEN_2022];
        if with_keys(&region, &call, &mut |key| keys.push(*key)).is_none() {
            continue;
        }
        for place in near_places(&keys).difference(&decides.clone()) {
            let blind = with_keys(&region, &call, &mut |key| blinded(key, *place)).unwrap();
            if judge(blind).0 != judge((region.clone(), call.clone())).0 {
                decides.insert(*place);
            }
        }
        if decides.len() == 32 {
            return;
        }
    }
    panic!("only these places decide: {decides:?}");
}

/// The region and the call with every key of them changed, if they can be
/// taken apart.
fn with_keys(
    region: &[u8],
    call: &Call,
    change: &mut impl FnMut(&mut Key),
) -> Option<(Vec<u8>, Call)> {
    let mut actions = region::cut(region)?;
    for action in &mut actions {
        match &mut action.rule {
            Rule::TokenLimit(key, _)
            | Rule::TokenRecurringLimit(key, _)
            | Rule::TokenMaxPerTx(key, _)
            | Rule::ProgramWhitelist(key)
            | Rule::ProgramBlacklist(key) => change(key),
            Rule::SolLimit(_) | Rule::SolRecurringLimit(_) | Rule::SolMaxPerTx(_) => {}
        }
    }
    let mut call = call.clone();
    change(&mut call.vault);
    for bytes in [&mut call.before, &mut call.after] {
        let mut records = table::decode(bytes)?;
        for record in &mut records {
            change(&mut record.key);
            change(&mut record.owner);
            // A token account begins with its mint and the key of its holder.
            let (keys, _) = record.data.as_chunks_mut();
            keys.iter_mut().take(2).for_each(&mut *change);
        }
        *bytes = table::encode(&records);
    }
    Some((region::encode(&actions), call))
}

/// The places at which two of the keys differ, and nowhere else.
fn near_places(keys: &[Key]) -> BTreeSet<usize> {
    let mut places = BTreeSet::new();
    for (at, key) in keys.iter().enumerate() {
        for other in &keys[..at] {
            let mut differing = (0..32).filter(|&place| key[place] != other[place]);
            if let (Some(place), None) = (differing.next(), differing.next()) {
                places.insert(place);
            }
        }
    }
    places
}

/// Makes keys equal that differ at the place alone. The token programs keep
/// theirs, which the published code compares with constants.
fn blinded(key: &mut Key, place: usize) {
    let mut blind = *key;
    blind[place] = 0;
    for program in [SPL_TOKEN, TOKEN_2022] {
        if (0..32).all(|at| at == place || key[at] == program[at]) {
            blind = program;
        }
    }
    *key = blind;
}
