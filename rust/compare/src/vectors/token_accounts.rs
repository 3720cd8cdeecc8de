//! Document 02's W-204 by name: records on either side of what is a token
//! account, each in a sum and on both sides of the freeze.

use super::named::{held, quiet, MINT};
use crate::{
    calls::Call,
    region::{lasting, Rule},
    table::{Layout, Record, SPL_TOKEN, TOKEN_2022, TOKEN_ACCOUNT},
};

const LAYOUTS: [Layout; 13] = [
    Layout::new(SPL_TOKEN, 164, 2),
    Layout::new(SPL_TOKEN, 165, 2),
    Layout::new(SPL_TOKEN, 166, 2),
    Layout::new(SPL_TOKEN, 355, 2),
    Layout::new(TOKEN_2022, 164, 2),
    Layout::new(TOKEN_2022, 165, 2),
    Layout::new(TOKEN_2022, 166, 0),
    Layout::new(TOKEN_2022, 166, 1),
    Layout::new(TOKEN_2022, 166, 2),
    Layout::new(TOKEN_2022, 166, 3),
    Layout::new(TOKEN_2022, 354, 2),
    Layout::new(TOKEN_2022, 355, 2),
    Layout::new(TOKEN_2022, 356, 2),
];

/// A layout's name.
fn name(layout: &Layout) -> String {
    let program = match layout.owner {
        SPL_TOKEN => "SPL Token",
        _ => "Token-2022",
    };
    match layout.len > TOKEN_ACCOUNT {
        true => format!("{program}, {} bytes with {}", layout.len, layout.mark),
        false => format!("{program}, {} bytes", layout.len),
    }
}

/// A region with a limit of the mint, and a judged call on it: of each layout 1
/// of its tokens is taken, it is gone afterwards, and a plain account became it;
/// then all tokens of one of each are taken.
pub fn calls() -> Vec<(String, Vec<u8>, Call)> {
    let limit = |remaining| lasting(&[Rule::TokenLimit(MINT, remaining)]);
    let mut calls = Vec::new();
    for layout in &LAYOUTS {
        let [one, none] = [1, 0].map(|amount| [held(layout, 0, amount)]);
        let plain = [held(&Layout::plain(SPL_TOKEN), 0, 1)];
        for (what, call) in [
            ("1 taken", quiet(&one, &none)),
            ("gone", quiet(&one, &[])),
            ("became it", quiet(&plain, &one)),
        ] {
            calls.push((format!("{}: {what}", name(layout)), limit(5), call));
        }
    }
    // Each has twice what the one before it has: the sum says which are counted.
    let each = |amount: fn(u8) -> u64| -> Vec<Record> {
        let keyed = (0..).zip(&LAYOUTS);
        keyed
            .map(|(key, layout)| held(layout, key, amount(key)))
            .collect()
    };
    let one_of_each = quiet(&each(|key| 1 << key), &each(|_| 0));
    calls.push(("one of each".to_string(), limit(6000), one_of_each));
    calls
}

#[cfg(test)]
mod tests {
    use oracle::Oracle;

    use super::*;
    use crate::subjects::{Amended, Archive, Published, Subject};

    const EXPECTED: [(&str, bool); 13] = [
        ("SPL Token, 164 bytes", false),
        ("SPL Token, 165 bytes", true),
        ("SPL Token, 166 bytes with 2", false),
        ("SPL Token, 355 bytes with 2", false),
        ("Token-2022, 164 bytes", false),
        ("Token-2022, 165 bytes", true),
        ("Token-2022, 166 bytes with 0", false),
        ("Token-2022, 166 bytes with 1", false),
        ("Token-2022, 166 bytes with 2", true),
        ("Token-2022, 166 bytes with 3", false),
        ("Token-2022, 354 bytes with 2", true),
        ("Token-2022, 355 bytes with 2", false),
        ("Token-2022, 356 bytes with 2", true),
    ];

    /// The calls' names, numbers and what is left of the limit.
    fn expected() -> Vec<(String, u32, u64)> {
        let of = |(name, counts): (&str, bool)| {
            let end = |what, counted, other| {
                let (number, left) = if counts { counted } else { other };
                (format!("{name}: {what}"), number, left)
            };
            [
                end("1 taken", (0, 4), (0, 5)),
                end("gone", (12, 5), (0, 5)),
                end("became it", (0, 5), (12, 5)),
            ]
        };
        let sum = 2 + 32 + 256 + 1024 + 4096;
        let one_of_each = ("one of each".to_string(), 0, 6000 - sum);
        EXPECTED
            .into_iter()
            .flat_map(of)
            .chain([one_of_each])
            .collect()
    }

    fn ends(subject: &mut dyn Subject) -> Vec<(String, u32, u64)> {
        let end = |(name, mut region, call): (String, Vec<u8>, Call)| {
            let number = subject.judge(&mut region, &call);
            let left = region[43..51].try_into().expect("eight bytes");
            (name, number, u64::from_le_bytes(left))
        };
        calls().into_iter().map(end).collect()
    }

    #[test]
    fn calls_end_as_they_are_named() {
        assert_eq!(ends(&mut Archive), expected());
    }

    #[test]
    #[cfg_attr(not(oracle_sources), ignore)]
    fn the_amended_code_ends_as_they_are_named() {
        let oracle = Oracle::find().expect("ignored where the sources were not found");
        assert_eq!(ends(&mut Amended(Published(oracle))), expected());
    }

    /// Where the published code ends otherwise, a record is one that it alone
    /// takes for a token account, and the other way round.
    #[test]
    #[cfg_attr(not(oracle_sources), ignore)]
    fn the_published_code_parts_where_it_is_said_to() {
        let oracle = Oracle::find().expect("ignored where the sources were not found");
        let published = ends(&mut Published(oracle));
        for ((end, published), (_, _, call)) in expected().iter().zip(&published).zip(calls()) {
            assert_eq!(end != published, call.only_published() > 0, "{}", end.0);
        }
    }
}
