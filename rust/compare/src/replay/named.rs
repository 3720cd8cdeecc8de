//! Runs that are wanted by name, whatever chance draws: the document's own, and
//! inputs at every place where one may end.

use super::frame::{opening, Head, MAX_PARTS};
use crate::{
    calls::Call,
    region::{lasting, Recurring, Rule, MAX_ACTIONS},
    runs::Run,
    table::{self, Record},
};

/// A name and an input.
pub type Named = (String, Vec<u8>);

/// The runs in order.
pub fn runs() -> Vec<Named> {
    let runs = [whole(), openings(), cuts(), lengths()];
    runs.into_iter().flatten().collect()
}

/// Runs that end where a call may begin: B1 and B2 of document 01 first.
fn whole() -> Vec<Named> {
    let window = Rule::SolRecurringLimit(fresh(100, 10));
    let at_slots = [(10, 70), (10, 40), (11, 40), (20, 60), (21, 1)].map(|(slot, taken)| Call {
        slot,
        ..spending(taken)
    });
    // The most bytes that creation accepts.
    let mints = (0..MAX_ACTIONS as u8).map(|mint| [mint; 32]);
    let longest: Vec<_> = mints
        .map(|mint| Rule::TokenRecurringLimit(mint, fresh(1, 1)))
        .collect();
    let no_parts = Call {
        before: vec![],
        after: vec![],
        instructions: vec![],
        ..spending(40)
    };
    vec![
        run("sol-limit", &limit(), &[40, 61, 60].map(spending)),
        run("recurring-window", &lasting(&[window]), &at_slots),
        run("two-calls", &limit(), &two_calls()),
        run("no-calls", &limit(), &[]),
        run("empty-region", &[], &[spending(40)]),
        run("longest-region", &lasting(&longest), &[spending(40)]),
        run("empty-parts", &limit(), &[no_parts, spending(40)]),
    ]
}

/// Openings that are cut, or whose region is refused with calls behind it.
fn openings() -> Vec<Named> {
    let limit = limit();
    let lists = [
        Rule::ProgramWhitelist([1; 32]),
        Rule::ProgramBlacklist([2; 32]),
    ];
    let call = [spending(40)];
    let refused = &limit[..10];
    // Whitelists without end, as far as the length goes.
    let whitelist = lasting(&lists[..1]);
    let long: Vec<u8> = whitelist.into_iter().cycle().take(0xffff).collect();
    vec![
        named("empty-input", vec![]),
        named("one-byte", opening(&limit)[..1].to_vec()),
        named("cut-before-region", opening(&limit)[..2].to_vec()),
        cut("cut-in-region", opening(&limit), 1),
        run("refused-region", refused, &call),
        cut("refused-region-and-cut", encoded(refused, &call), 1),
        run("conflicting-lists", &lasting(&lists), &call),
        run("region-of-65535-bytes", &long, &call),
        cut("cut-in-region-of-65535-bytes", opening(&long), 1),
    ]
}

/// An accepted call, and a sound one that is cut in the middle of each field.
fn cuts() -> Vec<Named> {
    let [first, second] = two_calls();
    let mut place = encoded(&limit(), &[first]).len();
    let input = encoded(&limit(), &two_calls());
    let mut runs = Vec::new();
    for (field, len) in second.layout() {
        let part = input[..place + len / 2].to_vec();
        runs.push((format!("cut-in-{field}"), part));
        place += len;
    }
    let parts = second.parts_len();
    runs.push(cut("cut-before-parts", input, parts));
    let stray = [encoded(&limit(), &[40, 61, 60].map(spending)), vec![0]];
    runs.push(named("cut-after-three-calls", stray.concat()));
    runs
}

/// Parts at the most that they may be and above, all there or not, with a sound
/// call behind them.
fn lengths() -> Vec<Named> {
    let [first, last] = [40, 30].map(spending);
    let third = MAX_PARTS / 3;
    let table = table_of(third - 70);
    let of_len = |len| Call {
        before: table.clone(),
        after: table.clone(),
        instructions: vec![0; len],
        ..spending(30)
    };
    let of_parts = |name, len| {
        let calls = [first.clone(), of_len(len), last.clone()];
        run(name, &limit(), &calls)
    };
    let saying = |name, lengths| {
        let head = Head {
            lengths,
            ..Head::of(&first)
        };
        let parts = [
            opening(&limit()),
            first.encode(),
            head.encode(),
            last.encode(),
        ];
        named(name, parts.concat())
    };
    vec![
        of_parts("parts-of-60000-bytes", third),
        of_parts("parts-of-60001-bytes", third + 1),
        saying("parts-too-long", [0, 0, MAX_PARTS + 1]),
        // In 32 bits they would be nothing together.
        saying("parts-past-32-bits", [u32::MAX as usize, 1, 0]),
    ]
}

fn named(name: &str, input: Vec<u8>) -> Named {
    (name.to_string(), input)
}

fn run(name: &str, region: &[u8], calls: &[Call]) -> Named {
    named(name, encoded(region, calls))
}

/// An input without its last bytes.
fn cut(name: &str, mut input: Vec<u8>, less: usize) -> Named {
    input.truncate(input.len() - less);
    named(name, input)
}

fn encoded(region: &[u8], calls: &[Call]) -> Vec<u8> {
    let run = Run {
        region: region.to_vec(),
        calls: calls.to_vec(),
    };
    run.encode()
}

/// A SolLimit of 100.
fn limit() -> Vec<u8> {
    lasting(&[Rule::SolLimit(100)])
}

fn fresh(limit: u64, window: u64) -> Recurring {
    Recurring {
        limit,
        spent: 0,
        window,
        last_reset: 0,
    }
}

/// A call of no instructions and no accounts that takes lamports.
fn spending(taken: u64) -> Call {
    Call {
        before: vec![0, 0],
        after: vec![0, 0],
        instructions: vec![0],
        vault: [0; 32],
        slot: 0,
        lamports_before: taken,
        lamports_after: 0,
        gross: taken,
    }
}

/// Two calls that a SolLimit of 100 accepts. Each field of the second has bytes
/// enough to be cut.
fn two_calls() -> [Call; 2] {
    let second = Call {
        before: table_of(3),
        after: table_of(3),
        instructions: vec![1, 0, 0, 2, 0, 5, 5],
        ..spending(60)
    };
    [spending(40), second]
}

/// A table of one record that has so many bytes of data.
fn table_of(len: usize) -> Vec<u8> {
    table::encode(&[Record {
        key: [3; 32],
        owner: [4; 32],
        data: vec![0; len],
    }])
}

#[cfg(test)]
mod tests {
    use super::*;
    use crate::{
        replay::Reading,
        subjects::{Archive, Published, Subject},
    };
    use oracle::Oracle;

    /// What the program has to print.
    const TEXTS: [(&str, &str); 33] = [
        (
            "sol-limit",
            "region 0\ncall 1 0\ncall 2 7\ncall 3 0\nend 2\n",
        ),
        (
            "recurring-window",
            "region 0\ncall 1 0\ncall 2 8\ncall 3 0\ncall 4 0\ncall 5 0\nend 4\n",
        ),
        ("two-calls", "region 0\ncall 1 0\ncall 2 0\nend 2\n"),
        ("no-calls", "region 0\nend 0\n"),
        ("empty-region", "region 0\ncall 1 0\nend 1\n"),
        ("longest-region", "region 0\ncall 1 0\nend 1\n"),
        ("empty-parts", "region 0\ncall 1 13\ncall 2 0\nend 1\n"),
        ("empty-input", "cut\nend 0\n"),
        ("one-byte", "cut\nend 0\n"),
        ("cut-before-region", "cut\nend 0\n"),
        ("cut-in-region", "cut\nend 0\n"),
        ("refused-region", "region 1\nend 0\n"),
        ("refused-region-and-cut", "region 1\nend 0\n"),
        ("conflicting-lists", "region 2\nend 0\n"),
        ("region-of-65535-bytes", "region 1\nend 0\n"),
        ("cut-in-region-of-65535-bytes", "cut\nend 0\n"),
        ("cut-in-slot", CUT),
        ("cut-in-before", CUT),
        ("cut-in-after", CUT),
        ("cut-in-gross", CUT),
        ("cut-in-table-before-length", CUT),
        ("cut-in-table-after-length", CUT),
        ("cut-in-instructions-length", CUT),
        ("cut-in-vault-key", CUT),
        ("cut-in-table-before", CUT),
        ("cut-in-table-after", CUT),
        ("cut-in-instructions", CUT),
        ("cut-before-parts", CUT),
        (
            "cut-after-three-calls",
            "region 0\ncall 1 0\ncall 2 7\ncall 3 0\ncut\nend 2\n",
        ),
        (
            "parts-of-60000-bytes",
            "region 0\ncall 1 0\ncall 2 0\ncall 3 0\nend 3\n",
        ),
        ("parts-of-60001-bytes", CUT),
        ("parts-too-long", CUT),
        ("parts-past-32-bits", CUT),
    ];

    /// One accepted call, and nothing of what comes after it.
    const CUT: &str = "region 0\ncall 1 0\ncut\nend 1\n";

    fn print_as_written(subject: &mut dyn Subject) {
        let texts: Vec<_> = runs()
            .into_iter()
            .map(|(name, input)| (name, Reading::of(subject, &input).to_string()))
            .collect();
        assert_eq!(
            texts,
            TEXTS.map(|(name, text)| (name.to_string(), text.to_string()))
        );
    }

    #[test]
    fn runs_print_as_written() {
        print_as_written(&mut Archive);
    }

    #[test]
    #[cfg_attr(not(oracle_sources), ignore)]
    fn runs_of_the_published_code_print_as_written() {
        let oracle = Oracle::find().expect("ignored where the sources were not found");
        print_as_written(&mut Published(oracle));
    }

    #[test]
    fn parts_are_as_long_as_they_are_named() {
        let length = |wanted: &str| {
            let run = runs().into_iter().find(|(name, _)| name == wanted);
            run.expect("it is there").1.len()
        };
        let calls = 2 + 19 + 2 * (76 + 5) + 76;
        assert_eq!(length("parts-of-60000-bytes"), calls + 60_000);
        assert_eq!(length("parts-of-60001-bytes"), calls + 60_001);
        assert_eq!(length("region-of-65535-bytes"), 2 + 65_535 + 76 + 5);
        assert_eq!(length("longest-region"), 2 + 1_200 + 76 + 5);
    }
}
