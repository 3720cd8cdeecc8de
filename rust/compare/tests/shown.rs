//! A difference is shown as what differs. Here the archive stands on both sides,
//! and on one of them something is planted.

use compare::{
    calls::Call,
    region::{lasting, Recurring, Rule},
    runner::{self, Parting},
    runs::Run,
    subjects::{Archive, Subject},
    table::{Layout, SPL_TOKEN},
};

/// What is planted: another number, and other bytes in the region afterwards.
#[derive(Clone, Default)]
struct Planted {
    number: Option<u32>,
    bytes: Vec<(usize, u8)>,
}

impl Subject for Planted {
    fn create(&mut self, region: &[u8]) -> u32 {
        self.number.unwrap_or_else(|| Archive.create(region))
    }

    fn judge(&mut self, region: &mut [u8], call: &Call) -> u32 {
        let answer = Archive.judge(region, call);
        for (at, byte) in &self.bytes {
            region[*at] = *byte;
        }
        self.number.unwrap_or(answer)
    }
}

/// Three actions, and a call that takes 40 of the first one's 100.
fn run() -> Run {
    let fields = Recurring {
        limit: 50,
        spent: 0,
        window: 10,
        last_reset: 0,
    };
    let rules = [
        Rule::SolLimit(100),
        Rule::TokenRecurringLimit([8; 32], fields),
        Rule::TokenLimit([9; 32], 70),
    ];
    let records = [Layout::plain(SPL_TOKEN).record([1; 32], &[9; 32], &[7; 32], 5)];
    let call = Call {
        lamports_before: 500,
        lamports_after: 460,
        gross: 40,
        ..Call::quiet([7; 32], &records, &records)
    };
    Run {
        region: lasting(&rules),
        calls: vec![call],
    }
}

/// How the planted difference is shown, line by line.
fn shown(run: &Run, mut planted: Planted) -> Vec<String> {
    let parting = runner::parting(&mut Archive, &mut planted, run, &mut |_| {});
    let text = parting.as_ref().map(Parting::to_string);
    let text = text.expect("what is planted differs");
    text.lines().map(str::to_string).collect()
}

/// The lines about a region afterwards, in which bytes are planted.
fn fields(run: &Run, bytes: &[(usize, u8)]) -> Vec<String> {
    let planted = Planted {
        bytes: bytes.to_vec(),
        ..Planted::default()
    };
    let lines = shown(run, planted);
    assert!(
        lines[3].starts_with("  region afterwards       "),
        "{lines:?}"
    );
    lines[3..]
        .iter()
        .map(|line| line[26..].to_string())
        .collect()
}

#[test]
fn a_wrong_number() {
    let number = |number| Planted {
        number: Some(number),
        ..Planted::default()
    };
    let asked = "  asked                   3 actions (145 bytes); before 1 record (235 bytes), \
                 after 1 record (235 bytes); 0 instructions (1 byte); slot 1, \
                 lamports 500 before, 460 after, gross 40";
    let expected = "  expected                0 accepted";
    let got = "  got                     7 ActionSolLimitExceeded";
    assert_eq!(shown(&run(), number(7)), [asked, expected, got]);
    let got = "  got                     99, a number without a name";
    assert_eq!(shown(&run(), number(99)), [asked, expected, got]);
    let creation = Run {
        calls: vec![],
        ..run()
    };
    let asked = "  asked                   3 actions (145 bytes)";
    let got = "  got                     2 ActionWhitelistBlacklistConflict";
    assert_eq!(shown(&creation, number(2)), [asked, expected, got]);
}

#[test]
fn a_wrong_byte_in_a_field() {
    for (at, byte, line) in [
        (
            11,
            61,
            "byte 11 (action 0, SolLimit, remaining): 60 expected, 61 got",
        ),
        (
            12,
            1,
            "byte 12 (action 0, SolLimit, remaining): 60 expected, 316 got",
        ),
        (
            71,
            1,
            "byte 71 (action 1, TokenRecurringLimit, spent): 0 expected, 256 got",
        ),
        (
            86,
            5,
            "byte 86 (action 1, TokenRecurringLimit, last_reset): 0 expected, 5 got",
        ),
        (
            107,
            3,
            "byte 107 (action 2, TokenLimit, mint): 9 expected, 3 got",
        ),
        (
            94,
            6,
            "byte 94 (action 2, TokenLimit, type): 4 expected, 6 got",
        ),
        (
            96,
            1,
            "byte 96 (action 2, TokenLimit, data length): 40 expected, 296 got",
        ),
        (
            104,
            1,
            "byte 104 (action 2, TokenLimit, expires_at): 0 expected, 72057594037927936 got",
        ),
    ] {
        assert_eq!(fields(&run(), &[(at, byte)]), [line]);
    }
}

#[test]
fn many_wrong_bytes() {
    let whole_mint: Vec<_> = (105..137).map(|at| (at, 0)).collect();
    let line = "byte 105 (action 2, TokenLimit, mint): 9 expected, 0 got, and 31 more bytes of it";
    assert_eq!(fields(&run(), &whole_mint), [line]);
    // The first bytes of eleven fields.
    let firsts = [0, 1, 3, 11, 19, 20, 22, 30, 62, 70, 78].map(|at| (at, 99));
    let lines = fields(&run(), &firsts);
    assert_eq!(lines.len(), 6);
    assert_eq!(lines[5], "and 6 more");
}

/// The archive refuses such a region and leaves it as it was.
#[test]
fn wrong_bytes_in_no_action() {
    let uncut = Run {
        region: vec![1, 2, 3],
        ..run()
    };
    assert_eq!(
        fields(&uncut, &[(0, 7), (2, 0)]),
        ["byte 0: 1 expected, 7 got", "byte 2: 3 expected, 0 got"]
    );
    let damaged = Call {
        before: vec![0],
        instructions: vec![1],
        ..run().calls.remove(0)
    };
    let partly = Run {
        region: [&run().region[..19], &[1, 2, 3]].concat(),
        calls: vec![damaged],
    };
    let planted = Planted {
        bytes: vec![(11, 101), (20, 7)],
        ..Planted::default()
    };
    let lines = shown(&partly, planted);
    let asked = "an uncut region (22 bytes); before a malformed table (1 byte), \
                 after 1 record (235 bytes); malformed instructions (1 byte); slot 1";
    assert!(lines[0].contains(asked), "{lines:?}");
    assert!(lines[3].ends_with("byte 11 (action 0, SolLimit, remaining): 100 expected, 101 got"));
    assert!(
        lines[4].ends_with("  byte 20: 2 expected, 7 got"),
        "{lines:?}"
    );
}

/// No row of bytes is printed, however long the region and the tables are.
#[test]
fn no_line_is_long() {
    /// Answers another number to each call, and fills the region.
    struct Fills;
    impl Subject for Fills {
        fn create(&mut self, region: &[u8]) -> u32 {
            Archive.create(region)
        }
        fn judge(&mut self, region: &mut [u8], _: &Call) -> u32 {
            region.fill(0xEE);
            99
        }
    }
    let report = runner::compare(&mut Archive, &mut Fills, 1, 300);
    let text = report.to_string();
    assert!(report.differences() > 300);
    assert!(text.lines().all(|line| line.len() < 250), "{text}");
    let last = "differences, 5 shown; a case is drawn again from its seed and number\n";
    assert!(text.ends_with(last), "{text}");
}
