//! How long a judged call and a creation take through the C boundary, beside
//! the published Rust on the same cases and in the same process.
//!
//! Reading instructions is not behind the boundary by itself: it is timed as
//! what it adds to a call that does nothing else. Writing them adds nothing to
//! a call, so it is not timed.

mod clock;
pub mod mixes;
mod processor;

use std::{
    cell::RefCell,
    hint::black_box,
    io::{self, Write},
};

use oracle::Oracle;

use crate::{
    chance::Chance,
    creation,
    runner::CREATE,
    subjects::{Archive, Subject},
    table::{self, Record},
};
use clock::{time, Spread};
use mixes::{Mix, Timed};

/// So many regions are created.
const REGIONS: u64 = 128;

const HEAD: &str = "\
Cost: the boundary's time for a case, in that of a call on 1 record with 1 limit,
which is timed in the same turns.
Rust: its time on the same cases in the boundary's, on records that were cut
before, and with cutting the same bytes. Floor: the boundary's time in that of
one pass over the bytes of both tables. Medians, and the quartiles.

| mix | cost | Rust, cut | Rust, from bytes | floor |
|---|---|---|---|---|
";

/// What was timed of a mix.
struct Figures {
    name: String,
    /// The boundary's time for a case in the unit's.
    cost: Spread,
    /// The unit's nanoseconds, pass by pass.
    unit: Vec<f64>,
    cut: Spread,
    /// What only a judged call has.
    tables: Option<[Spread; 2]>,
}

/// Times every mix, and creation, and writes a row of a table for each.
pub fn run(oracle: &Oracle, seed: u64, out: &mut dyn Write) -> io::Result<()> {
    write!(out, "processor: {}\n\n{HEAD}", processor::name())?;
    let growth = mixes::growth(seed);
    let bench = Bench {
        oracle,
        unit: &growth[0].calls,
        region: RefCell::default(),
    };
    let mixes = mixes::mixes(oracle, seed);
    let judged = mixes.iter().chain(&growth).map(|mix| bench.judged(mix));
    let mut unit = Vec::new();
    for figures in judged.chain([bench.created(seed), bench.read(seed)]) {
        let cost = figures.cost.median();
        write!(out, "| {} | {cost:.2} | {} |", figures.name, figures.cut)?;
        match figures.tables {
            Some([bytes, floor]) => writeln!(out, " {bytes} | {floor} |")?,
            None => writeln!(out, " | |")?,
        }
        unit.extend(figures.unit);
    }
    let unit = Spread::of(unit).median();
    writeln!(out, "\nA cost of 1 was {unit:.0} nanoseconds.")
}

/// Who is timed.
struct Bench<'a> {
    oracle: &'a Oracle,
    /// The calls of cost 1. They take their turn beside everything that is timed:
    /// a processor that is slower for a while is slower for both.
    unit: &'a [Timed],
    /// The region that is judged, kept so that no pass has to allocate it.
    region: RefCell<Vec<u8>>,
}

impl Bench<'_> {
    fn judged(&self, mix: &Mix) -> Figures {
        let all = |judge: &dyn Fn(&mut [u8], &Timed) -> u32| self.pass(&mix.calls, judge);
        let bytes = |region: &mut [u8], timed: &Timed| {
            let records = |bytes| table::decode(bytes).unwrap_or_default();
            let (before, after) = (records(&timed.call.before), records(&timed.call.after));
            self.published(region, timed, &before, &after)
        };
        let floor = |_: &mut [u8], timed: &Timed| {
            let pass = |bytes: &[u8]| bytes.iter().fold(0, |all, byte| all ^ byte);
            u32::from(pass(&timed.call.before) ^ pass(&timed.call.after))
        };
        let [_, unit, boundary, cut, bytes, floor] = time([
            &|| self.unit(),
            &|| self.unit(),
            &|| all(&boundary),
            &|| all(&|region, timed| self.cut(region, timed)),
            &|| all(&bytes),
            &|| all(&floor),
        ]);
        let tables = Some([
            Spread::of_ratios(&bytes, &boundary),
            Spread::of_ratios(&boundary, &floor),
        ]);
        Figures {
            tables,
            ..self.figures(&mix.name, mix.calls.len(), unit, boundary, &cut)
        }
    }

    /// Creation takes the same bytes on both sides.
    fn created(&self, seed: u64) -> Figures {
        let regions: Vec<_> = (0..REGIONS)
            .map(|case| creation::draw(&mut Chance::of_case(seed, CREATE, case)))
            .collect();
        let all = |create: &dyn Fn(&[u8]) -> u32| {
            for region in &regions {
                black_box(create(black_box(region)));
            }
        };
        let [_, unit, boundary, rust] = time([
            &|| self.unit(),
            &|| self.unit(),
            &|| all(&|region| Archive.create(region)),
            &|| all(&|region| self.oracle.create(region)),
        ]);
        self.figures(
            "creation, all answers",
            regions.len(),
            unit,
            boundary,
            &rust,
        )
    }

    /// Reading is what a call with the instructions takes longer than the same
    /// call with an empty list.
    fn read(&self, seed: u64) -> Figures {
        let calls = mixes::reading(seed);
        let mut empty = mixes::reading(seed);
        for timed in &mut empty {
            timed.call.instructions = vec![0];
        }
        let rust = |region: &mut [u8], timed: &Timed| self.cut(region, timed);
        let [_, unit, boundary, boundary_empty, rust, rust_empty] = time([
            &|| self.unit(),
            &|| self.unit(),
            &|| self.pass(&calls, &boundary),
            &|| self.pass(&empty, &boundary),
            &|| self.pass(&calls, &rust),
            &|| self.pass(&empty, &rust),
        ]);
        let added = |with: Vec<f64>, without: Vec<f64>| -> Vec<f64> {
            with.iter().zip(without).map(|(a, b)| a - b).collect()
        };
        let boundary = added(boundary, boundary_empty);
        let rust = added(rust, rust_empty);
        self.figures(
            "reading 16 instructions",
            calls.len(),
            unit,
            boundary,
            &rust,
        )
    }

    /// The figures that every row has, of passes over so many cases.
    fn figures(
        &self,
        name: &str,
        cases: usize,
        unit: Vec<f64>,
        boundary: Vec<f64>,
        rust: &[f64],
    ) -> Figures {
        let each = |passes: &[f64], cases: usize| -> Vec<f64> {
            passes.iter().map(|pass| pass / cases as f64).collect()
        };
        let unit = each(&unit, self.unit.len());
        Figures {
            name: name.to_string(),
            cost: Spread::of_ratios(&each(&boundary, cases), &unit),
            unit,
            cut: Spread::of_ratios(rust, &boundary),
            tables: None,
        }
    }

    /// A pass over the calls of cost 1. It is timed after another one, which leaves
    /// the caches as no other mix does: the unit is the same for all of them.
    fn unit(&self) {
        self.pass(self.unit, &boundary);
    }

    /// Judges each call on its region as it was at first.
    fn pass(&self, calls: &[Timed], judge: &dyn Fn(&mut [u8], &Timed) -> u32) {
        let mut region = self.region.borrow_mut();
        for timed in calls {
            region.clone_from(&timed.region);
            black_box(judge(black_box(&mut region), timed));
        }
    }

    /// The published code on records that were cut before.
    fn cut(&self, region: &mut [u8], timed: &Timed) -> u32 {
        self.published(region, timed, &timed.before, &timed.after)
    }

    fn published(
        &self,
        region: &mut [u8],
        timed: &Timed,
        before: &[Record],
        after: &[Record],
    ) -> u32 {
        let call = &timed.call;
        let call = oracle::Call {
            before,
            after,
            instructions: &call.instructions,
            vault: &call.vault,
            slot: call.slot,
            lamports_before: call.lamports_before,
            lamports_after: call.lamports_after,
            gross: call.gross,
        };
        self.oracle.judge(region, &call)
    }
}

fn boundary(region: &mut [u8], timed: &Timed) -> u32 {
    Archive.judge(region, &timed.call)
}
