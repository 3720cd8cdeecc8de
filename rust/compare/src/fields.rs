//! The fields of a region by name, and those in which two regions differ.

use std::ops::Range;

use crate::{region, words::many};

/// What an action begins with: the names and lengths of its header's fields.
const HEADER: [(&str, usize); 3] = [("type", 1), ("data length", 2), ("expires_at", 8)];

/// A number has at most so many bytes. What is longer is a key.
const NUMBER: usize = 8;

/// A field of an action.
struct Field {
    /// The action's place in the region, from 0.
    action: usize,
    /// The name of the action's type.
    rule: &'static str,
    name: &'static str,
    /// Its bytes.
    at: Range<usize>,
}

/// A line for each field in which two regions differ, of a region that was cut as
/// it was before. Bytes that lie in no action are named by their places.
pub fn differing(was: &[u8], expected: &[u8], got: &[u8]) -> Vec<String> {
    let fields = fields(was);
    let rest = fields.last().map_or(0, |field| field.at.end)..was.len();
    let differing = fields
        .iter()
        .filter_map(|field| field.difference(expected, got));
    let rest = rest.filter(|at| expected[*at] != got[*at]);
    let rest = rest.map(|at| format!("byte {at}: {} expected, {} got", expected[at], got[at]));
    differing.chain(rest).collect()
}

/// The fields of the actions into which a region is cut, as far as it is.
fn fields(region: &[u8]) -> Vec<Field> {
    let mut fields = Vec::new();
    let mut start = 0;
    for (action, of) in region::leading(region).into_iter().enumerate() {
        let (rule, data) = of.rule.layout();
        for (name, len) in HEADER.iter().chain(data) {
            let at = start..start + len;
            start = at.end;
            fields.push(Field {
                action,
                rule,
                name,
                at,
            });
        }
    }
    fields
}

impl Field {
    /// The first byte that differs and both values: of the number that it belongs
    /// to, or of the byte where that is a key's.
    fn difference(&self, expected: &[u8], got: &[u8]) -> Option<String> {
        let mut differing = self.at.clone().filter(|at| expected[*at] != got[*at]);
        let first = differing.next()?;
        let (values, more) = match (self.at.len(), differing.count()) {
            (..=NUMBER, _) => (self.at.clone(), String::new()),
            (_, 0) => (first..first + 1, String::new()),
            (_, more) => {
                let bytes = many(more, "more byte");
                (first..first + 1, format!(", and {bytes} of it"))
            }
        };
        let [expected, got] = [expected, got].map(|bytes| number(&bytes[values.clone()]));
        let Self {
            action, rule, name, ..
        } = self;
        Some(format!(
            "byte {first} (action {action}, {rule}, {name}): {expected} expected, {got} got{more}"
        ))
    }
}

/// A little-endian number.
fn number(bytes: &[u8]) -> u64 {
    let bytes = bytes.iter().rev();
    bytes.fold(0, |number, byte| number << 8 | u64::from(*byte))
}
