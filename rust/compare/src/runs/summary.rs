//! What a case asks, in a line. Its bytes are not shown: they are drawn again.

use super::Run;
use crate::{calls::Call, region, stream, table, words::many};

impl Run {
    /// How much there is of each part, and the numbers of each call.
    pub fn summary(&self) -> String {
        let actions = region::cut(&self.region).map(|actions| many(actions.len(), "action"));
        let region = part(actions, "an uncut region", &self.region);
        let calls = self.calls.iter().map(summary);
        let parts: Vec<String> = [region].into_iter().chain(calls).collect();
        parts.join("; ")
    }
}

fn summary(call: &Call) -> String {
    let table = |bytes: &[u8]| {
        let records = table::cut(bytes).map(|records| many(records.len(), "record"));
        part(records, "a malformed table", bytes)
    };
    let entries = stream::decode(&call.instructions);
    let entries = entries.map(|entries| many(entries.len(), "instruction"));
    let Call {
        slot,
        lamports_before,
        lamports_after,
        gross,
        ..
    } = call;
    format!(
        "before {}, after {}; {}; slot {slot}, lamports {lamports_before} before, \
         {lamports_after} after, gross {gross}",
        table(&call.before),
        table(&call.after),
        part(entries, "malformed instructions", &call.instructions),
    )
}

/// What bytes are made of, or that it is unknown, and how many they are.
fn part(made_of: Option<String>, unknown: &str, bytes: &[u8]) -> String {
    let made_of = made_of.as_deref().unwrap_or(unknown);
    format!("{made_of} ({})", many(bytes.len(), "byte"))
}
