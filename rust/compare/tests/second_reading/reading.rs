//! Document 01 and the requests of document 02 that were granted, read a second
//! time: written from their text alone, on any bytes, and as short as that
//! allows. It shares nothing with the runner.

/// What a judged call is given besides the region.
#[derive(Clone)]
pub struct Inputs {
    pub before: Vec<u8>,
    pub after: Vec<u8>,
    pub instructions: Vec<u8>,
    pub vault: Vec<u8>,
    pub slot: u64,
    pub lamports_before: u64,
    pub lamports_after: u64,
    pub gross: u64,
}

const SPL_TOKEN: [u8; 32] = [
    6, 221, 246, 225, 215, 101, 161, 147, 217, 203, 225, 70, 206, 235, 121, 172, 28, 180, 133, 237,
    95, 91, 55, 145, 58, 140, 245, 133, 126, 255, 0, 169,
];
const TOKEN_2022: [u8; 32] = [
    6, 221, 246, 225, 238, 117, 143, 222, 170, 164, 12, 4, 223, 116, 174, 240, 70, 137, 163, 89,
    77, 149, 128, 12, 61, 73, 196, 253, 210, 164, 82, 159,
];

/// The little-endian number of some bytes.
fn number(bytes: &[u8]) -> u64 {
    bytes
        .iter()
        .rev()
        .fold(0, |sum, byte| sum * 256 + u64::from(*byte))
}

/// Takes bytes from the front, if they are all there.
fn take<'a>(rest: &mut &'a [u8], len: usize) -> Option<&'a [u8]> {
    let (front, back) = rest.split_at_checked(len)?;
    *rest = back;
    Some(front)
}

// The action region.

struct Action {
    kind: u8,
    expires_at: u64,
    /// Where its data begins in the region, and the data.
    at: usize,
    data: Vec<u8>,
}

impl Action {
    fn is_token(&self) -> bool {
        matches!(self.kind, 4..=6)
    }

    fn is_recurring(&self) -> bool {
        matches!(self.kind, 2 | 5)
    }

    fn is_expired(&self, slot: u64) -> bool {
        self.expires_at != 0 && slot > self.expires_at
    }

    /// The mint of a token action, the program of a list.
    fn key(&self) -> &[u8] {
        &self.data[..32]
    }

    /// Where in the data the number fields begin: after the mint.
    fn fields(&self) -> usize {
        if self.is_token() {
            32
        } else {
            0
        }
    }

    /// The number fields in order.
    fn field(&self, index: usize) -> u64 {
        number(&self.data[self.fields() + 8 * index..][..8])
    }
}

/// (a) Cuts a region into actions.
fn cut(region: &[u8]) -> Option<Vec<Action>> {
    let mut rest = region;
    let mut actions = Vec::new();
    while !rest.is_empty() {
        let header = take(&mut rest, 11)?;
        let at = region.len() - rest.len();
        let data = take(&mut rest, number(&header[1..3]) as usize)?.to_vec();
        length(header[0])?;
        actions.push(Action {
            kind: header[0],
            expires_at: number(&header[3..]),
            at,
            data,
        });
    }
    (actions.len() <= 16).then_some(actions)
}

/// The data length of a known type.
fn length(kind: u8) -> Option<usize> {
    match kind {
        1 | 3 => Some(8),
        2 | 10 | 11 => Some(32),
        4 | 6 => Some(40),
        5 => Some(64),
        _ => None,
    }
}

/// The actions of a region that keeps (a) to (e), or the number.
fn kept(region: &[u8]) -> Result<Vec<Action>, u32> {
    let actions = cut(region).ok_or(1u32)?;
    if actions.iter().any(|a| length(a.kind) != Some(a.data.len())) {
        return Err(1);
    }
    let has = |kind| actions.iter().any(|a| a.kind == kind);
    if has(10) && has(11) {
        return Err(2);
    }
    for (at, a) in actions.iter().enumerate() {
        for b in &actions[..at] {
            let second_sol = matches!(a.kind, 1..=3);
            if a.kind == b.kind && (second_sol || a.is_token() && a.key() == b.key()) {
                return Err(1);
            }
        }
    }
    Ok(actions)
}

/// Creation.
pub fn create(region: &[u8]) -> u32 {
    let fresh = |a: &Action| a.field(1) == 0 && a.field(2) > 0 && a.field(3) == 0;
    match kept(region) {
        Err(refusal) => refusal,
        Ok(actions) if actions.iter().any(|a| a.is_recurring() && !fresh(a)) => 1,
        Ok(_) => 0,
    }
}

/// The actions of a region in stored form.
fn stored(region: &[u8]) -> Option<Vec<Action>> {
    let actions = kept(region).ok()?;
    let windows = actions.iter().all(|a| !a.is_recurring() || a.field(2) > 0);
    windows.then_some(actions)
}

// The account table.

struct Record {
    key: Vec<u8>,
    owner: Vec<u8>,
    data: Vec<u8>,
}

impl Record {
    /// W-204.
    fn is_token_account(&self) -> bool {
        match self.data.len() {
            165 => self.owner == SPL_TOKEN || self.owner == TOKEN_2022,
            0..=164 | 355 => false,
            _ => self.owner == TOKEN_2022 && self.data[165] == 2,
        }
    }

    fn is_counted(&self, vault: &[u8]) -> bool {
        self.is_token_account() && self.data[32..64] == *vault
    }
}

fn table(bytes: &[u8]) -> Option<Vec<Record>> {
    let mut rest = bytes;
    let count = number(take(&mut rest, 2)?);
    if count > 64 {
        return None;
    }
    let mut records = Vec::new();
    for _ in 0..count {
        let key = take(&mut rest, 32)?.to_vec();
        let owner = take(&mut rest, 32)?.to_vec();
        let len = number(take(&mut rest, 4)?) as usize;
        let data = take(&mut rest, len)?.to_vec();
        records.push(Record { key, owner, data });
    }
    rest.is_empty().then_some(records)
}

fn balance(records: &[Record], vault: &[u8], mint: &[u8]) -> u64 {
    let counted = records.iter().filter(|r| r.is_counted(vault));
    counted
        .filter(|r| r.data[..32] == *mint)
        .fold(0, |sum, r| sum.saturating_add(number(&r.data[64..72])))
}

// Compact instructions.

/// The program indexes of the instructions.
fn programs(bytes: &[u8]) -> Option<Vec<usize>> {
    let mut rest = bytes;
    let count = number(take(&mut rest, 1)?);
    if count > 16 {
        return None;
    }
    let mut programs = Vec::new();
    for _ in 0..count {
        programs.push(number(take(&mut rest, 1)?) as usize);
        let accounts = number(take(&mut rest, 1)?) as usize;
        take(&mut rest, accounts)?;
        let data = number(take(&mut rest, 2)?) as usize;
        take(&mut rest, data)?;
    }
    Some(programs)
}

/// An entry to write: its program, and where its accounts and its data lie in
/// the source, each a start and a length.
pub struct Entry {
    pub program: u8,
    pub accounts: (usize, usize),
    pub data: (usize, usize),
}

/// Writing: the encoding, or the number.
pub fn write(entries: &[Entry], source: &[u8], room: usize) -> Result<Vec<u8>, u32> {
    let mut bytes = vec![entries.len() as u8];
    for entry in entries {
        let part = |(at, len): (usize, usize), most| {
            let end = at.checked_add(len).filter(|_| len <= most);
            end.and_then(|end| source.get(at..end)).ok_or(16u32)
        };
        let (accounts, data) = (part(entry.accounts, 255)?, part(entry.data, 65_535)?);
        bytes.extend([entry.program, accounts.len() as u8]);
        bytes.extend(accounts);
        bytes.extend([data.len() as u8, (data.len() / 256) as u8]);
        bytes.extend(data);
    }
    if entries.len() > 16 {
        return Err(16);
    }
    if bytes.len() > room {
        Err(14)
    } else {
        Ok(bytes)
    }
}

// The judged call.

/// The number, and the region afterwards.
pub fn judge(region: &[u8], call: &Inputs) -> (u32, Vec<u8>) {
    let mut after = region.to_vec();
    let number = steps(&mut after, call).err().unwrap_or(0);
    (number, after)
}

/// The steps in order; only the last writes.
fn steps(region: &mut [u8], call: &Inputs) -> Result<(), u32> {
    let refuse = |broken: bool, number: u32| if broken { Err(number) } else { Ok(()) };
    let (slot, vault) = (call.slot, &call.vault[..]);
    // 1 to 4.
    refuse(vault.len() != 32, 13)?;
    let before = table(&call.before).ok_or(13u32)?;
    let after = table(&call.after).ok_or(13u32)?;
    let programs = programs(&call.instructions).ok_or(3u32)?;
    let actions = stored(region).ok_or(15u32)?;
    if region.is_empty() {
        return Ok(());
    }

    // 5.
    let live = |kind: u8, key: &[u8]| {
        let mut lists = actions.iter().filter(|a| a.kind == kind);
        lists.any(|a| !a.is_expired(slot) && a.key() == key)
    };
    for program in programs {
        let key = &before.get(program).ok_or(3u32)?.key;
        refuse(actions.iter().any(|a| a.kind == 10) && !live(10, key), 4)?;
        refuse(live(11, key), 5)?;
    }

    // 6.
    let listed = |mint: &[u8]| actions.iter().any(|a| a.is_token() && a.key() == mint);
    for account in before.iter().filter(|r| r.is_counted(vault)) {
        if listed(&account.data[..32]) {
            let now = after.iter().find(|r| r.key == account.key).ok_or(12u32)?;
            refuse(!now.is_token_account(), 12)?;
            for frozen in [32..64, 72..108, 129..165] {
                refuse(now.data[frozen.clone()] != account.data[frozen], 12)?;
            }
        }
    }

    // 7, then 8.
    let amount = |a: &Action| match a.kind {
        3 => call.gross,
        1 | 2 => call.lamports_before.saturating_sub(call.lamports_after),
        _ => balance(&before, vault, a.key()).saturating_sub(balance(&after, vault, a.key())),
    };
    // Of a recurring limit: limit, spent, window, last_reset.
    let window_over = |a: &Action| slot.saturating_sub(a.field(3)) > a.field(2);
    let base = |a: &Action| if window_over(a) { 0 } else { a.field(1) };
    for tokens in [false, true] {
        let limits = actions.iter().filter(|a| a.kind < 10);
        for a in limits.filter(|a| a.is_token() == tokens) {
            let spends = match a.is_recurring() {
                true => base(a).saturating_add(amount(a)),
                false => amount(a),
            };
            let broken = amount(a) > 0 && (a.is_expired(slot) || spends > a.field(0));
            refuse(broken, [7, 8, 6, 10, 11, 9][usize::from(a.kind) - 1])?;
        }
    }

    // 9.
    for a in actions.iter().filter(|a| matches!(a.kind, 1 | 2 | 4 | 5)) {
        let mut write = |index: usize, value: u64| {
            let at = a.at + a.fields() + 8 * index;
            region[at..at + 8].copy_from_slice(&value.to_le_bytes());
        };
        match amount(a) {
            0 => {}
            amount if a.is_recurring() => {
                write(1, base(a).saturating_add(amount));
                if window_over(a) {
                    write(3, slot / a.field(2) * a.field(2));
                }
            }
            amount => write(0, a.field(0) - amount),
        }
    }
    Ok(())
}
