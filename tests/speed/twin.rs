// The node and relay step, the table check and the search in plain Rust over the same bytes, with the same checks: the
// other side of the speed table.

pub const KEY: usize = 16;
pub const MOST_VALUE: usize = 128;
pub const FRONT: usize = 40;
pub const OUTLET: usize = FRONT + MOST_VALUE;
pub const HEAD: usize = 8;
pub const VALUE_AT: usize = 24;
pub const SLOT: usize = VALUE_AT + MOST_VALUE;
pub const PLACES: usize = 8;
pub const NUMBERS: usize = 18;

/// What find gives where no used slot has the key.
pub const NO_SLOT: u32 = 65_536;

/// What the relay step gives for the client; for a node it is this and the node's id.
pub const SENT: u32 = 65_536;

const READ: u8 = 1;
const WRITE: u8 = 2;
const DELETE: u8 = 3;

fn be16(bytes: &[u8], at: usize) -> u16 {
    u16::from_be_bytes([bytes[at], bytes[at + 1]])
}

fn be32(bytes: &[u8], at: usize) -> u32 {
    u32::from_be_bytes([bytes[at], bytes[at + 1], bytes[at + 2], bytes[at + 3]])
}

// ---- Table ----

fn slot_good(slot: &[u8]) -> bool {
    let length = usize::from(slot[17]);
    if length > MOST_VALUE {
        return false;
    }
    let (session, sequence) = (be16(slot, 18), be32(slot, 20));
    let never = session == 0 && sequence == 0;
    let both = session != 0 && sequence != 0;
    let head_good = match slot[16] {
        0 => length == 0 && never && slot[..KEY] == [0; KEY],
        1 => length == 0 && never,
        2 => both,
        3 => length == 0 && both,
        _ => false,
    };
    head_good && slot[VALUE_AT + length..] == [0; MOST_VALUE][length..]
}

pub fn table_good(table: &[u8]) -> bool {
    if table.len() < HEAD {
        return false;
    }
    let count = usize::from(be16(table, 6));
    be16(table, 4) != 0
        && (1..=256).contains(&count)
        && table.len() == HEAD + SLOT * count
        && table[HEAD..].chunks_exact(SLOT).all(slot_good)
}

/// The lowest used slot that has the key.
fn find(table: &[u8], key: &[u8; KEY]) -> Option<usize> {
    table[HEAD..].chunks_exact(SLOT).position(|slot| &slot[..KEY] == key && slot[KEY] != 0)
}

pub fn find_number(table: &[u8], key: &[u8]) -> u32 {
    match key.try_into() {
        Ok(key) if table.len() >= HEAD => find(table, key).map_or(NO_SLOT, |slot| slot as u32),
        _ => NO_SLOT,
    }
}

// ---- Packet ----

struct Packet<'a> {
    op: u8,
    answer: u8,
    from: u16,
    to: u16,
    stamp: u32,
    session: u16,
    sequence: u32,
    key: &'a [u8; KEY],
    value: &'a [u8],
}

impl Packet<'_> {
    fn read(bytes: &[u8]) -> Option<Packet<'_>> {
        let (front, value) = bytes.split_first_chunk::<FRONT>()?;
        let packet = Packet {
            op: front[0],
            answer: front[1],
            from: be16(front, 2),
            to: be16(front, 4),
            stamp: be32(front, 12),
            session: be16(front, 16),
            sequence: be32(front, 20),
            key: front.last_chunk()?,
            value,
        };
        let sound = usize::from(front[18]) == value.len() && value.len() <= MOST_VALUE && front[19] == 0;
        (sound && packet.well_formed()).then_some(packet)
    }

    fn well_formed(&self) -> bool {
        let empty = self.value.is_empty();
        let never = self.session == 0 && self.sequence == 0;
        let both = self.session != 0 && self.sequence != 0;
        match (self.answer, self.op) {
            (0, READ) => empty && never,
            (0, WRITE) => self.sequence == 0 || both,
            (0, DELETE) => empty && (self.sequence == 0 || both),
            (1, READ) => both,
            (2, READ) => empty && (never || both),
            (3, READ | WRITE | DELETE) => empty && never,
            (4, WRITE | DELETE) => empty && both,
            _ => false,
        }
    }

    fn alters(&self) -> bool {
        self.op != READ
    }

    fn numbered(&self) -> bool {
        self.alters() && self.sequence > 0
    }
}

/// Puts a packet into the outlet: the front of `bytes` with these fields, and the value.
fn put(outlet: &mut [u8], bytes: &[u8], route: (u16, u16, u32), answer: u8, version: (u16, u32), value: &[u8]) {
    outlet[..FRONT].copy_from_slice(&bytes[..FRONT]);
    outlet[1] = answer;
    outlet[2..4].copy_from_slice(&route.0.to_be_bytes());
    outlet[4..6].copy_from_slice(&route.1.to_be_bytes());
    outlet[12..16].copy_from_slice(&route.2.to_be_bytes());
    outlet[16..18].copy_from_slice(&version.0.to_be_bytes());
    outlet[18] = value.len() as u8;
    outlet[20..24].copy_from_slice(&version.1.to_be_bytes());
    outlet[FRONT..FRONT + value.len()].copy_from_slice(value);
}

// ---- Node step ----

pub fn node_step(table: &mut [u8], bytes: &[u8], outlet: &mut [u8]) -> u8 {
    if !table_good(table) {
        return 1;
    }
    if outlet.len() < OUTLET {
        return 2;
    }
    let Some(packet) = Packet::read(bytes) else { return 3 };
    let (fence, id) = (be32(table, 0), be16(table, 4));
    if packet.to != id || packet.from != 0 || packet.answer != 0 {
        return 4;
    }
    if packet.stamp < fence {
        return 7;
    }
    if packet.alters() && packet.session == 0 {
        return 8;
    }
    let route = (id, 0, packet.stamp);
    let Some(index) = find(table, packet.key) else {
        if packet.numbered() {
            return 9;
        }
        put(outlet, bytes, route, 3, (0, 0), &[]);
        return 0;
    };
    let slot = &mut table[HEAD + SLOT * index..][..SLOT];
    let stored = (be16(slot, 18), be32(slot, 20));
    if packet.op == READ {
        let value = &slot[VALUE_AT..][..usize::from(slot[17])];
        put(outlet, bytes, route, if slot[16] == 2 { 1 } else { 2 }, stored, value);
        return 0;
    }
    let version = match next(stored, &packet) {
        Ok(version) => version,
        Err(refusal) => return refusal,
    };
    store(slot, &packet, version);
    put(outlet, bytes, route, 0, version, packet.value);
    0
}

/// The version that a write or delete gets over the stored one.
fn next(stored: (u16, u32), packet: &Packet) -> Result<(u16, u32), u8> {
    let asked = (packet.session, packet.sequence);
    if packet.numbered() {
        return if asked > stored { Ok(asked) } else { Err(12) };
    }
    if stored.0 > asked.0 {
        return Err(10);
    }
    if stored.0 < asked.0 {
        return Ok((asked.0, 1));
    }
    stored.1.checked_add(1).map(|sequence| (asked.0, sequence)).ok_or(11)
}

fn store(slot: &mut [u8], packet: &Packet, version: (u16, u32)) {
    let end = VALUE_AT + packet.value.len();
    slot[16] = if packet.op == WRITE { 2 } else { 3 };
    slot[17] = packet.value.len() as u8;
    slot[18..20].copy_from_slice(&version.0.to_be_bytes());
    slot[20..24].copy_from_slice(&version.1.to_be_bytes());
    slot[VALUE_AT..end].copy_from_slice(packet.value);
    slot[end..].fill(0);
}

// ---- Relay step ----

struct Record {
    chain: [u16; PLACES],
    length: usize,
    wiring: u32,
    session: u16,
    /// The named node, and whether the change is after it.
    change: Option<(u16, bool)>,
}

impl Record {
    fn read(numbers: &[u32]) -> Option<Record> {
        let numbers: &[u32; NUMBERS] = numbers.try_into().ok()?;
        let narrow = |at: usize| u16::try_from(numbers[at]).ok();
        let length = usize::try_from(numbers[0]).ok()?;
        let mut chain = [0; PLACES];
        for (at, place) in chain.iter_mut().enumerate() {
            *place = narrow(1 + at)?;
        }
        let (session, highest, count) = (narrow(10)?, narrow(11)?, narrow(12)?);
        let used = chain.get(..length)?;
        let sound = !used.is_empty()
            && used.iter().enumerate().all(|(at, id)| *id != 0 && *id <= highest && !used[..at].contains(id))
            && chain[length..].iter().all(|id| *id == 0)
            && session != 0
            && (1..=256).contains(&count);
        if !sound {
            return None;
        }
        let change = match numbers[13] {
            0 => None,
            kind @ (1 | 2) => {
                let (named, fresh, mark, slot) = (narrow(14)?, narrow(15)?, numbers[16], narrow(17)?);
                let after = kind == 2;
                let sound = used.contains(&named)
                    && (!after || used[length - 1] == named)
                    && !used.contains(&fresh)
                    && fresh == highest
                    && length < PLACES
                    && mark <= 1
                    && slot <= count
                    && (mark == 1 || slot == 0);
                if !sound {
                    return None;
                }
                Some((named, after))
            }
            _ => return None,
        };
        Some(Record { chain, length, wiring: numbers[9], session, change })
    }

    fn chain(&self) -> &[u16] {
        &self.chain[..self.length]
    }

    fn stops(&self, packet: &Packet, node: u16) -> bool {
        self.change.is_some_and(|(named, after)| named == node && (after || packet.alters()))
    }
}

pub fn relay_step(numbers: &[u32], bytes: &[u8], outlet: &mut [u8]) -> u32 {
    let Some(record) = Record::read(numbers) else { return 1 };
    if outlet.len() < OUTLET {
        return 2;
    }
    let Some(packet) = Packet::read(bytes) else { return 3 };
    if packet.from == 0 {
        from_client(&record, &packet, bytes, outlet)
    } else {
        from_node(&record, &packet, bytes, outlet)
    }
}

fn from_client(record: &Record, packet: &Packet, bytes: &[u8], outlet: &mut [u8]) -> u32 {
    if packet.to != 0 || packet.stamp != 0 || packet.answer != 0 || packet.session != 0 {
        return 4;
    }
    let (node, session) =
        if packet.alters() { (record.chain[0], record.session) } else { (record.chain[record.length - 1], 0) };
    if record.stops(packet, node) {
        return 6;
    }
    put(outlet, bytes, (0, node, record.wiring), 0, (session, 0), packet.value);
    SENT + u32::from(node)
}

fn from_node(record: &Record, packet: &Packet, bytes: &[u8], outlet: &mut [u8]) -> u32 {
    if packet.to != 0 || (packet.answer == 0 && !packet.numbered()) {
        return 4;
    }
    let Some(place) = record.chain().iter().position(|&id| id == packet.from) else { return 5 };
    let version = (packet.session, packet.sequence);
    if packet.answer != 0 {
        put(outlet, bytes, (0, 0, 0), packet.answer, version, packet.value);
        return SENT;
    }
    let Some(&node) = record.chain().get(place + 1) else {
        put(outlet, bytes, (0, 0, 0), 4, version, &[]);
        return SENT;
    };
    if record.stops(packet, node) {
        return 6;
    }
    put(outlet, bytes, (0, node, record.wiring), 0, version, packet.value);
    SENT + u32::from(node)
}
