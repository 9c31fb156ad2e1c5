// Document 01 in plain Rust over bytes, written from the page: the other opinion that tests compare the register with.
//
// Each call asks every row of the refusal table that can speak of it, each row alone, and gives the first that holds
// by `RANK`. A row about something absent (a broken packet's fields, a missing key, a change that is not open) does not
// hold. A refused call changes nothing. Numbers returned: 0 for success, else the row's number.

// Several programs share this file and none uses all of it.
#![allow(dead_code)]

pub const PACKET_HEAD: usize = 40;
pub const MOST_VALUE: usize = 128;
pub const OUTLET: usize = PACKET_HEAD + MOST_VALUE;
pub const KEY: usize = 16;
pub const TABLE_HEAD: usize = 8;
pub const SLOT_HEAD: usize = 24;
pub const SLOT: usize = SLOT_HEAD + MOST_VALUE;
pub const MOST_SLOTS: u16 = 256;
pub const PLACES: usize = 8;

pub const READ: u8 = 1;
pub const WRITE: u8 = 2;
pub const DELETE: u8 = 3;

pub const QUERY: u8 = 0;
pub const VALUE: u8 = 1;
pub const NO_VALUE: u8 = 2;
pub const NO_SUCH_KEY: u8 = 3;
pub const WRITTEN: u8 = 4;

pub const FREE: u8 = 0;
pub const ENTERED: u8 = 1;
pub const HOLDS_VALUE: u8 = 2;
pub const DELETED: u8 = 3;

pub const NO_CHANGE: u8 = 0;
pub const BEFORE: u8 = 1;
pub const AFTER: u8 = 2;

// ---- Which number is given ----

/// The order in which the rows of the refusal table are given.
pub const RANK: [u8; 22] = [1, 2, 3, 4, 5, 6, 7, 8, 9, 10, 11, 12, 13, 14, 15, 16, 17, 18, 19, 20, 21, 22];

/// The rows that hold for one call.
#[derive(Clone, Debug, Default, PartialEq, Eq)]
pub struct Rows(pub Vec<u8>);

impl Rows {
    pub fn row(mut self, number: u8, holds: bool) -> Rows {
        if holds {
            self.0.push(number);
        }
        self
    }

    /// The number given: the first of these by rank, or 0.
    pub fn given(&self) -> u8 {
        RANK.into_iter().find(|number| self.0.contains(number)).unwrap_or(0)
    }
}

/// Whether a condition holds of something that may be absent.
fn of<T>(subject: Option<T>, condition: impl FnOnce(T) -> bool) -> bool {
    subject.is_some_and(condition)
}

// ---- Numbers in bytes ----

fn number(bytes: &[u8]) -> u32 {
    bytes.iter().fold(0, |high, &low| high << 8 | u32::from(low))
}

fn number16(bytes: &[u8]) -> u16 {
    number(&bytes[..2]) as u16
}

/// A session and a sequence; the order derived compares sessions first.
#[derive(Clone, Copy, Debug, Default, PartialEq, Eq, PartialOrd, Ord)]
pub struct Version {
    pub session: u16,
    pub sequence: u32,
}

pub const NEVER: Version = Version { session: 0, sequence: 0 };

impl Version {
    fn both_over_0(self) -> bool {
        self.session > 0 && self.sequence > 0
    }
}

// ---- Packet ----

#[derive(Clone, Copy, Debug, PartialEq, Eq)]
pub struct Packet<'a> {
    pub op: u8,
    pub answer: u8,
    pub from: u16,
    pub to: u16,
    pub client: u16,
    pub request: u32,
    pub stamp: u32,
    pub version: Version,
    pub key: &'a [u8],
    pub value: &'a [u8],
}

impl<'a> Packet<'a> {
    /// The fields of a packet, its value a stretch of the bytes given; none if it is not well-formed (3).
    pub fn read(bytes: &'a [u8]) -> Option<Packet<'a>> {
        if bytes.len() < PACKET_HEAD || bytes[19] != 0 || bytes.len() != PACKET_HEAD + usize::from(bytes[18]) {
            return None;
        }
        let packet = Packet {
            op: bytes[0],
            answer: bytes[1],
            from: number16(&bytes[2..4]),
            to: number16(&bytes[4..6]),
            client: number16(&bytes[6..8]),
            request: number(&bytes[8..12]),
            stamp: number(&bytes[12..16]),
            version: Version { session: number16(&bytes[16..18]), sequence: number(&bytes[20..24]) },
            key: &bytes[24..PACKET_HEAD],
            value: &bytes[PACKET_HEAD..],
        };
        packet.well_formed().then_some(packet)
    }

    pub fn well_formed(&self) -> bool {
        let empty = self.value.is_empty();
        let never = self.version == NEVER;
        let numbered = self.version.both_over_0();
        let by_answer = match (self.answer, self.op) {
            (QUERY, READ) => empty && never,
            (QUERY, WRITE) => true,
            (QUERY, DELETE) => empty,
            (VALUE, READ) => numbered,
            (NO_VALUE, READ) => empty && (never || numbered),
            (NO_SUCH_KEY, READ | WRITE | DELETE) => empty && never,
            (WRITTEN, WRITE | DELETE) => empty && numbered,
            _ => false,
        };
        by_answer
            && self.key.len() == KEY
            && self.value.len() <= MOST_VALUE
            && (self.version.sequence == 0 || self.version.session > 0)
    }

    pub fn write_rows(&self, outlet: usize) -> Rows {
        Rows::default().row(2, outlet < OUTLET).row(3, !self.well_formed())
    }

    /// Writes the packet at the start of the outlet; the other bytes stay.
    pub fn write(&self, outlet: &mut [u8]) -> u8 {
        let given = self.write_rows(outlet.len()).given();
        if given == 0 {
            let bytes = self.bytes();
            outlet[..bytes.len()].copy_from_slice(&bytes);
        }
        given
    }

    pub fn bytes(&self) -> Vec<u8> {
        let mut bytes = vec![self.op, self.answer];
        bytes.extend(self.from.to_be_bytes());
        bytes.extend(self.to.to_be_bytes());
        bytes.extend(self.client.to_be_bytes());
        bytes.extend(self.request.to_be_bytes());
        bytes.extend(self.stamp.to_be_bytes());
        bytes.extend(self.version.session.to_be_bytes());
        bytes.extend([self.value.len() as u8, 0]);
        bytes.extend(self.version.sequence.to_be_bytes());
        bytes.extend(self.key);
        bytes.extend(self.value);
        bytes
    }

    fn is_query(&self) -> bool {
        self.answer == QUERY
    }

    /// A write or a delete.
    fn alters(&self) -> bool {
        self.op == WRITE || self.op == DELETE
    }

    fn numbered(&self) -> bool {
        self.alters() && self.version.sequence > 0
    }

    fn unnumbered(&self) -> bool {
        self.alters() && self.version.sequence == 0
    }

    fn from_client(&self) -> bool {
        self.from == 0
    }
}

// ---- Table of one node ----

#[derive(Clone, Copy, Debug, PartialEq, Eq)]
pub struct Slot<'a> {
    pub key: &'a [u8],
    pub state: u8,
    pub version: Version,
    pub value: &'a [u8],
}

impl<'a> Slot<'a> {
    /// A slot's content; none if it breaks the rules.
    fn read(bytes: &'a [u8]) -> Option<Slot<'a>> {
        let length = usize::from(bytes[17]);
        if length > MOST_VALUE || bytes[SLOT_HEAD + length..].iter().any(|&byte| byte != 0) {
            return None;
        }
        let slot = Slot {
            key: &bytes[..KEY],
            state: bytes[16],
            version: Version { session: number16(&bytes[18..20]), sequence: number(&bytes[20..24]) },
            value: &bytes[SLOT_HEAD..SLOT_HEAD + length],
        };
        let sound = match slot.state {
            FREE => bytes.iter().all(|&byte| byte == 0),
            ENTERED => slot.value.is_empty() && slot.version == NEVER,
            HOLDS_VALUE => slot.version.both_over_0(),
            DELETED => slot.value.is_empty() && slot.version.both_over_0(),
            _ => false,
        };
        sound.then_some(slot)
    }

    pub fn bytes(&self) -> Vec<u8> {
        let mut bytes = self.key.to_vec();
        bytes.extend([self.state, self.value.len() as u8]);
        bytes.extend(self.version.session.to_be_bytes());
        bytes.extend(self.version.sequence.to_be_bytes());
        bytes.extend(self.value);
        bytes.resize(SLOT, 0);
        bytes
    }
}

#[derive(Clone, Debug, PartialEq, Eq)]
pub struct Table<'a> {
    pub fence: u32,
    pub id: u16,
    pub slots: Vec<Slot<'a>>,
}

impl<'a> Table<'a> {
    /// A table's content; none if it breaks the rules (1).
    pub fn read(bytes: &'a [u8]) -> Option<Table<'a>> {
        if bytes.len() < TABLE_HEAD {
            return None;
        }
        let (id, count) = (number16(&bytes[4..6]), number16(&bytes[6..8]));
        if !head_sound(id, count, bytes.len()) {
            return None;
        }
        let slots: Option<Vec<Slot>> = bytes[TABLE_HEAD..].chunks(SLOT).map(Slot::read).collect();
        Some(Table { fence: number(&bytes[..4]), id, slots: slots? })
    }

    fn count(&self) -> u16 {
        self.slots.len() as u16
    }

    /// The lowest used slot that has the key.
    fn find(&self, key: &[u8]) -> Option<usize> {
        self.slots.iter().position(|slot| slot.state != FREE && slot.key == key)
    }

    fn lowest_free(&self) -> Option<usize> {
        self.slots.iter().position(|slot| slot.state == FREE)
    }
}

fn head_sound(id: u16, count: u16, bytes: usize) -> bool {
    id != 0 && (1..=MOST_SLOTS).contains(&count) && bytes == TABLE_HEAD + SLOT * usize::from(count)
}

fn slot_part(table: &mut [u8], index: usize) -> &mut [u8] {
    &mut table[TABLE_HEAD + SLOT * index..][..SLOT]
}

fn put_fence(table: &mut [u8], fence: u32) {
    table[..4].copy_from_slice(&fence.to_be_bytes());
}

/// Makes a blank table: fence 0, all slots free.
pub fn blank(table: &mut [u8], id: u16, count: u16) -> u8 {
    let given = Rows::default().row(1, !head_sound(id, count, table.len())).given();
    if given == 0 {
        table.fill(0);
        table[4..6].copy_from_slice(&id.to_be_bytes());
        table[6..8].copy_from_slice(&count.to_be_bytes());
    }
    given
}

// ---- Chain record ----

/// The record as numbers, laid out as the header's struct. With no change open the last four are ignored coming in and
/// 0 going out.
#[derive(Clone, Copy, Debug, Default, PartialEq, Eq)]
#[repr(C)]
pub struct Record {
    pub length: u8,
    pub ids: [u16; PLACES],
    pub wiring: u32,
    pub session: u16,
    pub highest: u16,
    pub count: u16,
    pub kind: u8,
    pub named: u16,
    pub fresh: u16,
    pub fenced: u8,
    pub next: u16,
}

/// An open change, as a sound record holds it.
#[derive(Clone, Copy, Debug, PartialEq, Eq)]
pub struct Change {
    pub after: bool,
    pub named: u16,
    pub fresh: u16,
    pub fenced: bool,
    pub next: u16,
}

impl Record {
    pub fn chain(&self) -> &[u16] {
        &self.ids[..usize::from(self.length)]
    }

    pub fn change(&self) -> Option<Change> {
        let Record { kind, named, fresh, fenced, next, .. } = *self;
        (kind != NO_CHANGE).then_some(Change { after: kind == AFTER, named, fresh, fenced: fenced == 1, next })
    }

    /// The record itself; none if it breaks the rules (1).
    fn sound(&self) -> Option<&Record> {
        (self.chain_sound() && self.change_sound()).then_some(self)
    }

    fn chain_sound(&self) -> bool {
        if self.length < 1 || usize::from(self.length) > PLACES {
            return false;
        }
        let chain = self.chain();
        let distinct = chain.iter().enumerate().all(|(place, id)| !chain[..place].contains(id));
        distinct
            && chain.iter().all(|&id| id != 0 && id <= self.highest)
            && self.ids[chain.len()..].iter().all(|&id| id == 0)
            && self.session != 0
            && (1..=MOST_SLOTS).contains(&self.count)
    }

    fn change_sound(&self) -> bool {
        let Some(change) = self.change() else { return true };
        (self.kind == BEFORE || self.kind == AFTER)
            && self.fenced <= 1
            && self.has(change.named)
            && (!change.after || self.is_last(change.named))
            && !self.has(change.fresh)
            && change.fresh == self.highest
            && self.chain().len() < PLACES
            && change.next <= self.count
            && (change.fenced || change.next == 0)
    }

    fn has(&self, id: u16) -> bool {
        self.chain().contains(&id)
    }

    fn first(&self) -> u16 {
        self.chain()[0]
    }

    fn last(&self) -> u16 {
        self.chain()[self.chain().len() - 1]
    }

    fn is_first(&self, id: u16) -> bool {
        self.first() == id
    }

    fn is_last(&self, id: u16) -> bool {
        self.last() == id
    }

    fn place(&self, id: u16) -> Option<usize> {
        self.chain().iter().position(|&other| other == id)
    }

    /// The node behind a chain node; none behind the last.
    fn next_after(&self, id: u16) -> Option<u16> {
        self.chain().get(self.place(id)? + 1).copied()
    }

    fn set_chain(&mut self, chain: &[u16]) {
        self.length = chain.len() as u8;
        self.ids = [0; PLACES];
        self.ids[..chain.len()].copy_from_slice(chain);
    }

    fn close_change(&mut self) {
        *self = Record { kind: NO_CHANGE, named: 0, fresh: 0, fenced: 0, next: 0, ..*self };
    }
}

/// The record of a chain that starts: none if these places or this count break the rules (1).
pub fn start(length: u8, ids: [u16; PLACES], count: u16) -> Option<Record> {
    let highest = ids.into_iter().max().unwrap_or(0);
    let record = Record { length, ids, wiring: 1, session: 1, highest, count, ..Record::default() };
    record.sound().copied()
}

// ---- Node step ----

pub fn node_rows(table: &[u8], packet: &[u8], outlet: usize) -> Rows {
    let table = Table::read(table);
    let packet = Packet::read(packet);
    let met = table.as_ref().zip(packet);
    let stored = met.and_then(|(table, packet)| Some((table.slots[table.find(packet.key)?].version, packet)));
    Rows::default()
        .row(1, table.is_none())
        .row(2, outlet < OUTLET)
        .row(3, packet.is_none())
        .row(
            4,
            of(met, |(table, packet)| packet.to != table.id)
                || of(packet, |packet| packet.from != 0 || !packet.is_query()),
        )
        .row(7, of(met, |(table, packet)| packet.stamp < table.fence))
        .row(8, of(packet, |packet| packet.alters() && packet.version.session == 0))
        .row(9, of(met, |(table, packet)| packet.numbered() && table.find(packet.key).is_none()))
        .row(10, of(stored, |(stored, packet)| packet.unnumbered() && stored.session > packet.version.session))
        .row(11, of(stored, |(stored, packet)| packet.unnumbered() && number_missing(stored, packet.version.session)))
        .row(12, of(stored, |(stored, packet)| packet.numbered() && packet.version <= stored))
}

/// Numbering in this session must grow a sequence that cannot grow.
fn number_missing(stored: Version, session: u16) -> bool {
    stored.session == session && stored.sequence == u32::MAX
}

/// The version a head gives: the next sequence in the stored session, or the first of a higher one.
fn next_version(stored: Version, session: u16) -> Version {
    let sequence = if stored.session == session { stored.sequence + 1 } else { 1 };
    Version { session, sequence }
}

pub fn node(table: &mut [u8], packet: &[u8], outlet: &mut [u8]) -> u8 {
    let given = node_rows(table, packet, outlet.len()).given();
    if given != 0 {
        return given;
    }
    let content = Table::read(table).expect("row 1 does not hold");
    let query = Packet::read(packet).expect("row 3 does not hold");
    let out = Packet { from: content.id, to: 0, ..query };
    let Some(index) = content.find(query.key) else {
        return Packet { answer: NO_SUCH_KEY, version: NEVER, value: &[], ..out }.write(outlet);
    };
    let slot = content.slots[index];
    if query.op == READ {
        let answer = if slot.state == HOLDS_VALUE { VALUE } else { NO_VALUE };
        return Packet { answer, version: slot.version, value: slot.value, ..out }.write(outlet);
    }
    let version = if query.numbered() { query.version } else { next_version(slot.version, query.version.session) };
    let state = if query.op == WRITE { HOLDS_VALUE } else { DELETED };
    let stored = Slot { key: query.key, state, version, value: query.value }.bytes();
    slot_part(table, index).copy_from_slice(&stored);
    Packet { version, ..out }.write(outlet)
}

// ---- Relay step ----

#[derive(Clone, Copy, Debug, PartialEq, Eq)]
pub enum Outcome {
    Node(u16),
    Client,
    Dropped(u8),
}

/// Where a packet goes, by the record alone: a node, or none for the client.
fn destination(record: &Record, packet: &Packet) -> Option<u16> {
    match (packet.from_client(), packet.op) {
        (true, READ) => Some(record.last()),
        (true, _) => Some(record.first()),
        (false, _) if packet.is_query() => record.next_after(packet.from),
        (false, _) => None,
    }
}

/// An open change stops this packet on its way to the node.
fn stopped(change: Change, packet: &Packet, node: u16) -> bool {
    node == change.named && (packet.alters() || change.after)
}

pub fn relay_rows(record: &Record, packet: &[u8], outlet: usize) -> Rows {
    let record = record.sound();
    let packet = Packet::read(packet);
    let met = record.zip(packet);
    let client = packet.filter(Packet::from_client);
    let sender = packet.filter(|packet| !packet.from_client());
    let not_a_clients =
        |packet: Packet| packet.to != 0 || packet.stamp != 0 || !packet.is_query() || packet.version != NEVER;
    let not_a_nodes = |packet: Packet| packet.to != 0 || (packet.is_query() && !packet.numbered());
    let outsider = |(record, packet): (&Record, Packet)| !packet.from_client() && !record.has(packet.from);
    let addressed = met
        .filter(|&met| !outsider(met))
        .and_then(|(record, packet)| Some((record.change()?, packet, destination(record, &packet)?)));
    Rows::default()
        .row(1, record.is_none())
        .row(2, outlet < OUTLET)
        .row(3, packet.is_none())
        .row(4, of(client, not_a_clients) || of(sender, not_a_nodes))
        .row(5, of(met, outsider))
        .row(6, of(addressed, |(change, packet, node)| stopped(change, &packet, node)))
}

pub fn relay(record: &Record, packet: &[u8], outlet: &mut [u8]) -> Outcome {
    let given = relay_rows(record, packet, outlet.len()).given();
    if given != 0 {
        return Outcome::Dropped(given);
    }
    let packet = Packet::read(packet).expect("row 3 does not hold");
    let (out, outcome) = match destination(record, &packet) {
        Some(node) => (Packet { from: 0, to: node, stamp: record.wiring, ..packet }, Outcome::Node(node)),
        None => (Packet { from: 0, to: 0, stamp: 0, ..packet }, Outcome::Client),
    };
    let written = if packet.from_client() && packet.alters() {
        Packet { version: Version { session: record.session, sequence: 0 }, ..out }.write(outlet)
    } else if packet.is_query() && outcome == Outcome::Client {
        Packet { answer: WRITTEN, value: &[], ..out }.write(outlet)
    } else {
        out.write(outlet)
    };
    assert_eq!(written, 0, "what the relay sends is well-formed");
    outcome
}

// ---- Controller steps ----

pub fn open_rows(record: &Record, after: bool, named: u16, fresh: u16) -> Rows {
    let record = record.sound();
    Rows::default()
        .row(1, record.is_none())
        .row(11, of(record, |record| record.wiring == u32::MAX))
        .row(13, of(record, |record| record.change().is_some()))
        .row(15, of(record, |record| !record.has(named) || (after && !record.is_last(named))))
        .row(16, of(record, |record| fresh <= record.highest))
        .row(17, of(record, |record| record.chain().len() == PLACES))
}

pub fn open(record: &mut Record, after: bool, named: u16, fresh: u16) -> u8 {
    let given = open_rows(record, after, named, fresh).given();
    if given == 0 {
        record.wiring += 1;
        record.highest = fresh;
        let kind = if after { AFTER } else { BEFORE };
        *record = Record { kind, named, fresh, fenced: 0, next: 0, ..*record };
    }
    given
}

pub fn fence_rows(record: &Record, named: &[u8]) -> Rows {
    let record = record.sound();
    let table = Table::read(named);
    let change = record.map(Record::change);
    let met = record.zip(table.as_ref()).and_then(|(record, table)| Some((record, record.change()?, table)));
    Rows::default()
        .row(1, record.is_none() || table.is_none())
        .row(14, of(change, |change| change.is_none()))
        .row(15, of(met, |(_, change, table)| table.id != change.named))
        .row(19, of(met, |(record, _, table)| table.count() != record.count))
        .row(22, of(met, |(record, _, table)| table.fence > record.wiring))
}

pub fn fence(record: &mut Record, named: &mut [u8]) -> u8 {
    let given = fence_rows(record, named).given();
    if given == 0 {
        put_fence(named, record.wiring);
        record.fenced = 1;
    }
    given
}

pub fn copy_rows(record: &Record, index: u16, named: &[u8], fresh: &[u8]) -> Rows {
    let record = record.sound();
    let (named, fresh) = (Table::read(named), Table::read(fresh));
    let change = record.map(Record::change);
    let open = record.and_then(|record| Some((record, record.change()?)));
    let with_named = open.zip(named.as_ref());
    let with_fresh = open.zip(fresh.as_ref());
    Rows::default()
        .row(1, record.is_none() || named.is_none() || fresh.is_none())
        .row(
            14,
            of(change, |change| change.is_none())
                || of(open, |(record, change)| !change.fenced || index != change.next || change.next == record.count),
        )
        .row(
            15,
            of(with_named, |((_, change), table)| table.id != change.named)
                || of(with_fresh, |((_, change), table)| table.id != change.fresh),
        )
        .row(
            19,
            of(with_named, |((record, _), table)| table.count() != record.count)
                || of(with_fresh, |((record, _), table)| table.count() != record.count),
        )
}

pub fn copy(record: &mut Record, index: u16, named: &[u8], fresh: &mut [u8]) -> u8 {
    let given = copy_rows(record, index, named, fresh).given();
    if given == 0 {
        let index = usize::from(index);
        slot_part(fresh, index).copy_from_slice(&named[TABLE_HEAD + SLOT * index..][..SLOT]);
        record.next += 1;
    }
    given
}

pub fn activate_rows(record: &Record) -> Rows {
    let record = record.sound();
    let change = record.map(Record::change);
    let open = record.and_then(|record| Some((record, record.change()?)));
    Rows::default()
        .row(1, record.is_none())
        .row(
            11,
            of(open, |(record, change)| !change.after && record.is_first(change.named) && record.session == u16::MAX),
        )
        .row(14, of(change, |change| change.is_none()) || of(open, |(record, change)| change.next < record.count))
}

pub fn activate(record: &mut Record) -> u8 {
    let given = activate_rows(record).given();
    if given == 0 {
        let change = record.change().expect("row 14 does not hold");
        let named = record.place(change.named).expect("row 1 does not hold");
        let mut chain = record.chain().to_vec();
        chain.insert(if change.after { named + 1 } else { named }, change.fresh);
        record.set_chain(&chain);
        record.close_change();
        if record.is_first(change.fresh) {
            record.session += 1;
        }
    }
    given
}

pub fn cancel_rows(record: &Record) -> Rows {
    let record = record.sound();
    Rows::default().row(1, record.is_none()).row(14, of(record, |record| record.change().is_none()))
}

pub fn cancel(record: &mut Record) -> u8 {
    let given = cancel_rows(record).given();
    if given == 0 {
        record.close_change();
    }
    given
}

pub fn remove_rows(record: &Record, id: u16) -> Rows {
    let record = record.sound();
    Rows::default()
        .row(1, record.is_none())
        .row(11, of(record, |record| record.is_first(id) && record.session == u16::MAX))
        .row(13, of(record, |record| record.change().is_some()))
        .row(15, of(record, |record| !record.has(id)))
        .row(18, of(record, |record| record.chain() == [id]))
}

pub fn remove(record: &mut Record, id: u16) -> u8 {
    let given = remove_rows(record, id).given();
    if given == 0 {
        let was_first = record.is_first(id);
        let rest: Vec<u16> = record.chain().iter().copied().filter(|&other| other != id).collect();
        record.set_chain(&rest);
        record.close_change();
        if was_first {
            record.session += 1;
        }
    }
    given
}

pub fn enter_rows(record: &Record, table: &[u8], id: u16, key: &[u8; KEY]) -> Rows {
    let record = record.sound();
    let table = Table::read(table);
    let met = record.zip(table.as_ref());
    Rows::default()
        .row(1, record.is_none() || table.is_none())
        .row(13, of(record, |record| record.change().is_some()))
        .row(15, of(record, |record| !record.has(id)) || of(table.as_ref(), |table| table.id != id))
        .row(19, of(met, |(record, table)| table.count() != record.count))
        .row(20, of(table.as_ref(), |table| table.find(key).is_some()))
        .row(21, of(table.as_ref(), |table| table.lowest_free().is_none()))
}

pub fn enter(record: &Record, table: &mut [u8], id: u16, key: &[u8; KEY]) -> u8 {
    let given = enter_rows(record, table, id, key).given();
    if given == 0 {
        let index = Table::read(table).and_then(|table| table.lowest_free()).expect("row 21 does not hold");
        let entered = Slot { key, state: ENTERED, version: NEVER, value: &[] }.bytes();
        slot_part(table, index).copy_from_slice(&entered);
    }
    given
}

// ---- Document 01's marked examples, and bytes typed by hand ----

#[cfg(test)]
mod tests {
    use super::*;

    const K: &[u8; KEY] = b"k\0\0\0\0\0\0\0\0\0\0\0\0\0\0\0";
    const L: &[u8; KEY] = b"l\0\0\0\0\0\0\0\0\0\0\0\0\0\0\0";

    fn version(session: u16, sequence: u32) -> Version {
        Version { session, sequence }
    }

    /// Node 1's table of two slots: key k with this state, version and value, and a free one.
    fn table_with(fence: u32, state: u8, stored: Version, value: &[u8]) -> Vec<u8> {
        let mut table = vec![0; TABLE_HEAD + 2 * SLOT];
        assert_eq!(blank(&mut table, 1, 2), 0);
        put_fence(&mut table, fence);
        slot_part(&mut table, 0).copy_from_slice(&Slot { key: K, state, version: stored, value }.bytes());
        table
    }

    fn query(op: u8, stamp: u32, version: Version) -> Packet<'static> {
        let value: &[u8] = if op == WRITE { b"A" } else { b"" };
        Packet { op, answer: QUERY, from: 0, to: 1, client: 9, request: 5, stamp, version, key: K, value }
    }

    /// The number given and the outgoing packet's bytes, the table checked to stay where the step is refused.
    fn node_on(table: &mut Vec<u8>, query: Packet) -> (u8, Vec<u8>) {
        let before = table.clone();
        let mut outlet = [0xEE; OUTLET + 2];
        let given = node(table, &query.bytes(), &mut outlet);
        if given != 0 {
            assert_eq!(*table, before);
            assert_eq!(outlet, [0xEE; OUTLET + 2]);
            return (given, vec![]);
        }
        let end = PACKET_HEAD + usize::from(outlet[18]);
        assert!(outlet[end..].iter().all(|&byte| byte == 0xEE));
        (0, outlet[..end].to_vec())
    }

    /// The version a write leaves in the slot, or the number it is refused with.
    fn write_on(stored: Version, asked: Version) -> Result<Version, u8> {
        let mut table = table_with(0, HOLDS_VALUE, stored, b"old");
        let (given, out) = node_on(&mut table, query(WRITE, 1, asked));
        if given != 0 {
            return Err(given);
        }
        let slot = Table::read(&table).unwrap().slots[0];
        assert_eq!((slot.state, slot.value), (HOLDS_VALUE, &b"A"[..]));
        let out = Packet::read(&out).unwrap();
        assert_eq!(out, Packet { from: 1, to: 0, version: slot.version, ..query(WRITE, 1, asked) });
        Ok(slot.version)
    }

    fn chain(ids: &[u16], session: u16) -> Record {
        let mut places = [0; PLACES];
        places[..ids.len()].copy_from_slice(ids);
        Record { session, ..start(ids.len() as u8, places, 2).unwrap() }
    }

    #[test]
    fn p_1_to_6_numbering() {
        assert_eq!(write_on(version(1, 4294967295), version(1, 0)), Err(11));
        assert_eq!(write_on(version(1, 4294967295), version(2, 0)), Ok(version(2, 1)));
        assert_eq!(write_on(version(2, 3), version(1, 0)), Err(10));
        assert_eq!(write_on(version(1, 9), version(2, 1)), Ok(version(2, 1)));
        assert_eq!(write_on(version(2, 1), version(1, 9)), Err(12));
        assert_eq!(write_on(version(1, 5), version(1, 5)), Err(12));
    }

    #[test]
    fn p_7_8_fence() {
        let mut table = table_with(7, HOLDS_VALUE, version(1, 1), b"");
        let missing = Packet { key: L, ..query(WRITE, 6, version(1, 2)) };
        assert_eq!(node_rows(&table, &missing.bytes(), OUTLET), Rows(vec![7, 9]));
        assert_eq!(node_on(&mut table, missing).0, 7);
        assert_eq!(node_on(&mut table, query(WRITE, 7, version(1, 2))).0, 0);
    }

    #[test]
    fn p_9_read_of_an_entered_key() {
        let mut table = table_with(0, ENTERED, NEVER, b"");
        let (given, out) = node_on(&mut table, query(READ, 1, NEVER));
        let out = Packet::read(&out).unwrap();
        assert_eq!((given, out.answer, out.version, out.value), (0, NO_VALUE, NEVER, &b""[..]));
    }

    #[test]
    fn p_10_to_13_chain() {
        assert_eq!(open(&mut chain(&[1, 2, 3], 1), true, 2, 4), 15);
        assert_eq!(remove(&mut chain(&[1], 1), 1), 18);
        let mut record = chain(&[1, 2, 3], 1);
        assert_eq!(remove(&mut record, 1), 0);
        assert_eq!((record.chain(), record.session), (&[2, 3][..], 2));
        assert_eq!(open(&mut record, false, 2, 4), 0);
        let mut named = table_with(0, HOLDS_VALUE, version(1, 9), b"A");
        named[5] = 2;
        let mut fresh = vec![0; TABLE_HEAD + 2 * SLOT];
        assert_eq!(blank(&mut fresh, 4, 2), 0);
        assert_eq!(fence(&mut record, &mut named), 0);
        assert_eq!(copy(&mut record, 0, &named, &mut fresh), 0);
        assert_eq!(activate(&mut record), 14);
        assert_eq!(copy(&mut record, 1, &named, &mut fresh), 0);
        assert_eq!(activate(&mut record), 0);
        assert_eq!((record.chain(), record.session, record.wiring), (&[4, 2, 3][..], 3, 2));
        assert_eq!(named[TABLE_HEAD..], fresh[TABLE_HEAD..]);
        assert_eq!((named[3], fresh[3]), (2, 0));
    }

    #[test]
    fn packets_by_hand() {
        let typed = b"\x02\x00\x00\x07\x00\x00\x01\x02\x0A\x0B\x0C\x0D\x00\x00\x00\x06\x00\x03\x02\x00\x00\x00\x01\x00k\0\0\0\0\0\0\0\0\0\0\0\0\0\0\0AB";
        let packet = Packet::read(typed).unwrap();
        let fields = Packet {
            op: 2,
            answer: 0,
            from: 7,
            to: 0,
            client: 0x102,
            request: 0x0A0B0C0D,
            stamp: 6,
            version: version(3, 256),
            key: K,
            value: b"AB",
        };
        assert_eq!(packet, fields);
        assert!(std::ptr::eq(packet.value, &typed[40..]));
        let mut outlet = [0xEE; OUTLET];
        assert_eq!(fields.write(&mut outlet), 0);
        assert_eq!((&outlet[..42], outlet[42]), (&typed[..], 0xEE));
        assert_eq!(fields.write(&mut outlet[1..]), 2);
        assert_eq!(Packet { key: &K[1..], ..fields }.write(&mut outlet), 3);
        assert_eq!(Packet { value: &[1; 129], ..fields }.write_rows(167), Rows(vec![2, 3]));
        assert!(Packet { value: &[1; 128], ..fields }.well_formed());
    }

    #[test]
    fn packets_not_well_formed() {
        let written = Packet { answer: WRITTEN, value: b"", ..query(WRITE, 0, version(1, 1)) };
        let value = Packet { op: READ, answer: VALUE, value: b"A", ..written };
        assert!(written.well_formed() && value.well_formed());
        for broken in [
            Packet { op: 0, ..written },
            Packet { op: 4, ..written },
            Packet { answer: 5, ..written },
            Packet { op: READ, ..written },
            Packet { value: b"A", ..written },
            Packet { version: version(1, 0), ..written },
            Packet { version: version(0, 1), ..query(WRITE, 0, NEVER) },
            Packet { version: version(1, 0), ..query(READ, 0, NEVER) },
            Packet { value: b"A", ..query(READ, 0, NEVER) },
            Packet { value: b"A", ..query(DELETE, 0, NEVER) },
            Packet { op: WRITE, ..value },
            Packet { version: NEVER, ..value },
            Packet { answer: NO_VALUE, ..value },
            Packet { answer: NO_VALUE, version: version(1, 0), value: b"", ..value },
            Packet { answer: NO_VALUE, op: DELETE, value: b"", ..value },
            Packet { answer: NO_SUCH_KEY, ..written },
        ] {
            assert_eq!(Packet::read(&broken.bytes()), None, "{broken:?}");
        }
        let mut bytes = written.bytes();
        assert!(Packet::read(&bytes[..39]).is_none());
        bytes[19] = 1;
        assert!(Packet::read(&bytes).is_none());
        bytes[19] = 0;
        bytes.push(0);
        assert!(Packet::read(&bytes).is_none());
    }

    #[test]
    fn slot_by_hand() {
        let mut table = table_with(0, ENTERED, NEVER, b"");
        assert_eq!(table[..8], *b"\0\0\0\0\0\x01\0\x02");
        node_on(&mut table, query(WRITE, 1, version(0x0102, 0x03040506)));
        assert_eq!(table[8..34], *b"k\0\0\0\0\0\0\0\0\0\0\0\0\0\0\0\x02\x01\x01\x02\x03\x04\x05\x06A\0");
        node_on(&mut table, query(DELETE, 1, version(0x0102, 0)));
        assert_eq!(table[8..34], *b"k\0\0\0\0\0\0\0\0\0\0\0\0\0\0\0\x03\0\x01\x02\x03\x04\x05\x07\0\0");
        assert!(table[34..].iter().all(|&byte| byte == 0));
    }

    #[test]
    fn tables_broken() {
        let sound = table_with(3, HOLDS_VALUE, version(1, 1), b"A");
        assert!(Table::read(&sound).is_some());
        assert!(Table::read(&sound[..sound.len() - 1]).is_none());
        assert!(Table::read(&sound[..7]).is_none());
        for (place, byte) in [
            (5, 0),
            (7, 1),
            (24, 0),
            (24, 1),
            (24, 3),
            (24, 4),
            (25, 0),
            (25, 129),
            (27, 0),
            (31, 0),
            (34, 1),
            (160, 1),
            (311, 1),
        ] {
            let mut table = sound.clone();
            table[place] = byte;
            assert!(Table::read(&table).is_none(), "byte {place} as {byte}");
        }
        let mut table = [0xEE; TABLE_HEAD + SLOT];
        assert_eq!((blank(&mut table, 0, 1), blank(&mut table, 1, 0), blank(&mut table, 1, 2)), (1, 1, 1));
        assert_eq!(table, [0xEE; TABLE_HEAD + SLOT]);
    }

    #[test]
    fn lower_of_two_equal_keys_counts() {
        let mut table = table_with(0, HOLDS_VALUE, version(1, 1), b"low");
        slot_part(&mut table, 1)
            .copy_from_slice(&Slot { key: K, state: HOLDS_VALUE, version: version(9, 9), value: b"high" }.bytes());
        let (given, out) = node_on(&mut table, query(READ, 1, NEVER));
        assert_eq!((given, Packet::read(&out).unwrap().value), (0, &b"low"[..]));
    }

    #[test]
    fn all_zero_key_is_found_only_where_entered() {
        let mut table = vec![0; TABLE_HEAD + 2 * SLOT];
        blank(&mut table, 1, 2);
        let read = Packet { key: &[0; KEY], ..query(READ, 1, NEVER) };
        assert_eq!(node_on(&mut table, read).1[1], NO_SUCH_KEY);
        assert_eq!(enter(&chain(&[1], 1), &mut table, 1, &[0; KEY]), 0);
        assert_eq!(node_on(&mut table, read).1[1], NO_VALUE);
    }

    #[test]
    fn node_rows_judged_alone() {
        let table = table_with(7, HOLDS_VALUE, version(1, u32::MAX), b"A");
        let rows = |packet: Packet, outlet| node_rows(&table, &packet.bytes(), outlet).0;
        assert_eq!(rows(Packet { to: 2, ..query(WRITE, 6, version(1, 0)) }, 167), [2, 4, 7, 11]);
        assert_eq!(rows(Packet { from: 1, ..query(DELETE, 6, NEVER) }, 168), [4, 7, 8, 10]);
        assert_eq!(rows(Packet { key: L, ..query(WRITE, 7, NEVER) }, 168), [8]);
        assert_eq!(rows(query(WRITE, 6, version(1, 4)), 168), [7, 12]);
        assert_eq!(rows(Packet { answer: WRITTEN, value: b"", ..query(WRITE, 7, version(2, 1)) }, 168), [4]);
        assert_eq!(rows(query(READ, 6, NEVER), 168), [7]);
        assert_eq!(node_rows(&table[1..], b"", 0).0, [1, 2, 3]);
    }

    #[test]
    fn missing_key_is_answered() {
        let mut table = table_with(0, HOLDS_VALUE, version(1, 1), b"A");
        for (op, asked) in [(READ, NEVER), (WRITE, version(1, 0)), (DELETE, version(1, 0))] {
            let before = table.clone();
            let (given, out) = node_on(&mut table, Packet { key: L, ..query(op, 1, asked) });
            let expected = Packet { answer: NO_SUCH_KEY, from: 1, to: 0, key: L, value: b"", ..query(op, 1, NEVER) };
            assert_eq!((given, Packet::read(&out)), (0, Some(expected)));
            assert_eq!(table, before);
        }
        assert_eq!(node_on(&mut table, Packet { key: L, ..query(WRITE, 1, version(1, 1)) }).0, 9);
    }

    fn relayed(record: &Record, packet: Packet) -> (Outcome, Vec<u8>) {
        let mut outlet = [0xEE; OUTLET];
        let outcome = relay(record, &packet.bytes(), &mut outlet);
        let end = if matches!(outcome, Outcome::Dropped(_)) { 0 } else { PACKET_HEAD + usize::from(outlet[18]) };
        assert!(outlet[end..].iter().all(|&byte| byte == 0xEE));
        (outcome, outlet[..end].to_vec())
    }

    #[test]
    fn relay_hops() {
        let record = Record { wiring: 6, ..chain(&[1, 2, 3], 4) };
        let sent = |op| Packet { to: 0, ..query(op, 0, NEVER) };
        let to = |node, op, version| Packet { to: node, stamp: 6, version, ..query(op, 0, NEVER) };
        let is = |got: (Outcome, Vec<u8>), outcome, packet: Packet| assert_eq!(got, (outcome, packet.bytes()));
        is(relayed(&record, sent(READ)), Outcome::Node(3), to(3, READ, NEVER));
        is(relayed(&record, sent(WRITE)), Outcome::Node(1), to(1, WRITE, version(4, 0)));
        is(relayed(&record, sent(DELETE)), Outcome::Node(1), to(1, DELETE, version(4, 0)));
        let numbered = Packet { from: 2, stamp: 1, version: version(3, 8), ..sent(WRITE) };
        is(relayed(&record, numbered), Outcome::Node(3), to(3, WRITE, version(3, 8)));
        let last = Packet { from: 3, ..numbered };
        let written = Packet { from: 0, stamp: 0, answer: WRITTEN, value: b"", ..last };
        is(relayed(&record, last), Outcome::Client, written);
        let answer = Packet { from: 1, stamp: 1, answer: NO_SUCH_KEY, value: b"", ..sent(WRITE) };
        is(relayed(&record, answer), Outcome::Client, Packet { from: 0, stamp: 0, ..answer });
        let unused = Packet { from: 4, ..numbered };
        assert_eq!(relayed(&record, unused).0, Outcome::Dropped(5));
    }

    #[test]
    fn relay_rows_judged_alone() {
        let record = chain(&[1, 2, 3], 1);
        let rows = |packet: Packet| relay_rows(&record, &packet.bytes(), 168).0;
        let sent = Packet { to: 0, ..query(WRITE, 0, NEVER) };
        assert_eq!(rows(sent), []);
        for strange in [
            Packet { to: 1, ..sent },
            Packet { stamp: 1, ..sent },
            Packet { version: version(1, 0), ..sent },
            Packet { answer: NO_SUCH_KEY, value: b"", ..sent },
            Packet { from: 1, ..sent },
            Packet { from: 1, op: READ, value: b"", ..sent },
            Packet { from: 1, to: 1, version: version(1, 1), ..sent },
        ] {
            assert_eq!(rows(strange), [4], "{strange:?}");
        }
        assert_eq!(rows(Packet { from: 7, ..sent }), [4, 5]);
        let broken = Record { session: 0, ..record };
        assert_eq!(relay_rows(&broken, &sent.bytes()[1..], 167).0, [1, 2, 3]);
    }

    #[test]
    fn relay_stops() {
        let record = chain(&[1, 2, 3], 1);
        let read = Packet { to: 0, ..query(READ, 0, NEVER) };
        let write = Packet { to: 0, ..query(WRITE, 0, NEVER) };
        let from = |node| Packet { from: node, version: version(1, 1), ..write };
        let stops = |after, named| {
            let mut record = record;
            assert_eq!(open(&mut record, after, named, 4), 0);
            [read, write, from(1), from(2), from(3)].map(|packet| relayed(&record, packet).0 == Outcome::Dropped(6))
        };
        assert_eq!(stops(false, 1), [false, true, false, false, false]);
        assert_eq!(stops(false, 2), [false, false, true, false, false]);
        assert_eq!(stops(false, 3), [false, false, false, true, false]);
        assert_eq!(stops(true, 3), [true, false, false, true, false]);
    }

    #[test]
    fn controller_rows_judged_alone() {
        let mut record = Record { wiring: u32::MAX - 1, ..chain(&[1, 2, 3], u16::MAX) };
        assert_eq!(open(&mut record, false, 1, 9), 0);
        assert_eq!(open_rows(&record, true, 2, 9).0, [11, 13, 15, 16]);
        assert_eq!(remove_rows(&record, 1).0, [11, 13]);
        assert_eq!(remove_rows(&record, 9).0, [13, 15]);
        assert_eq!(activate_rows(&record).0, [11, 14]);
        assert_eq!(remove_rows(&chain(&[5], u16::MAX), 5).0, [11, 18]);
        assert_eq!(open_rows(&chain(&[1, 2, 3, 4, 5, 6, 7, 8], 1), false, 9, 0).0, [15, 16, 17]);
        let mut other = table_with(u32::MAX, ENTERED, NEVER, b"");
        other[5] = 7;
        let record = Record { count: 3, wiring: 2, ..record };
        assert_eq!(fence_rows(&record, &other).0, [15, 19, 22]);
        assert_eq!(copy_rows(&record, 0, &other, &other).0, [14, 15, 19]);
        assert_eq!(enter_rows(&record, &other, 8, K).0, [13, 15, 19, 20]);
        let none = chain(&[1], 1);
        assert_eq!(fence_rows(&none, &other[1..]).0, [1, 14]);
        assert_eq!(copy_rows(&none, 0, &other, &other).0, [14]);
        assert_eq!((cancel_rows(&none).0, activate_rows(&none).0), (vec![14], vec![14]));
    }

    #[test]
    fn copy_takes_each_slot_once_in_order() {
        let mut record = chain(&[1], 1);
        let mut named = table_with(0, HOLDS_VALUE, version(1, 1), b"A");
        let mut fresh = vec![0; TABLE_HEAD + 2 * SLOT];
        blank(&mut fresh, 4, 2);
        open(&mut record, true, 1, 4);
        let steps =
            |record: &mut Record, fresh: &mut [u8]| [1, 0, 0, 1, 2].map(|index| copy(record, index, &named, fresh));
        assert_eq!(steps(&mut record, &mut fresh), [14; 5]);
        assert_eq!(fence(&mut record, &mut named.clone()), 0);
        assert_eq!(steps(&mut record, &mut fresh), [14, 0, 14, 0, 14]);
        assert_eq!(fence(&mut record, &mut named), 0);
        assert_eq!((record.next, record.fenced, named[3]), (2, 1, 2));
        assert_eq!(activate(&mut record), 0);
        assert_eq!(record, Record { wiring: 2, ..chain(&[1, 4], 1) });
    }

    #[test]
    fn records_broken() {
        let record = chain(&[3, 1, 2], 1);
        let mut changing = record;
        assert_eq!(open(&mut changing, false, 1, 4), 0);
        for broken in [
            Record { length: 0, ..record },
            Record { length: 9, ..record },
            Record { length: 2, ..record },
            Record { length: 4, ..record },
            Record { ids: [3, 1, 3, 0, 0, 0, 0, 0], ..record },
            Record { highest: 2, ..record },
            Record { session: 0, ..record },
            Record { count: 0, ..record },
            Record { count: 257, ..record },
            Record { kind: 3, ..changing },
            Record { kind: AFTER, ..changing },
            Record { named: 5, ..changing },
            Record { fresh: 3, highest: 3, ..changing },
            Record { highest: 5, ..changing },
            Record { fenced: 2, ..changing },
            Record { next: 1, ..changing },
            Record { fenced: 1, next: 3, ..changing },
            Record { length: 8, ids: [1, 2, 3, 5, 6, 7, 8, 9], fresh: 10, highest: 10, ..changing },
        ] {
            let mut touched = broken;
            assert_eq!(cancel(&mut touched), 1, "{broken:?}");
            assert_eq!(touched, broken);
        }
        assert!(Record { wiring: 0, ..record }.sound().is_some());
        let mut strange = Record { named: 77, fresh: 1, fenced: 9, next: 300, ..record };
        assert_eq!(remove(&mut strange, 2), 0);
        assert_eq!(strange, Record { highest: 3, ..chain(&[3, 1], 1) });
        assert_eq!(start(2, [1, 2, 3, 0, 0, 0, 0, 0], 8), None);
    }

    #[test]
    fn enter_takes_the_lowest_free_slot() {
        let record = chain(&[1, 2], 1);
        let mut table = table_with(0, HOLDS_VALUE, version(1, 1), b"A");
        assert_eq!(enter(&record, &mut table, 1, K), 20);
        assert_eq!(enter(&record, &mut table, 2, L), 15);
        assert_eq!(enter(&record, &mut table, 1, L), 0);
        assert_eq!(table[160..184], *b"l\0\0\0\0\0\0\0\0\0\0\0\0\0\0\0\x01\0\0\0\0\0\0\0");
        assert_eq!(enter_rows(&record, &table, 1, L).0, [20, 21]);
        assert_eq!(enter(&record, &mut table, 1, b"0123456789abcdef"), 21);
    }
}
