// Random calls of the register: tables, packets and records that keep the rules and fit each other, near every edge the
// rules speak of, and then, now and then, damaged in a place that a rule looks at.

use crate::calls::{fields_numbers, record_numbers, Call, Case, Fields, Lent};
use crate::dice::Dice;
use crate::rules::{
    Packet, Record, Slot, Table, Version, AFTER, BEFORE, DELETE, DELETED, ENTERED, HOLDS_VALUE, KEY, MOST_SLOTS,
    MOST_VALUE, NEVER, NO_CHANGE, NO_SUCH_KEY, NO_VALUE, OUTLET, PACKET_HEAD, PLACES, QUERY, READ, SLOT, TABLE_HEAD,
    VALUE, WRITE, WRITTEN,
};

const CALLS: [(Call, usize); 15] = [
    (Call::NodeStep, 34),
    (Call::RelayStep, 20),
    (Call::Open, 8),
    (Call::Fence, 6),
    (Call::Copy, 7),
    (Call::Activate, 4),
    (Call::Cancel, 2),
    (Call::Remove, 5),
    (Call::Enter, 7),
    (Call::Start, 3),
    (Call::Blank, 2),
    (Call::PacketRead, 5),
    (Call::PacketWrite, 5),
    (Call::TableGood, 5),
    (Call::Find, 4),
];

const IDS: [u16; 16] = [1, 2, 3, 4, 5, 6, 7, 8, 9, 10, 255, 256, 300, 4_000, 65_534, 65_535];
const COUNTS: [u16; 14] = [1, 1, 2, 2, 2, 3, 3, 4, 5, 7, 8, 9, 16, 17];
const SESSIONS: [u16; 8] = [1, 1, 2, 3, 255, 256, 65_534, 65_535];
const NUMBERS: [u32; 12] = [0, 1, 2, 6, 7, 255, 256, 65_535, 65_536, 16_777_216, u32::MAX - 1, u32::MAX];
const LENGTHS: [usize; 14] = [0, 0, 1, 2, 3, 7, 8, 9, 16, 17, 64, 126, 127, 128];

/// Keys that differ in one byte, each half of a key and both its ends among them.
const KEYS: [&[u8; KEY]; 8] = [
    b"\0\0\0\0\0\0\0\0\0\0\0\0\0\0\0\0",
    b"k\0\0\0\0\0\0\0\0\0\0\0\0\0\0\0",
    b"K\0\0\0\0\0\0\0\0\0\0\0\0\0\0\0",
    b"k\0\0\0\0\0\0\x01\0\0\0\0\0\0\0\0",
    b"k\0\0\0\0\0\0\0\x01\0\0\0\0\0\0\0",
    b"k\0\0\0\0\0\0\0\0\0\0\0\0\0\0\x01",
    b"\0\0\0\0\0\0\0\0\0\0\0\0\0\0\0\x80",
    b"\xFF\xFF\xFF\xFF\xFF\xFF\xFF\xFF\xFF\xFF\xFF\xFF\xFF\xFF\xFF\xFF",
];

/// The places in the record's numbers.
const LENGTH: usize = 0;
const FIRST_ID: usize = 1;
const SESSION: usize = 10;
const HIGHEST: usize = 11;
const COUNT: usize = 12;
pub const KIND: usize = 13;
const NAMED: usize = 14;
const FRESH: usize = 15;
const FENCED: usize = 16;
const NEXT: usize = 17;
const MOST_NUMBERS: usize = 18;

/// The numbers of a packet's fields.
pub fn fields_of(packet: &Packet) -> Vec<u32> {
    let Packet { op, answer, from, to, client, request, stamp, version, value, .. } = *packet;
    let Version { session, sequence } = version;
    let length = value.len() as u8;
    fields_numbers(&Fields { op, answer, from, to, client, request, stamp, session, sequence, length })
}

pub struct Maker {
    pub dice: Dice,
}

impl Maker {
    /// One call with its input.
    pub fn case(&mut self) -> Case {
        let weights = CALLS.map(|(_, weight)| weight);
        let (call, _) = CALLS[self.dice.weighted(&weights)];
        self.case_of(call)
    }

    /// What no struct of the header can hold, for each call that has numbers: every number too large for its member,
    /// and every wrong length.
    pub fn beyond_structs(&mut self) -> Vec<Case> {
        let mut cases = vec![];
        for (call, _) in CALLS {
            for at in 0..MOST_NUMBERS {
                for more in [256, 65_536, 1 << 31] {
                    cases.push(self.renumbered(call, |numbers| {
                        let number = numbers.get_mut(at)?;
                        *number = number.wrapping_add(more);
                        Some(())
                    }));
                }
            }
            for length in 0..=MOST_NUMBERS + 1 {
                cases.push(self.renumbered(call, |numbers| (!numbers.is_empty()).then(|| numbers.resize(length, 0))));
            }
        }
        cases.into_iter().flatten().collect()
    }

    /// A call with its numbers, those of a record or of fields, changed; none where it has no such numbers.
    fn renumbered(&mut self, call: Call, change: impl FnOnce(&mut Vec<u32>) -> Option<()>) -> Option<Case> {
        let mut case = self.case_of(call);
        let Lent { record, fields, .. } = &mut case.lent;
        change(if fields.is_empty() { record } else { fields }).map(|()| case)
    }

    fn case_of(&mut self, call: Call) -> Case {
        let mut case = Case { call, lent: Lent::default(), kind: 0, id: 0, fresh_id: 0, slot: 0, count: 0 };
        match call {
            Call::NodeStep => self.node_step(&mut case),
            Call::RelayStep => self.relay_step(&mut case),
            Call::Open => self.open(&mut case),
            Call::Fence => self.fence(&mut case),
            Call::Copy => self.copy(&mut case),
            Call::Activate | Call::Cancel => self.end_of_change(&mut case),
            Call::Remove => self.remove(&mut case),
            Call::Enter => self.enter(&mut case),
            Call::Start => self.start(&mut case),
            Call::Blank => self.blank(&mut case),
            Call::PacketRead => self.packet_read(&mut case),
            Call::PacketWrite => self.packet_write(&mut case),
            Call::TableGood => self.table_good(&mut case),
            Call::Find => self.find(&mut case),
        }
        case
    }

    // ---- Small things ----

    fn any(&mut self) -> u32 {
        if self.dice.percent(80) {
            self.dice.pick(&NUMBERS)
        } else {
            self.dice.next() as u32
        }
    }

    /// A number, or one beside it, or any.
    fn near(&mut self, number: u32) -> u32 {
        match self.dice.weighted(&[6, 3, 3, 1]) {
            0 => number,
            1 => number.wrapping_add(1),
            2 => number.wrapping_sub(1),
            _ => self.any(),
        }
    }

    fn near16(&mut self, number: u16) -> u16 {
        self.near(number.into()) as u16
    }

    fn id(&mut self) -> u16 {
        self.dice.pick(&IDS)
    }

    /// This id, most often.
    fn mostly(&mut self, id: u16) -> u16 {
        if self.dice.percent(88) {
            id
        } else {
            self.id()
        }
    }

    fn count(&mut self) -> u16 {
        if self.dice.percent(1) {
            self.dice.pick(&[31, 32, 33, 255, MOST_SLOTS])
        } else {
            self.dice.pick(&COUNTS)
        }
    }

    fn bytes(&mut self, length: usize) -> Vec<u8> {
        (0..length).map(|_| self.dice.next() as u8).collect()
    }

    fn key(&mut self) -> Vec<u8> {
        if self.dice.percent(80) {
            self.dice.pick(&KEYS).to_vec()
        } else {
            self.bytes(KEY)
        }
    }

    fn value(&mut self) -> Vec<u8> {
        let length = if self.dice.percent(80) { self.dice.pick(&LENGTHS) } else { self.dice.below(MOST_VALUE + 1) };
        self.bytes(length)
    }

    /// A version with both numbers over 0.
    fn version(&mut self) -> Version {
        Version { session: self.dice.pick(&SESSIONS), sequence: self.any().max(1) }
    }

    /// A version to write with, on either side of the stored one; without sequence about half the time.
    fn version_near(&mut self, stored: Version) -> Version {
        let session = self.near16(stored.session);
        let sequence = if session == 0 || self.dice.percent(45) { 0 } else { self.near(stored.sequence) };
        Version { session, sequence }
    }

    fn outlet(&mut self) -> Vec<u8> {
        let length = match self.dice.weighted(&[60, 25, 7, 8]) {
            0 => OUTLET,
            1 => OUTLET + 1 + self.dice.below(100),
            2 => OUTLET - 1,
            _ => self.dice.below(OUTLET),
        };
        self.bytes(length)
    }

    // ---- Tables ----

    fn slot(&mut self, free: usize) -> Vec<u8> {
        if self.dice.percent(free) {
            return vec![0; SLOT];
        }
        let key = self.key();
        let state = self.dice.pick(&[ENTERED, HOLDS_VALUE, HOLDS_VALUE, DELETED]);
        let version = if state == ENTERED { NEVER } else { self.version() };
        let value = if state == HOLDS_VALUE { self.value() } else { vec![] };
        Slot { key: &key, state, version, value: &value }.bytes()
    }

    fn table(&mut self, fence: u32, id: u16, count: u16) -> Vec<u8> {
        let free = self.dice.pick(&[0, 10, 40]);
        let mut table = fence.to_be_bytes().to_vec();
        table.extend(id.to_be_bytes());
        table.extend(count.to_be_bytes());
        for _ in 0..count {
            table.extend(self.slot(free));
        }
        table
    }

    fn damage_table(&mut self, table: &mut Vec<u8>) {
        let count = (table.len() - TABLE_HEAD) / SLOT;
        let slot = TABLE_HEAD + SLOT * self.dice.below(count);
        match self.dice.below(13) {
            0 => table.truncate(self.dice.below(table.len())),
            1 => table.truncate(table.len() - 1),
            2 => {
                let more = self.dice.pick(&[1, 1, 8, SLOT - 1, SLOT]);
                table.extend(vec![0; more]);
            }
            3 => table.truncate(table.len() - SLOT),
            4 => table[4..6].fill(0),
            5 => {
                let count = self.near16(count as u16);
                table[6..8].copy_from_slice(&count.to_be_bytes());
            }
            6 => table[slot + 16] = self.dice.pick(&[0, 1, 2, 3, 4, 5, 255]),
            7 => table[slot + 17] = self.dice.pick(&[0, 1, 127, 128, 129, 255]),
            8 => table[slot + 18..slot + 20].fill(0),
            9 => table[slot + 20..slot + 24].fill(0),
            10 => table[slot + self.dice.below(SLOT)] ^= 1 << self.dice.below(8),
            11 => table[slot + SLOT - 1] = 1,
            _ => {
                // One slot more than a table may have, in a table of that length.
                *table = self.table(0, 1, MOST_SLOTS + 1);
            }
        }
    }

    /// Damages the table now and then.
    fn damaged_table(&mut self, chance: usize, mut table: Vec<u8>) -> Vec<u8> {
        if self.dice.percent(chance) {
            self.damage_table(&mut table);
        }
        table
    }

    // ---- Packets ----

    /// A well-formed answer.
    fn answer(&mut self) -> (u8, u8, Version, Vec<u8>) {
        let version = self.version();
        match self.dice.below(4) {
            0 => (READ, VALUE, version, self.value()),
            1 => (READ, NO_VALUE, if self.dice.percent(50) { version } else { NEVER }, vec![]),
            2 => (self.dice.pick(&[READ, WRITE, DELETE]), NO_SUCH_KEY, NEVER, vec![]),
            _ => (self.dice.pick(&[WRITE, DELETE]), WRITTEN, version, vec![]),
        }
    }

    /// A query; a write or delete asks with a version near this one.
    fn query(&mut self, stored: Version) -> (u8, u8, Version, Vec<u8>) {
        let op = self.dice.pick(&[READ, WRITE, WRITE, DELETE]);
        let version = if op == READ { NEVER } else { self.version_near(stored) };
        (op, QUERY, version, if op == WRITE { self.value() } else { vec![] })
    }

    fn packet(&mut self, from: u16, to: u16, stamp: u32, key: &[u8], rest: (u8, u8, Version, Vec<u8>)) -> Vec<u8> {
        let (op, answer, version, value) = rest;
        let (client, request) = (self.any() as u16, self.any());
        Packet { op, answer, from, to, client, request, stamp, version, key, value: &value }.bytes()
    }

    /// A packet for the node of a table that keeps the rules, most often about a key it has.
    fn packet_for_node(&mut self, table: &[u8]) -> Vec<u8> {
        let table = Table::read(table).expect("the table keeps the rules");
        let slot = table.slots[self.dice.below(table.slots.len())];
        let key = if self.dice.percent(80) { slot.key.to_vec() } else { self.key() };
        let from = if self.dice.percent(95) { 0 } else { self.id() };
        let to = if self.dice.percent(94) { table.id } else { self.dice.pick(&[0, table.id ^ 1, table.id ^ 256]) };
        let stamp = self.near(table.fence);
        let rest = if self.dice.percent(95) { self.query(slot.version) } else { self.answer() };
        self.packet(from, to, stamp, &key, rest)
    }

    /// A packet for the relay: of a client, of a node that numbered or answered it, or mixed up.
    fn packet_for_relay(&mut self, record: &Record) -> Vec<u8> {
        let key = self.key();
        let node = self.chain_node(record);
        let numbered = self.version();
        match self.dice.weighted(&[8, 8, 4, 4]) {
            0 => {
                let (op, _, _, value) = self.query(NEVER);
                self.packet(0, 0, 0, &key, (op, QUERY, NEVER, value))
            }
            1 => {
                let (op, value) = if self.dice.percent(70) { (WRITE, self.value()) } else { (DELETE, vec![]) };
                let stamp = self.near(record.wiring);
                self.packet(node, 0, stamp, &key, (op, QUERY, numbered, value))
            }
            2 => {
                let (stamp, answer) = (self.near(record.wiring), self.answer());
                self.packet(node, 0, stamp, &key, answer)
            }
            _ => {
                let from = self.dice.pick(&[0, 0, node]);
                let to = self.dice.pick(&[0, 0, node]);
                let stamp = self.dice.pick(&[0, 0, record.wiring]);
                let rest = if self.dice.percent(80) { self.query(NEVER) } else { self.answer() };
                self.packet(from, to, stamp, &key, rest)
            }
        }
    }

    fn damage_packet(&mut self, packet: &mut Vec<u8>) {
        match self.dice.below(13) {
            0 => packet.truncate(self.dice.below(packet.len())),
            1 => packet.truncate(packet.len() - 1),
            2 => packet.push(0),
            3 => packet.extend(vec![7; 130]),
            4 => packet[0] = self.dice.pick(&[0, 1, 2, 3, 4, 255]),
            5 => packet[1] = self.dice.pick(&[0, 1, 2, 3, 4, 5, 255]),
            6 => packet[18] = self.near(packet[18].into()) as u8,
            7 => packet[19] = 1 << self.dice.below(8),
            8 => packet[16..18].fill(0),
            9 => packet[20..24].fill(0),
            10 => packet[23] = 1,
            11 => {
                // One byte more of value than a packet may have, in a packet of that length.
                packet[18] = MOST_VALUE as u8 + 1;
                packet.resize(PACKET_HEAD + MOST_VALUE + 1, 7);
            }
            _ => {
                let length = self.dice.below(PACKET_HEAD + MOST_VALUE + 2);
                *packet = self.bytes(length);
            }
        }
    }

    /// Damages the packet now and then.
    fn damaged_packet(&mut self, chance: usize, mut packet: Vec<u8>) -> Vec<u8> {
        if self.dice.percent(chance) {
            self.damage_packet(&mut packet);
        }
        packet
    }

    // ---- Records ----

    /// So many different ids, in any order, the highest of all but seldom.
    fn ids(&mut self, length: usize) -> Vec<u16> {
        let mut left = IDS.to_vec();
        if self.dice.percent(90) {
            left.truncate(left.len() - 2);
        }
        (0..length).map(|_| left.swap_remove(self.dice.below(left.len()))).collect()
    }

    /// A record that keeps the rules, with a change open so often in a hundred if the ids leave room for one.
    fn record(&mut self, open: usize) -> Record {
        let length = self.dice.pick(&[1, 1, 2, 2, 3, 3, 4, 5, 6, 7, 8, 8]);
        let chain = self.ids(length);
        let mut ids = [0; PLACES];
        ids[..length].copy_from_slice(&chain);
        let most = ids.into_iter().max().unwrap_or(0);
        let highest = most.saturating_add(self.dice.pick(&[0, 0, 1, 5]));
        let (wiring, session, count) = (self.any(), self.dice.pick(&SESSIONS), self.count());
        let none = Record { length: length as u8, ids, wiring, session, highest, count, ..Record::default() };
        if length == PLACES || most == u16::MAX || !self.dice.percent(open) {
            return none;
        }
        let fresh = highest.max(most + 1);
        let kind = self.dice.pick(&[BEFORE, AFTER]);
        let named = if kind == AFTER { chain[length - 1] } else { chain[self.dice.below(length)] };
        let fenced = u8::from(self.dice.percent(75));
        let next = if fenced == 0 { 0 } else { self.next_slot(count) };
        Record { highest: fresh, kind, named, fresh, fenced, next, ..none }
    }

    fn next_slot(&mut self, count: u16) -> u16 {
        match self.dice.weighted(&[3, 3, 2]) {
            0 => count,
            1 => self.dice.below(usize::from(count)) as u16,
            _ => count - 1,
        }
    }

    fn chain_node(&mut self, record: &Record) -> u16 {
        let chain = record.chain().to_vec();
        match self.dice.weighted(&[6, 2, 2, 1]) {
            0 => self.dice.pick(&chain),
            1 => chain[0],
            2 => chain[chain.len() - 1],
            _ => self.id(),
        }
    }

    /// The record as numbers; those of a change that is not open are anything.
    fn numbers(&mut self, record: &Record) -> Vec<u32> {
        let mut numbers = record_numbers(record);
        if record.kind == NO_CHANGE && self.dice.percent(30) {
            numbers[NAMED] = self.any();
            numbers[FRESH] = self.any();
            numbers[FENCED] = self.dice.pick(&[0, 1, 2, 255, 256]);
            numbers[NEXT] = self.any();
        }
        numbers
    }

    fn damage_record(&mut self, numbers: &mut Vec<u32>) {
        let place = FIRST_ID + self.dice.below(PLACES);
        match self.dice.below(16) {
            0 => numbers[LENGTH] = self.near(numbers[LENGTH]),
            1 => numbers[LENGTH] = self.dice.pick(&[0, 9, 255, 256]),
            2 => numbers[place] = self.dice.pick(&[0, 1, 77, 65_535, numbers[FIRST_ID]]),
            3 => numbers[place] = numbers[HIGHEST] + 1,
            4 => numbers[SESSION] = 0,
            5 => numbers[HIGHEST] = self.near(numbers[HIGHEST]),
            6 => numbers[COUNT] = self.dice.pick(&[0, 257, 65_535]),
            7 => numbers[KIND] = self.dice.pick(&[0, 1, 2, 3, 255, 256, 257]),
            8 => numbers[NAMED] = self.dice.pick(&[0, 1, 77, numbers[FIRST_ID], numbers[FRESH]]),
            9 => numbers[FRESH] = self.dice.pick(&[0, numbers[FIRST_ID], numbers[FRESH].wrapping_add(1)]),
            10 => numbers[FENCED] = self.dice.pick(&[0, 1, 2, 256]),
            11 => numbers[NEXT] = self.dice.pick(&[0, 1, numbers[COUNT], numbers[COUNT] + 1, 65_535]),
            12 => {
                // A number whose low half alone would do.
                let at = self.dice.below(numbers.len());
                numbers[at] = numbers[at].wrapping_add(self.dice.pick(&[256, 65_536, 1 << 31]));
            }
            13 => {
                let at = self.dice.below(numbers.len());
                numbers[at] = self.any();
            }
            14 => *numbers = self.change_on_full_chain(),
            _ => {
                let length = self.dice.pick(&[0, 1, 17, 19, 36]);
                numbers.resize(length, 0);
            }
        }
    }

    /// A change that has all but the room it needs: 8 nodes are in the chain.
    fn change_on_full_chain(&mut self) -> Vec<u32> {
        let ids = [1, 2, 3, 4, 5, 6, 7, 8];
        let (kind, named) = self.dice.pick(&[(BEFORE, 1), (BEFORE, 8), (AFTER, 8)]);
        let (wiring, count) = (self.any(), self.count());
        let chain = Record { length: 8, ids, wiring, session: 1, highest: 9, count, ..Record::default() };
        record_numbers(&Record { kind, named, fresh: 9, fenced: 1, next: count, ..chain })
    }

    /// The record as numbers, damaged now and then.
    fn damaged_record(&mut self, chance: usize, record: &Record) -> Vec<u32> {
        let mut numbers = self.numbers(record);
        if self.dice.percent(chance) {
            self.damage_record(&mut numbers);
        }
        numbers
    }

    /// A table for the record's chain: the count is the record's, most often.
    fn table_of(&mut self, record: &Record, id: u16) -> Vec<u8> {
        let fence = if self.dice.percent(40) { 0 } else { self.near(record.wiring) };
        let id = self.mostly(id);
        let count = if self.dice.percent(90) { record.count } else { self.count() };
        let table = self.table(fence, id, count);
        self.damaged_table(7, table)
    }

    // ---- The calls ----

    fn node_step(&mut self, case: &mut Case) {
        let (fence, id, count) = (self.any(), self.id(), self.count());
        let table = self.table(fence, id, count);
        let packet = self.packet_for_node(&table);
        case.lent.table = self.damaged_table(8, table);
        case.lent.packet = self.damaged_packet(10, packet);
        case.lent.outlet = self.outlet();
    }

    fn relay_step(&mut self, case: &mut Case) {
        let record = self.record(60);
        let packet = self.packet_for_relay(&record);
        case.lent.record = self.damaged_record(10, &record);
        case.lent.packet = self.damaged_packet(10, packet);
        case.lent.outlet = self.outlet();
    }

    fn open(&mut self, case: &mut Case) {
        let record = self.record(25);
        case.lent.record = self.damaged_record(10, &record);
        case.kind = self.dice.pick(&[BEFORE, BEFORE, BEFORE, BEFORE, AFTER, AFTER, AFTER, AFTER, AFTER, 0, 3, 255]);
        case.id = self.chain_node(&record);
        let above = record.highest.wrapping_add(1);
        case.fresh_id = if self.dice.percent(70) { above } else { self.near16(record.highest) };
    }

    fn fence(&mut self, case: &mut Case) {
        let record = self.record(92);
        case.lent.record = self.damaged_record(8, &record);
        case.lent.table = self.table_of(&record, record.named.max(1));
    }

    fn copy(&mut self, case: &mut Case) {
        let record = self.record(95);
        case.lent.record = self.damaged_record(7, &record);
        case.lent.table = self.table_of(&record, record.named.max(1));
        case.lent.fresh = self.table_of(&record, record.fresh.max(1));
        case.slot = if self.dice.percent(85) { record.next } else { self.near16(record.next) };
    }

    fn end_of_change(&mut self, case: &mut Case) {
        let record = self.record(90);
        case.lent.record = self.damaged_record(10, &record);
    }

    fn remove(&mut self, case: &mut Case) {
        let record = self.record(20);
        case.lent.record = self.damaged_record(10, &record);
        case.id = self.chain_node(&record);
    }

    fn enter(&mut self, case: &mut Case) {
        let record = self.record(12);
        let id = self.chain_node(&record);
        case.lent.record = self.damaged_record(7, &record);
        case.lent.table = self.table_of(&record, id);
        case.id = id;
        case.lent.key = self.key();
    }

    fn start(&mut self, case: &mut Case) {
        let length = self.dice.pick(&[0, 1, 2, 3, 4, 5, 6, 7, 8, 8, 9, 12]);
        case.lent.ids = self.ids(length);
        if length > 0 && self.dice.percent(15) {
            let at = self.dice.below(length);
            case.lent.ids[at] = self.dice.pick(&[0, case.lent.ids[0]]);
        }
        let before = self.record(50);
        case.lent.record = record_numbers(&before);
        if self.dice.percent(8) {
            let length = self.dice.pick(&[0, 17, 19]);
            case.lent.record.resize(length, 0);
        }
        case.count = self.dice.pick(&[0, 1, 2, 8, 255, 256, 257, 65_535]);
    }

    fn blank(&mut self, case: &mut Case) {
        case.count = if self.dice.percent(70) { self.count() } else { self.dice.pick(&[0, 255, 256, 257]) };
        case.id = if self.dice.percent(85) { self.id() } else { 0 };
        let length = TABLE_HEAD + SLOT * usize::from(case.count);
        let length = if self.dice.percent(75) { length } else { self.near(length as u32) as usize % (2 * length) };
        case.lent.table = self.bytes(length);
    }

    /// A packet of any kind, damaged so often in a hundred.
    fn any_packet(&mut self, damaged: usize) -> Vec<u8> {
        let record = self.record(0);
        let mut packet = self.packet_for_relay(&record);
        if self.dice.percent(40) {
            let table = self.table(7, 1, 2);
            packet = self.packet_for_node(&table);
        }
        self.damaged_packet(damaged, packet)
    }

    fn packet_read(&mut self, case: &mut Case) {
        case.lent.packet = self.any_packet(40);
        let length = if self.dice.percent(88) { 10 } else { self.dice.pick(&[0, 9, 11]) };
        case.lent.fields = (0..length).map(|_| self.dice.below(200) as u32).collect();
    }

    fn packet_write(&mut self, case: &mut Case) {
        let bytes = self.any_packet(0);
        let packet = Packet::read(&bytes).expect("an undamaged packet is well-formed");
        let lent = &mut case.lent;
        lent.fields = fields_of(&packet);
        lent.key = packet.key.to_vec();
        lent.value = packet.value.to_vec();
        lent.outlet = self.outlet();
        let at = self.dice.below(lent.fields.len());
        match self.dice.weighted(&[60, 6, 6, 6, 5, 5, 5, 3]) {
            0 => {}
            1 => lent.fields[at] = lent.fields[at].wrapping_add(self.dice.pick(&[256, 65_536, 1 << 31])),
            2 => lent.fields[at] = self.near(lent.fields[at]),
            3 => lent.fields[at] = self.dice.below(6) as u32,
            4 => lent.value.push(1),
            5 => lent.key.resize(self.dice.pick(&[0, 1, 15, 17, 32]), 1),
            6 => lent.fields.resize(self.dice.pick(&[0, 9, 11]), 0),
            _ => {
                lent.value.resize(self.dice.pick(&[129, 200, 256, 300]), 1);
                lent.fields[9] = lent.value.len() as u32;
            }
        }
    }

    fn table_good(&mut self, case: &mut Case) {
        let (fence, id, count) = (self.any(), self.id(), self.count());
        let table = self.table(fence, id, count);
        case.lent.table = self.damaged_table(55, table);
    }

    fn find(&mut self, case: &mut Case) {
        let (fence, id, count) = (self.any(), self.id(), self.count());
        let table = self.table(fence, id, count);
        case.lent.table = self.damaged_table(30, table);
        case.lent.key = self.key();
        if self.dice.percent(5) {
            let length = self.dice.pick(&[0, 1, 8, 15, 17]);
            case.lent.key.resize(length, 0);
        }
    }
}
