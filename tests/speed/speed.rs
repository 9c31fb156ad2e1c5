// Times the archive against the twin in one run, and prints the table of docs/BENCH.md.
//
// Both are called through pointers to functions with the same slices, in turn, many rounds each; a figure is the best
// round's time for one call. What they return and write must be the same.

#[path = "../reference/dice.rs"]
mod dice;
mod twin;

use dice::Dice;
use std::hint::black_box;
use std::slice::{from_raw_parts, from_raw_parts_mut};
use std::time::Instant;
use twin::{FRONT, HEAD, KEY, MOST_VALUE, NUMBERS, OUTLET, SLOT};

const ROUNDS: usize = 401;
const KEYS: usize = 10_000;

// ---- The two sides ----

type NodeStep = unsafe extern "C" fn(*mut u8, usize, *const u8, usize, *mut u8, usize) -> u8;
type RelayStep = unsafe extern "C" fn(*const u32, usize, *const u8, usize, *mut u8, usize) -> u32;
type TableGood = unsafe extern "C" fn(*const u8, usize) -> u8;
type Find = unsafe extern "C" fn(*const u8, usize, *const u8, usize) -> u32;

extern "C" {
    fn register_node_step(t: *mut u8, tl: usize, p: *const u8, pl: usize, o: *mut u8, ol: usize) -> u8;
    fn register_relay_step(r: *const u32, rl: usize, p: *const u8, pl: usize, o: *mut u8, ol: usize) -> u32;
    fn register_table_good(t: *const u8, tl: usize) -> u8;
    fn register_find(t: *const u8, tl: usize, k: *const u8, kl: usize) -> u32;
}

unsafe extern "C" fn node_step(t: *mut u8, tl: usize, p: *const u8, pl: usize, o: *mut u8, ol: usize) -> u8 {
    twin::node_step(from_raw_parts_mut(t, tl), from_raw_parts(p, pl), from_raw_parts_mut(o, ol))
}

unsafe extern "C" fn relay_step(r: *const u32, rl: usize, p: *const u8, pl: usize, o: *mut u8, ol: usize) -> u32 {
    twin::relay_step(from_raw_parts(r, rl), from_raw_parts(p, pl), from_raw_parts_mut(o, ol))
}

unsafe extern "C" fn table_good(t: *const u8, tl: usize) -> u8 {
    u8::from(!twin::table_good(from_raw_parts(t, tl)))
}

unsafe extern "C" fn find(t: *const u8, tl: usize, k: *const u8, kl: usize) -> u32 {
    twin::find_number(from_raw_parts(t, tl), from_raw_parts(k, kl))
}

struct Side {
    node_step: NodeStep,
    relay_step: RelayStep,
    table_good: TableGood,
    find: Find,
}

const RATTLE: Side = Side {
    node_step: register_node_step,
    relay_step: register_relay_step,
    table_good: register_table_good,
    find: register_find,
};
const RUST: Side = Side { node_step, relay_step, table_good, find };

// ---- What they work on ----

#[derive(Clone)]
struct Work {
    table: Vec<u8>,
    record: [u32; NUMBERS],
    packets: Vec<Vec<u8>>,
    keys: Vec<[u8; KEY]>,
    outlet: [u8; OUTLET],
    /// The sequence that the next numbered write gets; 0 where the packets stay as they are.
    sequence: u32,
    /// All that was returned and sent so far, in one number.
    sum: u64,
}

impl Work {
    fn add(&mut self, number: u32) {
        self.sum = self.sum.wrapping_mul(0x0100_0000_01B3) ^ u64::from(number);
    }

    fn node_steps(&mut self, side: &Side) {
        let step = black_box(side.node_step);
        for index in 0..self.packets.len() {
            let packet = &mut self.packets[index];
            if self.sequence > 0 {
                packet[20..24].copy_from_slice(&self.sequence.to_be_bytes());
                self.sequence += 1;
            }
            // SAFETY: each slice with its own length.
            let number = unsafe {
                let (table, outlet) = (&mut self.table, &mut self.outlet);
                step(table.as_mut_ptr(), table.len(), packet.as_ptr(), packet.len(), outlet.as_mut_ptr(), OUTLET)
            };
            self.add(number.into());
        }
    }

    fn relay_steps(&mut self, side: &Side) {
        let step = black_box(side.relay_step);
        for index in 0..self.packets.len() {
            let packet = &self.packets[index];
            // SAFETY: as above.
            let number = unsafe {
                let (record, outlet) = (&self.record, &mut self.outlet);
                step(record.as_ptr(), NUMBERS, packet.as_ptr(), packet.len(), outlet.as_mut_ptr(), OUTLET)
            };
            self.add(number);
        }
    }

    fn table_checks(&mut self, side: &Side) {
        let check = black_box(side.table_good);
        for _ in 0..self.packets.len() {
            // SAFETY: as above.
            let number = unsafe { check(self.table.as_ptr(), self.table.len()) };
            self.add(number.into());
        }
    }

    fn finds(&mut self, side: &Side) {
        let find = black_box(side.find);
        for index in 0..self.keys.len() {
            // SAFETY: as above.
            let number = unsafe { find(self.table.as_ptr(), self.table.len(), self.keys[index].as_ptr(), KEY) };
            self.add(number);
        }
    }
}

fn bytes(dice: &mut Dice, length: usize) -> Vec<u8> {
    (0..length).map(|_| dice.next() as u8).collect()
}

fn key(dice: &mut Dice) -> [u8; KEY] {
    bytes(dice, KEY).try_into().expect("a key has its size")
}

/// The table of node 1 with every slot used: most hold a value of any length, some are deleted or only entered.
fn table(dice: &mut Dice, count: usize) -> Vec<u8> {
    let mut table = vec![0, 0, 0, 1, 0, 1];
    table.extend((count as u16).to_be_bytes());
    for _ in 0..count {
        let state = [2, 2, 2, 2, 2, 3, 1][dice.below(7)];
        let length = if state == 2 { dice.below(MOST_VALUE + 1) } else { 0 };
        let mut slot = key(dice).to_vec();
        slot.extend([state, length as u8, 0, u8::from(state != 1), 0, 0, 0, u8::from(state != 1)]);
        slot.extend(bytes(dice, length));
        slot.resize(SLOT, 0);
        table.extend(slot);
    }
    table
}

/// Fields in the order of the packet: op, from, to, stamp, session, sequence.
type Fields = (u8, u16, u16, u32, u16, u32);

fn packet(dice: &mut Dice, fields: Fields, key: &[u8], length: usize) -> Vec<u8> {
    let (op, from, to, stamp, session, sequence) = fields;
    let mut packet = vec![op, 0];
    packet.extend([from, to, 9].map(u16::to_be_bytes).concat());
    packet.extend([77, stamp].map(u32::to_be_bytes).concat());
    packet.extend(session.to_be_bytes());
    packet.extend([length as u8, 0]);
    packet.extend(sequence.to_be_bytes());
    packet.extend(key);
    assert_eq!(packet.len(), FRONT);
    packet.extend(bytes(dice, length));
    packet
}

fn slot_key(dice: &mut Dice, table: &[u8]) -> Vec<u8> {
    let slot = dice.below((table.len() - HEAD) / SLOT);
    table[HEAD + SLOT * slot..][..KEY].to_vec()
}

// ---- Timing ----

struct Row {
    name: String,
    rattle: f64,
    rust: f64,
}

/// The best round of each side, in nanoseconds a call. Both must have returned, sent and stored the same.
fn timed(name: String, calls: usize, work: &Work, pass: fn(&mut Work, &Side)) -> Row {
    let mut works = [work.clone(), work.clone()];
    let mut best = [f64::MAX; 2];
    for _ in 0..ROUNDS {
        for (side, (work, best)) in [RATTLE, RUST].iter().zip(works.iter_mut().zip(&mut best)) {
            let began = Instant::now();
            pass(work, side);
            *best = best.min(began.elapsed().as_secs_f64() * 1e9 / calls as f64);
        }
    }
    let [rattle, rust] = &works;
    assert!(rattle.sum == rust.sum && rattle.table == rust.table && rattle.outlet == rust.outlet, "{name} differs");
    Row { name, rattle: best[0], rust: best[1] }
}

fn node_rows(dice: &mut Dice, count: usize) -> Vec<Row> {
    let table = table(dice, count);
    let calls = 16_384 / count;
    let mut row = |name: &str, fields: Fields, hit: bool, sequence: u32| {
        let packets = (0..calls)
            .map(|_| {
                let key = if hit { slot_key(dice, &table) } else { key(dice).to_vec() };
                let length = if fields.0 == 2 { dice.below(MOST_VALUE + 1) } else { 0 };
                packet(dice, fields, &key, length)
            })
            .collect();
        let work = Work { packets, sequence, ..empty(table.clone()) };
        timed(format!("node step, {count} slots: {name}"), calls, &work, Work::node_steps)
    };
    vec![
        row("read, key there", (1, 0, 1, 1, 0, 0), true, 0),
        row("read, key missing", (1, 0, 1, 1, 0, 0), false, 0),
        row("numbered write", (2, 0, 1, 1, 2, 1), true, 1),
        row("unnumbered write", (2, 0, 1, 1, 2, 0), true, 0),
    ]
}

fn empty(table: Vec<u8>) -> Work {
    // Chain 1 2 3, wiring 1, session 1, highest 3, 8 slots, no change.
    let record = [3, 1, 2, 3, 0, 0, 0, 0, 0, 1, 1, 3, 8, 0, 0, 0, 0, 0];
    Work { table, record, packets: vec![], keys: vec![], outlet: [0; OUTLET], sequence: 0, sum: 0 }
}

fn relay_rows(dice: &mut Dice) -> Vec<Row> {
    let calls = 4_096;
    let mut row = |name: &str, fields: Fields| {
        let packets = (0..calls)
            .map(|_| {
                let key = key(dice);
                let length = if fields.0 == 2 { dice.below(MOST_VALUE + 1) } else { 0 };
                packet(dice, fields, &key, length)
            })
            .collect();
        let work = Work { packets, ..empty(vec![]) };
        timed(format!("relay step: {name}"), calls, &work, Work::relay_steps)
    };
    vec![
        row("client's read", (1, 0, 0, 0, 0, 0)),
        row("client's write", (2, 0, 0, 0, 0, 0)),
        row("node's write, to the next", (2, 1, 0, 1, 1, 7)),
        row("last node's write, to the client", (2, 3, 0, 1, 1, 7)),
    ]
}

fn check_row(dice: &mut Dice, count: usize) -> Row {
    let calls = 16_384 / count;
    let work = Work { packets: vec![vec![]; calls], ..empty(table(dice, count)) };
    timed(format!("table check, {count} slots"), calls, &work, Work::table_checks)
}

/// Keys of which a quarter is missing.
fn find_row(dice: &mut Dice, count: usize) -> Row {
    let table = table(dice, count);
    let keys = (0..KEYS)
        .map(|_| {
            let there = slot_key(dice, &table).try_into().expect("a key has its size");
            if dice.percent(25) {
                key(dice)
            } else {
                there
            }
        })
        .collect();
    let work = Work { keys, ..empty(table) };
    timed(format!("find, {count} slots"), KEYS, &work, Work::finds)
}

fn main() {
    let mut dice = Dice(20_250_701);
    let mut rows = vec![];
    for count in [8, 256] {
        rows.extend(node_rows(&mut dice, count));
    }
    rows.extend(relay_rows(&mut dice));
    for count in [8, 256] {
        rows.push(check_row(&mut dice, count));
    }
    for count in [8, 256] {
        rows.push(find_row(&mut dice, count));
    }
    println!("| Call | Rattle, ns | Rust, ns | Rattle / Rust |");
    println!("|---|---:|---:|---:|");
    for Row { name, rattle, rust } in &rows {
        println!("| {name} | {rattle:.0} | {rust:.0} | {:.2} |", rattle / rust);
    }
}
