// Random and damaged calls through the archive and through the reference rules: the number returned and all that was
// lent must be the same afterwards, the outlet behind the packet and what a call only reads included.
//
// NATIVE_SEED and NATIVE_CASES set the seed and the number of random inputs; inputs that no struct of the header can
// hold come first. Each is tried by the archive's export and, where its types can hold it, by the header's wrapper,
// once with every slice at the end of its memory and once at the start; and by the twin of tests/speed, which must make
// the same checks. The run fails at a difference, and if a number that a call can give, or two rows of the refusal
// table that can hold at once, did not come up.

mod calls;
#[path = "../reference/dice.rs"]
mod dice;
mod maker;
#[path = "../reference/rules.rs"]
mod rules;
#[path = "../speed/twin.rs"]
mod twin;

use calls::{fields_held, record_held, record_numbers, Call, Case, Fields, Left, Lent, Rooms, Side, NO_SLOT, SENT};
use dice::Dice;
use maker::{fields_of, Maker, KIND};
use rules::{
    Outcome, Packet, Record, Rows, Table, Version, AFTER, BEFORE, KEY, NO_CHANGE, OUTLET, PLACES, SLOT, TABLE_HEAD,
};
use std::collections::BTreeMap;
use std::fmt::Write;
use std::process::ExitCode;
use std::ptr;

const SEED: u64 = 20_250_601;
const CASES: u64 = 250_000;
const MOST_DIFFERENCES: usize = 3;

/// Each call with the numbers it can give, from document 01's table, and the pairs of rows that can hold at once, the
/// lower given. Rows 1 and 3 leave nothing of a table, record or packet for other rows to speak of.
type Reach = (Call, &'static [u32], &'static [(u8, u8)]);

#[rustfmt::skip]
const REACH: [Reach; 15] = [
    (Call::NodeStep, &[0, 1, 2, 3, 4, 7, 8, 9, 10, 11, 12], &[
        (1, 2), (1, 3), (1, 4), (1, 8), (2, 3), (2, 4), (2, 7), (2, 8), (2, 9), (2, 10), (2, 11), (2, 12), (4, 7),
        (4, 8), (4, 9), (4, 10), (4, 11), (4, 12), (7, 8), (7, 9), (7, 10), (7, 11), (7, 12), (8, 10),
    ]),
    (Call::RelayStep, &[1, 2, 3, 4, 5, 6, CLIENT, NODE], &[
        (1, 2), (1, 3), (1, 4), (2, 3), (2, 4), (2, 5), (2, 6), (4, 5), (4, 6),
    ]),
    (Call::Open, &[0, 1, 11, 13, 15, 16, 17], &[
        (11, 13), (11, 15), (11, 16), (11, 17), (13, 15), (13, 16), (15, 16), (15, 17), (16, 17),
    ]),
    (Call::Fence, &[0, 1, 14, 15, 19, 22], &[(1, 14), (15, 19), (15, 22), (19, 22)]),
    (Call::Copy, &[0, 1, 14, 15, 19], &[(1, 14), (1, 15), (1, 19), (14, 15), (14, 19), (15, 19)]),
    (Call::Activate, &[0, 1, 11, 14], &[(11, 14)]),
    (Call::Cancel, &[0, 1, 14], &[]),
    (Call::Remove, &[0, 1, 11, 13, 15, 18], &[(11, 13), (11, 18), (13, 15), (13, 18)]),
    (Call::Enter, &[0, 1, 13, 15, 19, 20, 21], &[
        (1, 13), (1, 15), (1, 20), (1, 21), (13, 15), (13, 19), (13, 20), (13, 21), (15, 19), (15, 20), (15, 21),
        (19, 20), (19, 21), (20, 21),
    ]),
    (Call::Start, &[0, 1], &[]),
    (Call::Blank, &[0, 1], &[]),
    (Call::PacketRead, &[0, 2, 3], &[(2, 3)]),
    (Call::PacketWrite, &[0, 2, 3], &[(2, 3)]),
    (Call::TableGood, &[0, 1], &[]),
    (Call::Find, &[FOUND, NO_SLOT], &[]),
];

/// In the counts all nodes are one, and so are all slots found.
const CLIENT: u32 = SENT;
const NODE: u32 = SENT + 1;
const FOUND: u32 = 0;

/// The first word of some ways of making a call.
const WRAPPER: &str = "wrapper";
const TWIN: &str = "twin";

/// The numbers of a packet's fields.
const FIELDS: usize = 10;

// ---- What the reference rules make of a case ----

/// The record that the numbers stand for; none if they are not as many, or one does not fit its field. With no change
/// open the numbers of a change say nothing.
fn record_of(numbers: &[u32]) -> Option<Record> {
    let mut numbers = numbers.to_vec();
    if numbers.get(KIND) == Some(&NO_CHANGE.into()) {
        numbers[KIND..].fill(0);
    }
    record_held(&numbers)
}

/// The packet that these fields, key and value stand for; none if a number does not fit its field.
fn packet_of<'a>(fields: &[u32], key: &'a [u8], value: &'a [u8]) -> Option<Packet<'a>> {
    let Fields { op, answer, from, to, client, request, stamp, session, sequence, length } = fields_held(fields)?;
    let version = Version { session, sequence };
    let packet = Packet { op, answer, from, to, client, request, stamp, version, key, value };
    (usize::from(length) == value.len()).then_some(packet)
}

/// The lowest used slot that has the key, of the whole slots there are.
fn find(table: &[u8], key: &[u8]) -> u32 {
    let slots = table.get(TABLE_HEAD..).unwrap_or(&[]).chunks_exact(SLOT);
    let mut used = slots.enumerate().filter(|(_, slot)| slot[KEY] != rules::FREE);
    used.find(|(_, slot)| &slot[..KEY] == key).map_or(NO_SLOT, |(index, _)| index as u32)
}

fn broken(is: bool) -> Rows {
    Rows::default().row(1, is)
}

/// A step that may change the record, if there is one.
fn with_record(lent: &mut Lent, step: impl FnOnce(&mut Record, &mut Lent) -> u8) -> u32 {
    let mut record = record_of(&lent.record).unwrap_or_default();
    let given = step(&mut record, lent);
    if given == 0 {
        lent.record = record_numbers(&record);
    }
    given.into()
}

fn start(lent: &mut Lent, count: u16) -> (Rows, u32) {
    let mut ids = [0; PLACES];
    let fits = lent.ids.len() <= PLACES && lent.record.len() == record_numbers(&Record::default()).len();
    if fits {
        ids[..lent.ids.len()].copy_from_slice(&lent.ids);
    }
    let record = rules::start(lent.ids.len() as u8, ids, count).filter(|_| fits);
    if let Some(record) = record {
        lent.record = record_numbers(&record);
    }
    (broken(record.is_none()), u32::from(record.is_none()))
}

fn packet_read(lent: &mut Lent) -> (Rows, u32) {
    let fields = Packet::read(&lent.packet).map(|packet| fields_of(&packet));
    let rows = Rows::default().row(2, lent.fields.len() != FIELDS).row(3, fields.is_none());
    let given = rows.given();
    if given == 0 {
        lent.fields = fields.expect("row 3 does not hold");
    }
    (rows, given.into())
}

fn packet_write(lent: &mut Lent) -> (Rows, u32) {
    let packet = packet_of(&lent.fields, &lent.key, &lent.value).filter(Packet::well_formed);
    let rows = Rows::default().row(2, lent.outlet.len() < OUTLET).row(3, packet.is_none());
    let given = rows.given();
    if given == 0 {
        packet.expect("row 3 does not hold").write(&mut lent.outlet);
    }
    (rows, given.into())
}

/// The rows that hold, the number given, and what is lent, afterwards.
fn by_rules(case: &Case) -> (Rows, Left) {
    let mut lent = case.lent.clone();
    let record = record_of(&lent.record).unwrap_or_default();
    let (id, fresh, slot, count) = (case.id, case.fresh_id, case.slot, case.count);
    let (rows, number) = match case.call {
        Call::NodeStep => (
            rules::node_rows(&lent.table, &lent.packet, lent.outlet.len()),
            rules::node(&mut lent.table, &lent.packet, &mut lent.outlet).into(),
        ),
        Call::RelayStep => (
            rules::relay_rows(&record, &lent.packet, lent.outlet.len()),
            match rules::relay(&record, &lent.packet, &mut lent.outlet) {
                Outcome::Dropped(number) => number.into(),
                Outcome::Client => SENT,
                Outcome::Node(node) => SENT + u32::from(node),
            },
        ),
        Call::Open if case.kind != BEFORE && case.kind != AFTER => (broken(true), 1),
        Call::Open => (
            rules::open_rows(&record, case.kind == AFTER, id, fresh),
            with_record(&mut lent, |record, _| rules::open(record, case.kind == AFTER, id, fresh)),
        ),
        Call::Fence => (
            rules::fence_rows(&record, &lent.table),
            with_record(&mut lent, |record, lent| rules::fence(record, &mut lent.table)),
        ),
        Call::Copy => (
            rules::copy_rows(&record, slot, &lent.table, &lent.fresh),
            with_record(&mut lent, |record, lent| rules::copy(record, slot, &lent.table, &mut lent.fresh)),
        ),
        Call::Activate => (rules::activate_rows(&record), with_record(&mut lent, |record, _| rules::activate(record))),
        Call::Cancel => (rules::cancel_rows(&record), with_record(&mut lent, |record, _| rules::cancel(record))),
        Call::Remove => {
            (rules::remove_rows(&record, id), with_record(&mut lent, |record, _| rules::remove(record, id)))
        }
        Call::Enter => {
            let key: [u8; KEY] = lent.key[..].try_into().expect("enter's key has its size");
            let rows = rules::enter_rows(&record, &lent.table, id, &key);
            (rows, rules::enter(&record, &mut lent.table, id, &key).into())
        }
        Call::Start => start(&mut lent, count),
        Call::Blank => {
            let given = rules::blank(&mut lent.table, id, count);
            (broken(given == 1), given.into())
        }
        Call::PacketRead => packet_read(&mut lent),
        Call::PacketWrite => packet_write(&mut lent),
        Call::TableGood => {
            let is = Table::read(&lent.table).is_none();
            (broken(is), is.into())
        }
        Call::Find => (Rows::default(), find(&lent.table, &lent.key)),
    };
    (rows, (number, lent))
}

// ---- Differences ----

fn hex(bytes: impl IntoIterator<Item = u8>) -> String {
    bytes.into_iter().fold(String::new(), |mut text, byte| {
        write!(text, "{byte:02x}").expect("a string takes all");
        text
    })
}

fn shown(lent: &Lent) -> String {
    let numbers = |numbers: &[u32]| numbers.iter().map(|number| format!("{number:x}")).collect::<Vec<_>>().join(" ");
    let ids: Vec<u32> = lent.ids.iter().map(|&id| id.into()).collect();
    let parts = [
        ("record", numbers(&lent.record)),
        ("fields", numbers(&lent.fields)),
        ("ids", numbers(&ids)),
        ("table", hex(lent.table.iter().copied())),
        ("fresh", hex(lent.fresh.iter().copied())),
        ("packet", hex(lent.packet.iter().copied())),
        ("outlet", hex(lent.outlet.iter().copied())),
        ("key", hex(lent.key.iter().copied())),
        ("value", hex(lent.value.iter().copied())),
    ];
    let used = parts.iter().filter(|(_, text)| !text.is_empty());
    used.map(|(name, text)| format!("    {name}: {text}\n")).collect()
}

/// The input, all numbers in hexadecimal.
fn input(case: &Case) -> String {
    format!(
        "{:?} kind {:x} id {:x} fresh {:x} slot {:x} count {:x}\n{}",
        case.call,
        case.kind,
        case.id,
        case.fresh_id,
        case.slot,
        case.count,
        shown(&case.lent)
    )
}

fn difference(case: &Case, how: &str, rows: &Rows, expected: &Left, got: &Left) -> String {
    format!(
        "by {how}: {}  the reference, with rows {:?}, gives {}\n{}  the call gave {}\n{}",
        input(case),
        rows.0,
        expected.0,
        shown(&expected.1),
        got.0,
        shown(&got.1)
    )
}

extern "C" {
    fn signal(number: i32, handler: extern "C" fn(i32)) -> usize;
    fn _exit(status: i32) -> !;
}

const SEGMENT: i32 = 11;

/// The call that is being made, for the handler alone.
static mut NOW: *const Case = ptr::null();

/// A page was touched that may not be: the call is named, and the run ends.
extern "C" fn touched(_: i32) {
    // SAFETY: one thread, and the case outlives the call that was interrupted.
    unsafe {
        match NOW.as_ref() {
            Some(case) => println!("memory was touched that was not lent, by {}", input(case)),
            None => println!("memory was touched that is not there"),
        }
        _exit(1)
    }
}

/// The call by the speed table's twin; none where the twin has no such call.
fn by_twin(case: &Case) -> Option<Left> {
    let mut lent = case.lent.clone();
    let number = match case.call {
        Call::NodeStep => twin::node_step(&mut lent.table, &lent.packet, &mut lent.outlet).into(),
        Call::RelayStep => twin::relay_step(&lent.record, &lent.packet, &mut lent.outlet),
        Call::TableGood => u32::from(!twin::table_good(&lent.table)),
        Call::Find => twin::find_number(&lent.table, &lent.key),
        _ => return None,
    };
    Some((number, lent))
}

/// Every way of making the call, with its name.
fn ways(rooms: &Rooms, case: &Case) -> Vec<(String, Left)> {
    // SAFETY: one thread.
    unsafe { NOW = case };
    let mut all = vec![];
    for side in [Side::End, Side::Start] {
        all.push((format!("export, slices at the {side:?}"), rooms.by_export(case, side)));
        all.extend(rooms.by_wrapper(case, side).map(|left| (format!("{WRAPPER}, slices at the {side:?}"), left)));
    }
    all.extend(by_twin(case).map(|left| (TWIN.to_string(), left)));
    // SAFETY: one thread.
    unsafe { NOW = ptr::null() };
    all
}

// ---- Counts ----

#[derive(Default)]
struct Counts {
    made: usize,
    by_wrapper: usize,
    by_twin: usize,
    numbers: BTreeMap<(Call, u32), u64>,
    pairs: BTreeMap<(Call, u8, u8), u64>,
}

impl Counts {
    fn add(&mut self, case: &Case, rows: &Rows, number: u32, ways: &[(String, Left)]) {
        let number = match case.call {
            Call::RelayStep if number > SENT => NODE,
            Call::Find if number < NO_SLOT => FOUND,
            _ => number,
        };
        self.made += ways.len();
        self.by_wrapper += ways.iter().filter(|(how, _)| how.starts_with(WRAPPER)).count();
        self.by_twin += ways.iter().filter(|(how, _)| how.starts_with(TWIN)).count();
        *self.numbers.entry((case.call, number)).or_default() += 1;
        let given = rows.given();
        for &other in rows.0.iter().filter(|&&other| other != given) {
            *self.pairs.entry((case.call, given, other)).or_default() += 1;
        }
    }

    fn of(&self, call: Call, number: u32) -> u64 {
        self.numbers.get(&(call, number)).copied().unwrap_or(0)
    }

    /// What did not come up, in words.
    fn missing(&self) -> Vec<String> {
        let mut missing = vec![];
        for (call, numbers, pairs) in REACH {
            let never = numbers.iter().filter(|&&number| self.of(call, number) == 0);
            missing.extend(never.map(|number| format!("{call:?} never gave {}", name(call, *number))));
            let never = pairs.iter().filter(|(given, other)| !self.pairs.contains_key(&(call, *given, *other)));
            missing
                .extend(never.map(|(given, other)| format!("{call:?}: rows {given} and {other} never held at once")));
        }
        missing
    }

    /// What came up and is not listed.
    fn strange(&self) -> Vec<String> {
        let known = |call| REACH.iter().find(|reach| reach.0 == call).expect("every call is listed");
        let numbers = self.numbers.keys().filter(|(call, number)| !known(*call).1.contains(number));
        let numbers = numbers.map(|(call, number)| format!("{call:?} gave {number}, which is not listed"));
        let pairs = self.pairs.keys().filter(|(call, given, other)| !known(*call).2.contains(&(*given, *other)));
        let pairs = pairs.map(|(call, given, other)| format!("{call:?}: rows {given} and {other} are not listed"));
        numbers.chain(pairs).collect()
    }

    fn print(&self) {
        for (call, numbers, pairs) in REACH {
            let counts: Vec<String> =
                numbers.iter().map(|&number| format!("{} {}", name(call, number), self.of(call, number))).collect();
            let several: u64 = self.pairs.iter().filter(|((of, ..), _)| *of == call).map(|(_, count)| count).sum();
            println!("{:12} {}; {} pairs of rows {several}", format!("{call:?}"), counts.join(", "), pairs.len());
        }
    }
}

fn name(call: Call, number: u32) -> String {
    match (call, number) {
        (Call::Find, FOUND) => "found".to_string(),
        (Call::Find, NO_SLOT) => "none".to_string(),
        (Call::RelayStep, CLIENT) => "client".to_string(),
        (Call::RelayStep, NODE) => "node".to_string(),
        _ => format!("[{number}]"),
    }
}

fn setting(name: &str, default: u64) -> u64 {
    std::env::var(name).map_or(default, |text| text.parse().unwrap_or_else(|_| panic!("{name} is no number: {text}")))
}

fn main() -> ExitCode {
    let (seed, cases) = (setting("NATIVE_SEED", SEED), setting("NATIVE_CASES", CASES));
    println!("seed {seed}, {cases} random inputs");
    // SAFETY: the handler ends the program.
    unsafe { signal(SEGMENT, touched) };
    let rooms = Rooms::new();
    let mut maker = Maker { dice: Dice(seed) };
    let mut counts = Counts::default();
    let mut differences = 0;
    let beyond = maker.beyond_structs();
    for (index, case) in beyond.into_iter().chain((0..cases).map(|_| maker.case())).enumerate() {
        let (rows, expected) = by_rules(&case);
        let ways = ways(&rooms, &case);
        counts.add(&case, &rows, expected.0, &ways);
        for (how, got) in ways.iter().filter(|(_, got)| *got != expected) {
            println!("input {index}, {}", difference(&case, how, &rows, &expected, got));
            differences += 1;
        }
        if differences >= MOST_DIFFERENCES {
            println!("no more is tried");
            return ExitCode::FAILURE;
        }
    }
    counts.print();
    let faults = [counts.missing(), counts.strange()].concat();
    for fault in &faults {
        println!("{fault}");
    }
    let Counts { made, by_wrapper, by_twin, .. } = counts;
    println!("{made} calls, {by_wrapper} of them by wrappers, {by_twin} by the twin: {differences} differ");
    if differences == 0 && faults.is_empty() {
        ExitCode::SUCCESS
    } else {
        ExitCode::FAILURE
    }
}
