// The register's calls over the archive. All that is lent lies against pages that may not be touched; a call is made
// by the archive's export, and by the header's wrapper where the wrapper's types can hold its input.

use crate::rules::{Record, PLACES};
use std::ffi::c_void;
use std::{mem, ptr, slice};

#[derive(Clone, Copy, Debug, PartialEq, Eq, PartialOrd, Ord)]
pub enum Call {
    NodeStep,
    RelayStep,
    Open,
    Fence,
    Copy,
    Activate,
    Cancel,
    Remove,
    Enter,
    Start,
    Blank,
    PacketRead,
    PacketWrite,
    TableGood,
    Find,
}

/// What calls are lent; a call uses some of it, and what it does not use is empty.
#[derive(Clone, Debug, Default, PartialEq, Eq)]
pub struct Lent {
    pub record: Vec<u32>,
    pub fields: Vec<u32>,
    pub ids: Vec<u16>,
    /// The table, or the named node's.
    pub table: Vec<u8>,
    /// The new node's table.
    pub fresh: Vec<u8>,
    pub packet: Vec<u8>,
    pub outlet: Vec<u8>,
    pub key: Vec<u8>,
    pub value: Vec<u8>,
}

/// One call with its input.
#[derive(Clone, Debug)]
pub struct Case {
    pub call: Call,
    pub lent: Lent,
    pub kind: u8,
    /// The id named, removed, entered at or given to a blank table.
    pub id: u16,
    /// The new node's id.
    pub fresh_id: u16,
    pub slot: u16,
    pub count: u16,
}

/// What a call left behind: the number it returned, and all that it was lent.
pub type Left = (u32, Lent);

/// What the relay's export returns for a packet to the client; to a node it is this and the node's id.
pub const SENT: u32 = 65_536;

/// What find returns where no used slot has the key.
pub const NO_SLOT: u32 = 65_536;

// ---- Memory between pages that may not be touched ----

const PAGE: usize = 4096;
const ROOM: usize = 32 * PAGE;

extern "C" {
    fn mmap(at: *mut c_void, length: usize, protection: i32, flags: i32, file: i32, offset: i64) -> *mut c_void;
    fn mprotect(at: *mut c_void, length: usize, protection: i32) -> i32;
}

const NOTHING: i32 = 0;
const READ_WRITE: i32 = 3;
const PRIVATE_ANONYMOUS: i32 = 0x22;

/// The end of its room at which a slice lies. At the start an empty slice is NULL.
#[derive(Clone, Copy, Debug, PartialEq, Eq)]
pub enum Side {
    End,
    Start,
}

struct Room(*mut u8);

impl Room {
    fn new() -> Room {
        // SAFETY: a mapping of its own, whose inner pages alone may be touched.
        unsafe {
            let whole = mmap(ptr::null_mut(), ROOM + 2 * PAGE, NOTHING, PRIVATE_ANONYMOUS, -1, 0).cast::<u8>();
            assert_ne!(whole as isize, -1, "no memory");
            let inner = whole.add(PAGE);
            assert_eq!(mprotect(inner.cast(), ROOM, READ_WRITE), 0, "no protection");
            Room(inner)
        }
    }

    fn place<T: Copy>(&self, content: &[T], side: Side) -> *mut T {
        let size = mem::size_of_val(content);
        assert!(size <= ROOM);
        if size == 0 && side == Side::Start {
            return ptr::null_mut();
        }
        let offset = if side == Side::End { ROOM - size } else { 0 };
        // SAFETY: the room has `size` bytes from there, and both its ends suit every T that is used.
        unsafe {
            let at = self.0.add(offset).cast::<T>();
            ptr::copy_nonoverlapping(content.as_ptr(), at, content.len());
            at
        }
    }
}

/// What lies in a room now, `length` of it from `at`.
///
/// SAFETY: `at` is from `place` of a slice of that length.
unsafe fn taken<T: Copy>(at: *const T, length: usize) -> Vec<T> {
    if length == 0 {
        vec![]
    } else {
        slice::from_raw_parts(at, length).to_vec()
    }
}

// ---- The header's structs ----

/// The struct of these numbers; none if they are not as many as it has, or one is too large for its member.
pub fn record_held(numbers: &[u32]) -> Option<Record> {
    let &[length, ref ids @ .., wiring, session, highest, count, kind, named, fresh, fenced, next] = numbers else {
        return None;
    };
    let ids: &[u32; PLACES] = ids.try_into().ok()?;
    let mut places = [0; PLACES];
    for (place, &id) in places.iter_mut().zip(ids) {
        *place = id.try_into().ok()?;
    }
    Some(Record {
        length: length.try_into().ok()?,
        ids: places,
        wiring,
        session: session.try_into().ok()?,
        highest: highest.try_into().ok()?,
        count: count.try_into().ok()?,
        kind: kind.try_into().ok()?,
        named: named.try_into().ok()?,
        fresh: fresh.try_into().ok()?,
        fenced: fenced.try_into().ok()?,
        next: next.try_into().ok()?,
    })
}

pub fn record_numbers(record: &Record) -> Vec<u32> {
    let mut numbers = vec![u32::from(record.length)];
    numbers.extend(record.ids.map(u32::from));
    numbers.push(record.wiring);
    numbers.extend([record.session, record.highest, record.count, record.kind.into()].map(u32::from));
    numbers.extend([record.named, record.fresh, record.fenced.into(), record.next].map(u32::from));
    numbers
}

/// All of a packet but its key and its value.
#[repr(C)]
#[derive(Clone, Copy)]
pub struct Fields {
    pub op: u8,
    pub answer: u8,
    pub from: u16,
    pub to: u16,
    pub client: u16,
    pub request: u32,
    pub stamp: u32,
    pub session: u16,
    pub sequence: u32,
    pub length: u8,
}

/// None as in `record_held`.
pub fn fields_held(numbers: &[u32]) -> Option<Fields> {
    let &[op, answer, from, to, client, request, stamp, session, sequence, length] = numbers else { return None };
    Some(Fields {
        op: op.try_into().ok()?,
        answer: answer.try_into().ok()?,
        from: from.try_into().ok()?,
        to: to.try_into().ok()?,
        client: client.try_into().ok()?,
        request,
        stamp,
        session: session.try_into().ok()?,
        sequence,
        length: length.try_into().ok()?,
    })
}

pub fn fields_numbers(fields: &Fields) -> Vec<u32> {
    let mut numbers: Vec<u32> = [fields.op, fields.answer].map(u32::from).to_vec();
    numbers.extend([fields.from, fields.to, fields.client].map(u32::from));
    numbers.extend([fields.request, fields.stamp, fields.session.into(), fields.sequence, fields.length.into()]);
    numbers
}

#[repr(C)]
struct Hop {
    refusal: u8,
    node: u16,
}

// ---- The functions of the archive and of shim.c ----

type Bytes = *const u8;
type BytesMut = *mut u8;

extern "C" {
    fn register_node_step(t: BytesMut, tl: usize, p: Bytes, pl: usize, o: BytesMut, ol: usize) -> u8;
    fn register_relay_step(r: *const u32, rl: usize, p: Bytes, pl: usize, o: BytesMut, ol: usize) -> u32;
    fn register_open(r: *mut u32, rl: usize, kind: u8, named: u16, fresh: u16) -> u8;
    fn register_fence(r: *mut u32, rl: usize, t: BytesMut, tl: usize) -> u8;
    fn register_copy(r: *mut u32, rl: usize, slot: u16, n: Bytes, nl: usize, f: BytesMut, fl: usize) -> u8;
    fn register_activate(r: *mut u32, rl: usize) -> u8;
    fn register_cancel(r: *mut u32, rl: usize) -> u8;
    fn register_remove(r: *mut u32, rl: usize, id: u16) -> u8;
    fn register_enter(r: *const u32, rl: usize, t: BytesMut, tl: usize, id: u16, k: Bytes) -> u8;
    fn register_start(r: *mut u32, rl: usize, ids: *const u16, il: usize, count: u16) -> u8;
    fn register_blank(t: BytesMut, tl: usize, id: u16, count: u16) -> u8;
    fn register_packet_read(p: Bytes, pl: usize, f: *mut u32, fl: usize) -> u8;
    #[rustfmt::skip]
    fn register_packet_write(
        o: BytesMut,
        ol: usize,
        f: *const u32,
        fl: usize,
        k: Bytes,
        kl: usize,
        v: Bytes,
        vl: usize,
    ) -> u8;
    fn register_table_good(t: Bytes, tl: usize) -> u8;
    fn register_find(t: Bytes, tl: usize, k: Bytes, kl: usize) -> u32;

    fn shim_record_size() -> usize;
    fn shim_fields_size() -> usize;
    fn shim_step_node(t: BytesMut, tl: usize, p: Bytes, pl: usize, o: BytesMut, ol: usize) -> i32;
    fn shim_step_relay(r: *const Record, p: Bytes, pl: usize, o: BytesMut, ol: usize) -> Hop;
    fn shim_open_change(r: *mut Record, kind: u8, named: u16, fresh: u16) -> i32;
    fn shim_fence_table(r: *mut Record, t: BytesMut, tl: usize) -> i32;
    fn shim_copy_slot(r: *mut Record, slot: u16, n: Bytes, nl: usize, f: BytesMut, fl: usize) -> i32;
    fn shim_activate_change(r: *mut Record) -> i32;
    fn shim_cancel_change(r: *mut Record) -> i32;
    fn shim_remove_node(r: *mut Record, id: u16) -> i32;
    fn shim_enter_key(r: *const Record, t: BytesMut, tl: usize, id: u16, k: Bytes) -> i32;
    fn shim_start_record(r: *mut Record, ids: *const u16, il: usize, count: u16) -> i32;
    fn shim_blank_table(t: BytesMut, tl: usize, id: u16, count: u16) -> i32;
    fn shim_read_packet(p: Bytes, pl: usize, f: *mut Fields) -> i32;
    fn shim_write_packet(o: BytesMut, ol: usize, f: *const Fields, k: Bytes, kl: usize, v: Bytes, vl: usize) -> i32;
    fn shim_check_table(t: Bytes, tl: usize) -> i32;
    fn shim_find_key(t: Bytes, tl: usize, k: Bytes, kl: usize) -> u32;
}

// ---- Making a call ----

/// A room for each thing that is lent.
pub struct Rooms {
    record: Room,
    fields: Room,
    ids: Room,
    table: Room,
    fresh: Room,
    packet: Room,
    outlet: Room,
    key: Room,
    value: Room,
}

/// Where the bytes and ids of a case lie.
struct Placed {
    ids: *mut u16,
    table: *mut u8,
    fresh: *mut u8,
    packet: *mut u8,
    outlet: *mut u8,
    key: *mut u8,
    value: *mut u8,
}

impl Rooms {
    pub fn new() -> Rooms {
        // SAFETY: two functions that read nothing.
        let sizes = unsafe { [shim_record_size(), shim_fields_size()] };
        assert_eq!(sizes, [mem::size_of::<Record>(), mem::size_of::<Fields>()], "the header's structs are others");
        Rooms {
            record: Room::new(),
            fields: Room::new(),
            ids: Room::new(),
            table: Room::new(),
            fresh: Room::new(),
            packet: Room::new(),
            outlet: Room::new(),
            key: Room::new(),
            value: Room::new(),
        }
    }

    fn place(&self, lent: &Lent, side: Side) -> Placed {
        Placed {
            ids: self.ids.place(&lent.ids, side),
            table: self.table.place(&lent.table, side),
            fresh: self.fresh.place(&lent.fresh, side),
            packet: self.packet.place(&lent.packet, side),
            outlet: self.outlet.place(&lent.outlet, side),
            key: self.key.place(&lent.key, side),
            value: self.value.place(&lent.value, side),
        }
    }

    /// The call by the archive's export.
    pub fn by_export(&self, case: &Case, side: Side) -> Left {
        let lent = &case.lent;
        let at = self.place(lent, side);
        let record = self.record.place(&lent.record, side);
        let fields = self.fields.place(&lent.fields, side);
        // SAFETY: every pointer goes with the length that was placed there; enter's key has its 16 bytes.
        unsafe {
            let number = export(case, &at, record, fields);
            (number, at.taken(lent, taken(record, lent.record.len()), taken(fields, lent.fields.len())))
        }
    }

    /// The call by the header's wrapper; none where its structs cannot hold the numbers.
    pub fn by_wrapper(&self, case: &Case, side: Side) -> Option<Left> {
        let lent = &case.lent;
        let records = held(&lent.record, uses_record(case.call), record_held)?;
        let fields = held(&lent.fields, uses_fields(case.call), fields_held)?;
        let at = self.place(lent, side);
        let record = self.record.place(&records, side);
        let field = self.fields.place(&fields, side);
        // SAFETY: as in `by_export`; a call that takes a struct finds one.
        unsafe {
            let number = wrapper(case, &at, record, field);
            let records = taken(record, records.len()).iter().flat_map(record_numbers).collect();
            let fields = taken(field, fields.len()).iter().flat_map(fields_numbers).collect();
            Some((number, at.taken(lent, records, fields)))
        }
    }
}

/// The struct of these numbers, if the call takes one; none where it cannot hold them.
fn held<T>(numbers: &[u32], used: bool, of: fn(&[u32]) -> Option<T>) -> Option<Vec<T>> {
    if used {
        of(numbers).map(|one| vec![one])
    } else {
        Some(vec![])
    }
}

fn uses_record(call: Call) -> bool {
    !uses_fields(call) && !matches!(call, Call::NodeStep | Call::Blank | Call::TableGood | Call::Find)
}

fn uses_fields(call: Call) -> bool {
    matches!(call, Call::PacketRead | Call::PacketWrite)
}

impl Placed {
    /// SAFETY: placed for `lent`.
    unsafe fn taken(&self, lent: &Lent, record: Vec<u32>, fields: Vec<u32>) -> Lent {
        Lent {
            record,
            fields,
            ids: taken(self.ids, lent.ids.len()),
            table: taken(self.table, lent.table.len()),
            fresh: taken(self.fresh, lent.fresh.len()),
            packet: taken(self.packet, lent.packet.len()),
            outlet: taken(self.outlet, lent.outlet.len()),
            key: taken(self.key, lent.key.len()),
            value: taken(self.value, lent.value.len()),
        }
    }
}

#[rustfmt::skip]
unsafe fn export(case: &Case, at: &Placed, r: *mut u32, f: *mut u32) -> u32 {
    let Case { lent: l, kind, id, fresh_id, slot, count, .. } = case;
    let (rl, fl, tl) = (l.record.len(), l.fields.len(), l.table.len());
    u32::from(match case.call {
        Call::NodeStep => register_node_step(at.table, tl, at.packet, l.packet.len(), at.outlet, l.outlet.len()),
        Call::RelayStep => return register_relay_step(r, rl, at.packet, l.packet.len(), at.outlet, l.outlet.len()),
        Call::Open => register_open(r, rl, *kind, *id, *fresh_id),
        Call::Fence => register_fence(r, rl, at.table, tl),
        Call::Copy => register_copy(r, rl, *slot, at.table, tl, at.fresh, l.fresh.len()),
        Call::Activate => register_activate(r, rl),
        Call::Cancel => register_cancel(r, rl),
        Call::Remove => register_remove(r, rl, *id),
        Call::Enter => register_enter(r, rl, at.table, tl, *id, at.key),
        Call::Start => register_start(r, rl, at.ids, l.ids.len(), *count),
        Call::Blank => register_blank(at.table, tl, *id, *count),
        Call::PacketRead => register_packet_read(at.packet, l.packet.len(), f, fl),
        Call::PacketWrite =>
            register_packet_write(at.outlet, l.outlet.len(), f, fl, at.key, l.key.len(), at.value, l.value.len()),
        Call::TableGood => register_table_good(at.table, tl),
        Call::Find => return register_find(at.table, tl, at.key, l.key.len()),
    })
}

#[rustfmt::skip]
unsafe fn wrapper(case: &Case, at: &Placed, r: *mut Record, f: *mut Fields) -> u32 {
    let Case { lent: l, kind, id, fresh_id, slot, count, .. } = case;
    let tl = l.table.len();
    let number = match case.call {
        Call::NodeStep => shim_step_node(at.table, tl, at.packet, l.packet.len(), at.outlet, l.outlet.len()),
        Call::RelayStep => {
            let hop = shim_step_relay(r, at.packet, l.packet.len(), at.outlet, l.outlet.len());
            return if hop.refusal == 0 { SENT + u32::from(hop.node) } else { hop.refusal.into() };
        }
        Call::Open => shim_open_change(r, *kind, *id, *fresh_id),
        Call::Fence => shim_fence_table(r, at.table, tl),
        Call::Copy => shim_copy_slot(r, *slot, at.table, tl, at.fresh, l.fresh.len()),
        Call::Activate => shim_activate_change(r),
        Call::Cancel => shim_cancel_change(r),
        Call::Remove => shim_remove_node(r, *id),
        Call::Enter => shim_enter_key(r, at.table, tl, *id, at.key),
        Call::Start => shim_start_record(r, at.ids, l.ids.len(), *count),
        Call::Blank => shim_blank_table(at.table, tl, *id, *count),
        Call::PacketRead => shim_read_packet(at.packet, l.packet.len(), f),
        Call::PacketWrite =>
            shim_write_packet(at.outlet, l.outlet.len(), f, at.key, l.key.len(), at.value, l.value.len()),
        Call::TableGood => shim_check_table(at.table, tl),
        Call::Find => return shim_find_key(at.table, tl, at.key, l.key.len()),
    };
    u32::try_from(number).expect("no number is negative")
}
