// Document 01's bench over the reference rules: its nodes, parcels and lines.

#[path = "rules.rs"]
pub mod rules;

use rules::{Outcome, Packet, Record};

pub const FIRST_NODES: u16 = 3;
pub const SLOTS: u16 = 8;
pub const MOST_ID: u64 = 8;
pub const MOST_PARCELS: usize = 64;
pub const MOST_LINE: usize = 64;
pub const MOST_WORD: usize = 16;

pub const HALTED: u8 = 23;
pub const NOT_UNDERSTOOD: u8 = 24;

#[derive(Clone, Copy, Debug, PartialEq, Eq)]
pub enum Place {
    Relay,
    Client,
    Node(u16),
}

#[derive(Clone, Debug)]
pub struct Parcel {
    pub to: Place,
    pub bytes: Vec<u8>,
}

/// A line that was understood; node ids and parcel numbers as they were typed.
#[derive(Clone, Copy, Debug, PartialEq, Eq)]
pub enum Line<'a> {
    Enter(u64, &'a [u8]),
    Send(u8, &'a [u8], &'a [u8]),
    Deliver(u64),
    Halt(u64),
    Open(bool, u64, u64),
    Fence,
    Copy,
    Activate,
    Cancel,
    Remove(u64),
}

impl<'a> Line<'a> {
    /// None if the line is not understood.
    pub fn read(line: &'a [u8]) -> Option<Line<'a>> {
        if line.len() > MOST_LINE {
            return None;
        }
        let words: Vec<&[u8]> = line.split(|&byte| byte == b' ').collect();
        match words[..] {
            [b"enter", node, key] => Some(Line::Enter(number(node)?, text(key)?)),
            [b"send", b"r", key] => Some(Line::Send(rules::READ, text(key)?, b"")),
            [b"send", b"d", key] => Some(Line::Send(rules::DELETE, text(key)?, b"")),
            [b"send", b"w", key, value] => Some(Line::Send(rules::WRITE, text(key)?, text(value)?)),
            [b"deliver", parcel] => Some(Line::Deliver(number(parcel)?)),
            [b"halt", node] => Some(Line::Halt(number(node)?)),
            [b"open", b"b", node, fresh] => Some(Line::Open(false, number(node)?, number(fresh)?)),
            [b"open", b"a", node, fresh] => Some(Line::Open(true, number(node)?, number(fresh)?)),
            [b"fence"] => Some(Line::Fence),
            [b"copy"] => Some(Line::Copy),
            [b"activate"] => Some(Line::Activate),
            [b"cancel"] => Some(Line::Cancel),
            [b"remove", node] => Some(Line::Remove(number(node)?)),
            _ => None,
        }
    }
}

/// A key or a value: 1 to 16 letters or digits.
fn text(word: &[u8]) -> Option<&[u8]> {
    let sound = (1..=MOST_WORD).contains(&word.len()) && word.iter().all(u8::is_ascii_alphanumeric);
    sound.then_some(word)
}

/// Decimal digits; a number too large for anything stays too large.
fn number(word: &[u8]) -> Option<u64> {
    let digits = !word.is_empty() && word.iter().all(u8::is_ascii_digit);
    let more = |high: u64, &digit: &u8| high.saturating_mul(10).saturating_add(u64::from(digit - b'0'));
    digits.then(|| word.iter().fold(0, more))
}

fn padded(key: &[u8]) -> [u8; rules::KEY] {
    let mut whole = [0; rules::KEY];
    whole[..key.len()].copy_from_slice(key);
    whole
}

fn blank_table(id: u16) -> Vec<u8> {
    let mut table = vec![0; rules::TABLE_HEAD + rules::SLOT * usize::from(SLOTS)];
    assert_eq!(rules::blank(&mut table, id, SLOTS), 0);
    table
}

/// What a line gives: the parcel made, if any, or the number it is refused with.
type Given = Result<Option<Parcel>, u8>;

fn made_nothing(number: u8) -> Given {
    if number == 0 {
        Ok(None)
    } else {
        Err(number)
    }
}

#[derive(Clone, Debug)]
pub struct World {
    pub record: Record,
    /// By node id; empty for a node that is not known.
    pub tables: [Vec<u8>; MOST_ID as usize + 1],
    pub halted: [bool; MOST_ID as usize + 1],
    pub parcels: Vec<Parcel>,
    pub lines: u64,
}

impl World {
    pub fn new() -> World {
        let record = rules::start(FIRST_NODES as u8, [1, 2, 3, 0, 0, 0, 0, 0], SLOTS).expect("three nodes are a chain");
        let mut tables: [Vec<u8>; MOST_ID as usize + 1] = Default::default();
        for id in 1..=FIRST_NODES {
            tables[usize::from(id)] = blank_table(id);
        }
        World { record, tables, halted: Default::default(), parcels: vec![], lines: 0 }
    }

    /// The output line of one input line.
    pub fn line(&mut self, line: &[u8]) -> Vec<u8> {
        self.lines += 1;
        let (result, made) = match self.step(line) {
            Err(number) => (number, None),
            Ok(made) => (0, made),
        };
        let mut out = format!("{} {result} ", self.lines).into_bytes();
        match made {
            None => out.extend(b"0 - 0.0 -"),
            Some(parcel) => {
                self.parcels.push(parcel.clone());
                out.extend(columns(self.parcels.len(), &parcel));
            }
        }
        out.push(b'\n');
        out
    }

    /// 24 is tried first, then 23, then the step's own numbers.
    fn step(&mut self, line: &[u8]) -> Given {
        let line = Line::read(line).ok_or(NOT_UNDERSTOOD)?;
        if self.not_understood(line) {
            return Err(NOT_UNDERSTOOD);
        }
        if self.needs_a_halted_node(line) {
            return Err(HALTED);
        }
        self.take(line)
    }

    pub fn known(&self, id: u64) -> bool {
        id <= MOST_ID && !self.tables[id as usize].is_empty()
    }

    fn parcel(&self, number: u64) -> Option<&Parcel> {
        self.parcels.get(usize::try_from(number).ok()?.checked_sub(1)?)
    }

    /// Row 24, of a line whose words are in order.
    fn not_understood(&self, line: Line) -> bool {
        let full = self.parcels.len() == MOST_PARCELS;
        match line {
            Line::Enter(node, _) | Line::Halt(node) => !self.known(node),
            Line::Send(..) => full,
            Line::Deliver(parcel) => full || self.parcel(parcel).is_none_or(|parcel| parcel.to == Place::Client),
            Line::Open(_, named, fresh) => !self.known(named) || fresh > MOST_ID,
            Line::Remove(node) => !self.known(node) || !self.halted[node as usize],
            Line::Fence | Line::Copy | Line::Activate | Line::Cancel => false,
        }
    }

    /// Row 23.
    fn needs_a_halted_node(&self, line: Line) -> bool {
        let needed = match line {
            Line::Enter(node, _) => vec![node as u16],
            Line::Deliver(parcel) => match self.parcel(parcel).map(|parcel| parcel.to) {
                Some(Place::Node(node)) => vec![node],
                _ => vec![],
            },
            Line::Fence => self.record.change().map_or(vec![], |change| vec![change.named]),
            Line::Copy => self.record.change().map_or(vec![], |change| vec![change.named, change.fresh]),
            _ => vec![],
        };
        needed.into_iter().any(|node| self.halted[usize::from(node)])
    }

    fn take(&mut self, line: Line) -> Given {
        match line {
            Line::Enter(node, key) => {
                made_nothing(rules::enter(&self.record, &mut self.tables[node as usize], node as u16, &padded(key)))
            }
            Line::Send(op, key, value) => Ok(Some(self.sent(op, key, value))),
            Line::Deliver(parcel) => self.deliver(parcel),
            Line::Halt(node) => {
                self.halted[node as usize] = true;
                Ok(None)
            }
            Line::Open(after, named, fresh) => made_nothing(self.open(after, named as u16, fresh as u16)),
            Line::Fence => made_nothing(self.fence()),
            Line::Copy => made_nothing(self.copy()),
            Line::Activate => made_nothing(rules::activate(&mut self.record)),
            Line::Cancel => made_nothing(rules::cancel(&mut self.record)),
            Line::Remove(node) => made_nothing(rules::remove(&mut self.record, node as u16)),
        }
    }

    /// A client's packet on its way to the relay; client and request show in no column.
    fn sent(&self, op: u8, key: &[u8], value: &[u8]) -> Parcel {
        let request = self.parcels.len() as u32 + 1;
        let packet = Packet {
            op,
            answer: rules::QUERY,
            from: 0,
            to: 0,
            client: 1,
            request,
            stamp: 0,
            version: rules::NEVER,
            key: &padded(key),
            value,
        };
        let mut outlet = [0; rules::OUTLET];
        assert_eq!(packet.write(&mut outlet), 0);
        parcel_from(Place::Relay, &outlet)
    }

    fn deliver(&mut self, parcel: u64) -> Given {
        let parcel = self.parcel(parcel).expect("24 was tried").clone();
        let mut outlet = [0; rules::OUTLET];
        let to = match parcel.to {
            Place::Relay => match rules::relay(&self.record, &parcel.bytes, &mut outlet) {
                Outcome::Node(node) => Ok(Place::Node(node)),
                Outcome::Client => Ok(Place::Client),
                Outcome::Dropped(number) => Err(number),
            },
            Place::Node(node) => match rules::node(&mut self.tables[usize::from(node)], &parcel.bytes, &mut outlet) {
                0 => Ok(Place::Relay),
                number => Err(number),
            },
            Place::Client => unreachable!("24 was tried"),
        };
        Ok(Some(parcel_from(to?, &outlet)))
    }

    fn open(&mut self, after: bool, named: u16, fresh: u16) -> u8 {
        let number = rules::open(&mut self.record, after, named, fresh);
        if number == 0 {
            self.tables[usize::from(fresh)] = blank_table(fresh);
        }
        number
    }

    /// The named and the new node; with no change open any two do, as the step is refused whatever their tables hold.
    fn meant(&self) -> (usize, usize) {
        self.record.change().map_or((1, 2), |change| (usize::from(change.named), usize::from(change.fresh)))
    }

    fn fence(&mut self) -> u8 {
        let (named, _) = self.meant();
        rules::fence(&mut self.record, &mut self.tables[named])
    }

    fn copy(&mut self) -> u8 {
        let (named, fresh) = self.meant();
        let source = self.tables[named].clone();
        let next = self.record.next;
        rules::copy(&mut self.record, next, &source, &mut self.tables[fresh])
    }
}

/// The packet at the start of an outlet, as a parcel.
fn parcel_from(to: Place, outlet: &[u8]) -> Parcel {
    let bytes = outlet[..rules::PACKET_HEAD + usize::from(outlet[18])].to_vec();
    Parcel { to, bytes }
}

fn columns(number: usize, parcel: &Parcel) -> Vec<u8> {
    let packet = Packet::read(&parcel.bytes).expect("only well-formed packets are made");
    let to = match parcel.to {
        Place::Relay => "r".to_string(),
        Place::Client => "c".to_string(),
        Place::Node(node) => node.to_string(),
    };
    let mut out = format!("{number} {to} {}.{} ", packet.version.session, packet.version.sequence).into_bytes();
    out.extend(if packet.value.is_empty() { b"-" } else { packet.value });
    out
}

/// The lines of a script: each ends at a newline or at the end; nothing after the last newline is no line.
pub fn lines(script: &[u8]) -> Vec<&[u8]> {
    let mut lines: Vec<&[u8]> = script.split(|&byte| byte == b'\n').collect();
    lines.pop_if(|last| last.is_empty());
    lines
}
