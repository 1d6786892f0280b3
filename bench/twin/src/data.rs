//! Layouts, operations, replies, receipts and records.
use crate::text::Text;

/// Words of a slot: the epoch, the kind with the unit, identity, version, and the body.
pub const FIELDS: usize = 12;
pub const LABEL: usize = 4;
pub const BODY: usize = 8;
/// The last clock.
pub const LAST: u64 = 1 << 62;

#[derive(Clone, Copy, Debug)]
pub enum Op {
    Put {
        key: Text,
        value: Text,
    },
    Get {
        key: Text,
    },
    Del {
        key: Text,
    },
    Enq {
        unit: u64,
        item: u64,
    },
    Deq {
        unit: u64,
    },
    Len {
        unit: u64,
    },
    AddV {
        unit: u64,
        vertex: u64,
        attr: u64,
    },
    DelV {
        unit: u64,
        vertex: u64,
    },
    AddE {
        unit: u64,
        from: u64,
        to: u64,
        attr: u64,
    },
    DelE {
        unit: u64,
        from: u64,
        to: u64,
    },
    Vertex {
        unit: u64,
        vertex: u64,
    },
    Degree {
        unit: u64,
        vertex: u64,
    },
    /// Of ordered units, which the twin hasn't. It is the largest operation: with it receipts are
    /// as large as the store's.
    #[allow(dead_code)]
    ORange {
        unit: u64,
        from: Text,
        to: Text,
        most: u64,
    },
}

#[derive(Clone, Copy, Debug, PartialEq)]
pub enum Reply {
    Nothing,
    Was { value: u64 },
    WasText { value: Text },
    Count { number: u64 },
    NoEnds,
}

#[derive(Clone, Copy, Debug)]
pub struct Entry {
    pub caller: u64,
    pub call: u64,
    pub op: Op,
    pub reply: Reply,
    pub epoch: u64,
}

/// What a caller is given for an answered call, and keeps. As large as the store's.
#[derive(Clone, Copy, Debug)]
pub struct Receipt {
    pub unit: u64,
    pub place: u64,
    pub entry: Entry,
}

const _: () = assert!(size_of::<Receipt>() == 168);

#[derive(Clone, Copy, PartialEq, Eq, Debug)]
pub enum Kind {
    New = 1,
    Copy = 2,
    Delete = 3,
}

#[derive(Clone, Copy, Debug)]
pub struct Label {
    pub epoch: u64,
    pub kind: Kind,
    pub unit: u64,
    pub identity: u64,
    pub version: u64,
}

/// A record and its slot.
#[derive(Clone, Copy, Debug)]
pub struct Held {
    pub slot: u64,
    pub label: Label,
    pub body: [u64; BODY],
}

/// A change names the slot of the version that it replaces or removes.
#[derive(Clone, Copy, Debug)]
pub enum Change {
    Insert { body: [u64; BODY] },
    Replace { slot: u64, body: [u64; BODY] },
    Remove { slot: u64 },
}

pub fn pair_body(key: &Text, value: &Text) -> [u64; BODY] {
    let (k, v) = (key.words, value.words);
    [key.len, value.len, k[0], k[1], k[2], v[0], v[1], v[2]]
}

pub fn key_of(body: &[u64; BODY]) -> Option<Text> {
    Text::of_words(body[0], [body[2], body[3], body[4]])
}

pub fn value_of(body: &[u64; BODY]) -> Option<Text> {
    Text::of_words(body[1], [body[5], body[6], body[7]])
}

#[derive(Clone, Copy, PartialEq, Eq, Debug)]
pub enum UnitKind {
    Map,
    Queue,
    Graph,
}

#[derive(Clone, Debug)]
pub struct Layout {
    pub letters: String,
    pub kinds: Vec<UnitKind>,
    pub slots: u64,
    pub maps: Vec<u64>,
}

impl Layout {
    pub fn new(letters: &str, slots: u64) -> Layout {
        let kind = |letter| match letter {
            'm' => UnitKind::Map,
            'q' => UnitKind::Queue,
            _ => UnitKind::Graph,
        };
        let kinds: Vec<UnitKind> = letters.chars().map(kind).collect();
        let maps = (0..kinds.len() as u64)
            .filter(|unit| kinds[*unit as usize] == UnitKind::Map)
            .collect();
        Layout {
            letters: letters.to_string(),
            kinds,
            slots,
            maps,
        }
    }

    pub fn units(&self) -> u64 {
        self.kinds.len() as u64
    }

    /// The clock, and the words of each slot.
    pub fn words(&self) -> usize {
        1 + FIELDS * (self.units() * self.slots) as usize
    }

    /// The map unit of a key: its digits as a number, modulo the number of maps.
    #[inline]
    pub fn unit_of_key(&self, key: &Text) -> u64 {
        let maps = self.maps.len() as u64;
        if maps == 1 {
            return self.maps[0];
        }
        let mut number = 0u64;
        for at in 0..key.len {
            if number >= 1 << 60 {
                number %= maps;
            }
            number = number * 10 + u64::from(key.byte(at).wrapping_sub(b'0'));
        }
        self.maps[(number % maps) as usize]
    }

    #[inline]
    pub fn unit_of(&self, op: &Op) -> u64 {
        match *op {
            Op::Put { ref key, .. } | Op::Get { ref key } | Op::Del { ref key } => self.unit_of_key(key),
            Op::Enq { unit, .. }
            | Op::Deq { unit }
            | Op::Len { unit }
            | Op::AddV { unit, .. }
            | Op::DelV { unit, .. }
            | Op::AddE { unit, .. }
            | Op::DelE { unit, .. }
            | Op::Vertex { unit, .. }
            | Op::Degree { unit, .. }
            | Op::ORange { unit, .. } => unit,
        }
    }
}

/// The gate cut.
#[derive(Clone, Copy, Debug)]
pub struct Cut;

/// Asked before each step, as the store's gate is; here it never cuts, but has to be looked at.
pub struct Fuel {
    pub left: Option<u64>,
    pub cuts: u64,
}

impl Fuel {
    pub fn endless() -> Fuel {
        Fuel { left: None, cuts: 0 }
    }

    #[inline]
    pub fn step(&mut self) -> Result<(), Cut> {
        match self.left {
            None => Ok(()),
            Some(0) => {
                self.cuts = self.cuts.saturating_add(1);
                Err(Cut)
            }
            Some(left) => {
                self.left = Some(left - 1);
                Ok(())
            }
        }
    }
}

#[derive(Clone, Copy, Debug)]
#[allow(dead_code)] // what is told by Debug alone
pub enum CallRefusal {
    Halted { unit: u64, by: u64 },
    Full { need: u64, free: u64, clock: u64 },
    Cut { unit: u64 },
}

/// What a caller works with. Passes share no pair of cache lines, as the store's don't.
#[repr(align(128))]
pub struct Pass {
    pub number: u64,
    pub calls: u64,
    pub fronts: Vec<u64>,
    pub synced: Vec<u64>,
    pub newest: u64,
    pub durable: u64,
    pub gate: Fuel,
    pub receipts: Vec<Receipt>,
}

impl Pass {
    pub fn new(number: u64, units: u64) -> Pass {
        Pass {
            number,
            calls: 0,
            fronts: vec![0; units as usize],
            synced: vec![0; units as usize],
            newest: 0,
            durable: 0,
            gate: Fuel::endless(),
            receipts: Vec::new(),
        }
    }
}
