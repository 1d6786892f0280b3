//! What a caller is to do: the same operations as `store_bench` makes.
use crate::data::Op;
use crate::plan::Work;
use crate::text::Text;

/// Operations that come first, and those of a round, of which the ones in the middle are timed.
#[derive(Default)]
pub struct Course {
    pub first: Vec<Op>,
    pub before: Vec<Op>,
    pub timed: Vec<Op>,
    pub after: Vec<Op>,
}

#[derive(Clone, Copy)]
enum Deed {
    Put,
    Get,
    Del,
    Enq,
    Deq,
    AddVertex,
    AddEdge,
    DelEdge,
    Degree,
}

/// The turns of a caller through the units: through its own one, or through all.
#[derive(Clone, Copy)]
pub struct Turns {
    pub caller: u64,
    pub units: u64,
    pub own: bool,
}

/// How many items come and go in a round.
const ITEMS: u64 = 16;

/// How many operations a round has at least, where nothing is made between two of them.
const LONG: u64 = 256;

impl Turns {
    pub const ALONE: Turns = Turns {
        caller: 0,
        units: 1,
        own: true,
    };

    fn many(&self, things: u64) -> u64 {
        if self.own {
            things
        } else {
            things * self.units
        }
    }

    fn ops(&self, deed: Deed, things: u64) -> Vec<Op> {
        (0..self.many(things)).map(|turn| self.op(deed, turn)).collect()
    }

    /// So often that a round is long.
    fn long(&self, deed: Deed, things: u64) -> Vec<Op> {
        let passes = LONG.div_ceil(self.many(things).max(1));
        (0..passes).flat_map(|_| self.ops(deed, things)).collect()
    }

    fn op(&self, deed: Deed, turn: u64) -> Op {
        let (unit, number) = if self.own {
            (self.caller, turn)
        } else {
            (turn % self.units, turn / self.units)
        };
        let (key, next) = (number * self.units + unit, number + 1);
        match deed {
            Deed::Put => Op::Put {
                key: Text::of_number(key),
                value: Text::of_number(next),
            },
            Deed::Get => Op::Get {
                key: Text::of_number(key),
            },
            Deed::Del => Op::Del {
                key: Text::of_number(key),
            },
            Deed::Enq => Op::Enq { unit, item: number },
            Deed::Deq => Op::Deq { unit },
            Deed::AddVertex => Op::AddV {
                unit,
                vertex: number,
                attr: key,
            },
            Deed::AddEdge => Op::AddE {
                unit,
                from: number,
                to: next,
                attr: key,
            },
            Deed::DelEdge => Op::DelE {
                unit,
                from: number,
                to: next,
            },
            Deed::Degree => Op::Degree { unit, vertex: number },
        }
    }
}

impl Course {
    pub fn of(work: Work, turns: Turns, size: u64) -> Course {
        let empty = Course::default();
        match work {
            Work::Put => Course {
                first: turns.ops(Deed::Put, size),
                timed: turns.long(Deed::Put, size),
                ..empty
            },
            Work::Get => Course {
                first: turns.ops(Deed::Put, size),
                timed: turns.long(Deed::Get, size),
                ..empty
            },
            Work::Del => Course {
                before: turns.ops(Deed::Put, size),
                timed: turns.ops(Deed::Del, size),
                ..empty
            },
            Work::Enq => Course {
                first: turns.ops(Deed::Enq, size),
                timed: turns.ops(Deed::Enq, ITEMS),
                after: turns.ops(Deed::Deq, ITEMS),
                ..empty
            },
            Work::Deq => Course {
                first: turns.ops(Deed::Enq, size),
                before: turns.ops(Deed::Enq, ITEMS),
                timed: turns.ops(Deed::Deq, ITEMS),
                ..empty
            },
            Work::AddEdge => Course {
                first: turns.ops(Deed::AddVertex, size + 1),
                timed: turns.ops(Deed::AddEdge, size),
                after: turns.ops(Deed::DelEdge, size),
                ..empty
            },
            Work::Degree => {
                let mut first = turns.ops(Deed::AddVertex, size + 1);
                first.extend(turns.ops(Deed::AddEdge, size));
                Course {
                    first,
                    timed: turns.long(Deed::Degree, size),
                    ..empty
                }
            }
        }
    }
}
