//! The structures: what an operation is answered, and which changes it makes.
use crate::data::*;
use crate::heap::Heap;
use crate::probe_index::ProbeIndex;
use crate::region::Region;
use std::collections::{BTreeSet, HashMap, VecDeque};
use std::hash::{BuildHasherDefault, Hasher};

type Answer = Result<(), CallRefusal>;

pub struct MapUnit {
    pub region: Region,
    pub index: ProbeIndex,
}

impl MapUnit {
    #[inline]
    fn apply(&mut self, heap: &Heap, pass: &mut Pass, op: &Op) -> Answer {
        let (Op::Put { key, .. } | Op::Get { key } | Op::Del { key }) = op else {
            unreachable!()
        };
        let at = self.index.find(key);
        let reply = match at {
            Some(slot) => Reply::WasText {
                value: value_of(&self.region.record(slot).body).unwrap(),
            },
            None => Reply::Nothing,
        };
        let change = match (op, at) {
            (Op::Put { key, value }, None) => Change::Insert {
                body: pair_body(key, value),
            },
            (Op::Put { key, value }, Some(slot)) => Change::Replace {
                slot,
                body: pair_body(key, value),
            },
            (Op::Del { .. }, Some(slot)) => Change::Remove { slot },
            _ => return self.region.read(heap, pass, op, reply),
        };
        if at.is_none() {
            self.index.reserve();
        }
        let slot = self.region.operate(heap, pass, &[change], op, reply)?;
        match op {
            Op::Del { .. } => self.index.remove(key),
            _ => self.index.put(key, slot),
        }
        Ok(())
    }
}

pub struct QueueUnit {
    pub region: Region,
    pub items: VecDeque<u64>,
}

impl QueueUnit {
    #[inline]
    fn apply(&mut self, heap: &Heap, pass: &mut Pass, op: &Op) -> Answer {
        match *op {
            Op::Enq { item, .. } => {
                self.items.reserve(1);
                let body = [self.region.next_serial, item, 0, 0, 0, 0, 0, 0];
                let slot = self
                    .region
                    .operate(heap, pass, &[Change::Insert { body }], op, Reply::Nothing)?;
                self.region.next_serial += 1;
                self.items.push_back(slot);
                Ok(())
            }
            Op::Deq { .. } => {
                let Some(&slot) = self.items.front() else {
                    return self.region.read(heap, pass, op, Reply::Nothing);
                };
                let value = self.region.record(slot).body[1];
                self.region
                    .operate(heap, pass, &[Change::Remove { slot }], op, Reply::Was { value })?;
                self.items.pop_front();
                Ok(())
            }
            _ => {
                let number = self.items.len() as u64;
                self.region.read(heap, pass, op, Reply::Count { number })
            }
        }
    }
}

type Ends = (u64, u64);

/// A hash of numbers by one multiplication each.
#[derive(Default)]
pub struct Multiplied(u64);

impl Hasher for Multiplied {
    fn finish(&self) -> u64 {
        self.0
    }

    fn write(&mut self, bytes: &[u8]) {
        for byte in bytes {
            self.write_u64(u64::from(*byte));
        }
    }

    #[inline]
    fn write_u64(&mut self, number: u64) {
        let product = u128::from(self.0 ^ number) * 0x9e37_79b9_7f4a_7c15;
        self.0 = product as u64 ^ (product >> 64) as u64;
    }
}

type ByNumber<K, V> = HashMap<K, V, BuildHasherDefault<Multiplied>>;

pub struct Vertex {
    pub slot: u64,
    pub ends: BTreeSet<Ends>,
}

pub struct GraphUnit {
    pub region: Region,
    pub vertices: ByNumber<u64, Vertex>,
    pub edges: ByNumber<Ends, u64>,
}

impl GraphUnit {
    /// The attribute in a slot, if there is a slot.
    fn was(&self, slot: Option<u64>, at: usize) -> Reply {
        match slot {
            Some(slot) => Reply::Was {
                value: self.region.record(slot).body[at],
            },
            None => Reply::Nothing,
        }
    }

    #[inline]
    fn apply(&mut self, heap: &Heap, pass: &mut Pass, op: &Op) -> Answer {
        match *op {
            Op::AddV { vertex, attr, .. } => self.add_vertex(heap, pass, op, vertex, attr),
            Op::DelV { vertex, .. } => self.del_vertex(heap, pass, op, vertex),
            Op::AddE { from, to, attr, .. } => self.add_edge(heap, pass, op, (from, to), attr),
            Op::DelE { from, to, .. } => self.del_edge(heap, pass, op, (from, to)),
            Op::Vertex { vertex, .. } => {
                let reply = self.was(self.vertices.get(&vertex).map(|found| found.slot), 2);
                self.region.read(heap, pass, op, reply)
            }
            Op::Degree { vertex, .. } => {
                let reply = match self.vertices.get(&vertex) {
                    Some(found) => Reply::Count {
                        number: found.ends.len() as u64,
                    },
                    None => Reply::Nothing,
                };
                self.region.read(heap, pass, op, reply)
            }
            _ => unreachable!(),
        }
    }

    fn add_vertex(&mut self, heap: &Heap, pass: &mut Pass, op: &Op, vertex: u64, attr: u64) -> Answer {
        let at = self.vertices.get(&vertex).map(|found| found.slot);
        let reply = self.was(at, 2);
        let body = [1, vertex, attr, 0, 0, 0, 0, 0];
        let change = match at {
            Some(slot) => Change::Replace { slot, body },
            None => Change::Insert { body },
        };
        let slot = self.region.operate(heap, pass, &[change], op, reply)?;
        self.vertices
            .entry(vertex)
            .or_insert(Vertex {
                slot,
                ends: BTreeSet::new(),
            })
            .slot = slot;
        Ok(())
    }

    /// A vertex goes with its edges, by rising ends, in one entry.
    fn del_vertex(&mut self, heap: &Heap, pass: &mut Pass, op: &Op, vertex: u64) -> Answer {
        let Some(found) = self.vertices.get(&vertex) else {
            return self.region.read(heap, pass, op, Reply::Nothing);
        };
        let reply = self.was(Some(found.slot), 2);
        let mut changes: Vec<Change> = found
            .ends
            .iter()
            .map(|ends| Change::Remove { slot: self.edges[ends] })
            .collect();
        changes.push(Change::Remove { slot: found.slot });
        self.region.operate(heap, pass, &changes, op, reply)?;
        for ends in self.vertices.remove(&vertex).unwrap().ends {
            self.edges.remove(&ends);
            let other = if ends.0 == vertex { ends.1 } else { ends.0 };
            self.vertices.get_mut(&other).unwrap().ends.remove(&ends);
        }
        Ok(())
    }

    fn add_edge(&mut self, heap: &Heap, pass: &mut Pass, op: &Op, ends: Ends, attr: u64) -> Answer {
        let (from, to) = ends;
        if from == to || !self.vertices.contains_key(&from) || !self.vertices.contains_key(&to) {
            return self.region.read(heap, pass, op, Reply::NoEnds);
        }
        let at = self.edges.get(&ends).copied();
        let reply = self.was(at, 3);
        let body = [2, from, to, attr, 0, 0, 0, 0];
        let change = match at {
            Some(slot) => Change::Replace { slot, body },
            None => Change::Insert { body },
        };
        let slot = self.region.operate(heap, pass, &[change], op, reply)?;
        self.edges.insert(ends, slot);
        if at.is_none() {
            self.vertices.get_mut(&from).unwrap().ends.insert(ends);
            self.vertices.get_mut(&to).unwrap().ends.insert(ends);
        }
        Ok(())
    }

    fn del_edge(&mut self, heap: &Heap, pass: &mut Pass, op: &Op, ends: Ends) -> Answer {
        let Some(slot) = self.edges.get(&ends).copied() else {
            return self.region.read(heap, pass, op, Reply::Nothing);
        };
        let reply = self.was(Some(slot), 3);
        self.region.operate(heap, pass, &[Change::Remove { slot }], op, reply)?;
        self.edges.remove(&ends);
        self.vertices.get_mut(&ends.0).unwrap().ends.remove(&ends);
        self.vertices.get_mut(&ends.1).unwrap().ends.remove(&ends);
        Ok(())
    }
}

pub enum Unit {
    Map(MapUnit),
    Queue(QueueUnit),
    Graph(GraphUnit),
}

impl Unit {
    pub fn fresh(layout: &Layout, unit: u64) -> Unit {
        let region = Region::fresh(layout, unit);
        match layout.kinds[unit as usize] {
            UnitKind::Map => Unit::Map(MapUnit {
                region,
                index: ProbeIndex::default(),
            }),
            UnitKind::Queue => Unit::Queue(QueueUnit {
                region,
                items: VecDeque::new(),
            }),
            UnitKind::Graph => Unit::Graph(GraphUnit {
                region,
                vertices: HashMap::default(),
                edges: HashMap::default(),
            }),
        }
    }

    fn region(&self) -> &Region {
        match self {
            Unit::Map(unit) => &unit.region,
            Unit::Queue(unit) => &unit.region,
            Unit::Graph(unit) => &unit.region,
        }
    }

    /// Carries an operation out. The pass keeps the receipt.
    #[inline]
    pub fn apply(&mut self, heap: &Heap, pass: &mut Pass, op: &Op) -> Answer {
        let region = self.region();
        if let Some(by) = region.halted {
            pass.fronts[region.unit as usize] = region.places;
            pass.newest = pass.newest.max(region.newest);
            return Err(CallRefusal::Halted { unit: region.unit, by });
        }
        pass.receipts.reserve(1);
        match self {
            Unit::Map(unit) => unit.apply(heap, pass, op),
            Unit::Queue(unit) => unit.apply(heap, pass, op),
            Unit::Graph(unit) => unit.apply(heap, pass, op),
        }
    }
}
