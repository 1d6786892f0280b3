//! The slots of a unit, and operations on them.
use crate::data::*;
use crate::heap::Heap;
use std::collections::VecDeque;

/// A record that was written in the epoch at hand, and the slot of the version before it.
struct Written {
    held: Held,
    before: Option<u64>,
}

pub struct Region {
    pub unit: u64,
    first: u64,
    pub records: Vec<Option<Held>>,
    pub free: VecDeque<u64>,
    pub retired: VecDeque<(u64, u64)>,
    pub lost: VecDeque<u64>,
    pub next_identity: u64,
    pub next_serial: u64,
    pub places: u64,
    pub newest: u64,
    pub halted: Option<u64>,
    written: Vec<Written>,
}

impl Region {
    /// Nothing is stored, and all slots are free.
    pub fn fresh(layout: &Layout, unit: u64) -> Region {
        let slots = layout.slots as usize;
        let first = unit * layout.slots;
        Region {
            unit,
            first,
            records: vec![None; slots],
            free: (first..first + layout.slots).collect(),
            retired: VecDeque::with_capacity(slots),
            lost: VecDeque::new(),
            next_identity: 1,
            next_serial: 1,
            places: 0,
            newest: 0,
            halted: None,
            written: Vec::with_capacity(slots),
        }
    }

    /// With what recovery found of the unit, each by rising slot.
    pub fn recovered(layout: &Layout, unit: u64, found: &[Held], lost: &[u64]) -> Region {
        let mut region = Region::fresh(layout, unit);
        region.free.clear();
        let mut open = vec![false; layout.slots as usize];
        for slot in lost {
            open[(slot - region.first) as usize] = true;
        }
        for held in found {
            region.records[(held.slot - region.first) as usize] = Some(*held);
        }
        for place in 0..layout.slots {
            if region.records[place as usize].is_none() && !open[place as usize] {
                region.free.push_back(region.first + place);
            }
        }
        region.retire_found(found);
        region.lost = lost.iter().copied().collect();
        region.next_identity = found.iter().map(|held| held.label.identity).max().unwrap_or(0) + 1;
        if layout.kinds[unit as usize] == UnitKind::Queue {
            region.next_serial = region.greatest_serial(found) + 1;
        }
        region
    }

    /// Superseded versions and removals wait to be closed, by rising identity and version.
    fn retire_found(&mut self, found: &[Held]) {
        let mut sorted = found.to_vec();
        sorted.sort_by_key(|held| (held.label.identity, held.label.version));
        for (at, held) in sorted.iter().enumerate() {
            match sorted.get(at + 1) {
                Some(next) if next.label.identity == held.label.identity => {
                    self.retired.push_back((held.slot, next.label.epoch));
                }
                _ if held.label.kind == Kind::Delete => self.retired.push_back((held.slot, held.label.epoch)),
                _ => {}
            }
        }
    }

    fn greatest_serial(&self, found: &[Held]) -> u64 {
        let mut waits = vec![false; self.records.len()];
        for (slot, _) in &self.retired {
            waits[(slot - self.first) as usize] = true;
        }
        let live = found.iter().filter(|held| !waits[(held.slot - self.first) as usize]);
        live.map(|held| held.body[0]).max().unwrap_or(0)
    }

    #[inline]
    pub fn record(&self, slot: u64) -> &Held {
        self.records[(slot - self.first) as usize].as_ref().unwrap()
    }

    /// The unit is halted for good, by a caller that was cut in it.
    fn halt(&mut self, heap: &Heap, by: u64) -> CallRefusal {
        self.halted = Some(by);
        heap.freeze(self.unit);
        CallRefusal::Cut { unit: self.unit }
    }

    /// Registers the unit at the epoch that the clock shows.
    fn register(&self, heap: &Heap, gate: &mut Fuel) -> Result<u64, Cut> {
        let mut epoch = heap.load_clock(gate)?;
        loop {
            heap.tell(self.unit, epoch, gate)?;
            let clock = heap.confirm(gate)?;
            if clock == epoch {
                return Ok(epoch);
            }
            epoch = clock;
        }
    }

    /// Closes every retired slot from the front that the durable clock lets be closed.
    fn reclaim(&mut self, heap: &Heap, gate: &mut Fuel) -> Result<u64, Cut> {
        let clock = heap.load_durable(gate)?;
        while let Some(&(slot, epoch)) = self.retired.front() {
            if epoch + 2 > clock {
                break;
            }
            heap.close_label(slot, gate)?;
            heap.persist_close(slot, gate)?;
            self.retired.pop_front();
            self.records[(slot - self.first) as usize] = None;
            self.free.push_back(slot);
        }
        Ok(clock)
    }

    /// Closes each slot that a crash left open.
    pub fn sweep(&mut self, heap: &Heap, gate: &mut Fuel) -> Result<(), Cut> {
        while let Some(&slot) = self.lost.front() {
            heap.close_label(slot, gate)?;
            heap.persist_close(slot, gate)?;
            self.lost.pop_front();
            self.free.push_back(slot);
        }
        Ok(())
    }

    /// Writes the record of a change into the first free slot, the label's epoch last.
    #[inline]
    fn put_record(&mut self, heap: &Heap, change: &Change, epoch: u64, gate: &mut Fuel) -> Result<u64, Cut> {
        let slot = *self.free.front().unwrap();
        let (kind, identity, version, body, before) = match *change {
            Change::Insert { body } => (Kind::New, self.next_identity, 1, body, None),
            Change::Replace { slot, body } => {
                let label = self.record(slot).label;
                (Kind::Copy, label.identity, label.version + 1, body, Some(slot))
            }
            Change::Remove { slot } => {
                let label = self.record(slot).label;
                (Kind::Delete, label.identity, label.version + 1, [0; BODY], Some(slot))
            }
        };
        heap.store_word(slot, 1, kind as u64 * 256 + self.unit, gate)?;
        heap.store_word(slot, 2, identity, gate)?;
        heap.store_word(slot, 3, version, gate)?;
        for (at, word) in body.iter().enumerate() {
            heap.store_word(slot, LABEL + at, *word, gate)?;
        }
        heap.store_word(slot, 0, epoch, gate)?;
        self.free.pop_front();
        if kind == Kind::New {
            self.next_identity += 1;
        }
        let label = Label {
            epoch,
            kind,
            unit: self.unit,
            identity,
            version,
        };
        self.written.push(Written {
            held: Held { slot, label, body },
            before,
        });
        Ok(slot)
    }

    /// An operation with changes: room is made where there is too little, the unit registers, writes
    /// the record of each change, lists the slots, and leaves. Answers the slot of the last change.
    #[inline]
    pub fn operate(
        &mut self,
        heap: &Heap,
        pass: &mut Pass,
        changes: &[Change],
        op: &Op,
        reply: Reply,
    ) -> Result<u64, CallRefusal> {
        let need = changes.len() as u64;
        if (self.free.len() as u64) < need {
            self.make_room(heap, pass, need)?;
        }
        let Ok(epoch) = self.register(heap, &mut pass.gate) else {
            return Err(self.halt(heap, pass.number));
        };
        let mut last = 0;
        for change in changes {
            match self.put_record(heap, change, epoch, &mut pass.gate) {
                Ok(slot) => last = slot,
                Err(Cut) => return Err(self.halt(heap, pass.number)),
            }
        }
        heap.list(self.unit, epoch, self.written.iter().map(|one| one.held.slot));
        if heap.leave(self.unit, &mut pass.gate).is_err() {
            return Err(self.halt(heap, pass.number));
        }
        self.settle(epoch);
        self.enter(pass, op, reply, epoch);
        Ok(last)
    }

    #[cold]
    fn make_room(&mut self, heap: &Heap, pass: &mut Pass, need: u64) -> Result<(), CallRefusal> {
        let Ok(clock) = self.reclaim(heap, &mut pass.gate) else {
            return Err(self.halt(heap, pass.number));
        };
        let free = self.free.len() as u64;
        if free >= need {
            return Ok(());
        }
        pass.fronts[self.unit as usize] = self.places;
        pass.newest = pass.newest.max(self.newest);
        pass.durable = pass.durable.max(clock);
        Err(CallRefusal::Full { need, free, clock })
    }

    /// What was written becomes records, and what these supersede is retired.
    fn settle(&mut self, epoch: u64) {
        for one in &self.written {
            self.records[(one.held.slot - self.first) as usize] = Some(one.held);
            if let Some(before) = one.before {
                self.retired.push_back((before, epoch));
                if one.held.label.kind == Kind::Delete {
                    self.retired.push_back((one.held.slot, epoch));
                }
            }
        }
        self.written.clear();
    }

    /// The call has its entry, and the pass keeps the receipt.
    #[inline]
    fn enter(&mut self, pass: &mut Pass, op: &Op, reply: Reply, epoch: u64) {
        let entry = Entry {
            caller: pass.number,
            call: pass.calls,
            op: *op,
            reply,
            epoch,
        };
        pass.receipts.push(Receipt {
            unit: self.unit,
            place: self.places,
            entry,
        });
        self.places += 1;
        self.newest = epoch;
        pass.calls += 1;
        pass.fronts[self.unit as usize] = self.places;
        pass.newest = pass.newest.max(epoch);
    }

    /// An operation without changes.
    #[inline]
    pub fn read(&mut self, heap: &Heap, pass: &mut Pass, op: &Op, reply: Reply) -> Result<(), CallRefusal> {
        match heap.read_entry(&mut pass.gate) {
            Ok(epoch) => {
                self.enter(pass, op, reply, epoch);
                Ok(())
            }
            Err(Cut) => Err(self.halt(heap, pass.number)),
        }
    }
}
