//! The advancer: it passes the units, writes back what they listed, and moves the clock.
use crate::data::*;
use crate::heap::Heap;

#[derive(Clone, Copy, Debug)]
pub enum AdvanceRefusal {
    NotYet { unit: u64, epoch: u64, cut: bool },
    Cut,
    ClockEnd,
}

impl From<Cut> for AdvanceRefusal {
    fn from(_: Cut) -> AdvanceRefusal {
        AdvanceRefusal::Cut
    }
}

#[derive(Clone, Copy, PartialEq, Eq)]
enum Stage {
    Rest,
    Checking { unit: u64 },
    Flushing,
    Ready,
    Clocked,
}

/// An advance that was refused goes on from where it stands.
pub struct Advancer {
    stage: Stage,
    pub clock: u64,
    unit: u64,
    list: Option<Vec<u64>>,
    at: usize,
    field: usize,
    value: Option<u64>,
}

impl Advancer {
    pub fn new(clock: u64) -> Advancer {
        Advancer {
            stage: Stage::Rest,
            clock,
            unit: 0,
            list: None,
            at: 0,
            field: 0,
            value: None,
        }
    }

    pub fn advance(&mut self, heap: &Heap, gate: &mut Fuel) -> Result<u64, AdvanceRefusal> {
        if self.stage == Stage::Rest {
            if self.clock == LAST {
                return Err(AdvanceRefusal::ClockEnd);
            }
            self.stage = Stage::Checking { unit: 0 };
        }
        self.pass_units(heap, gate)?;
        if self.stage == Stage::Flushing {
            self.write_back(heap, gate)?;
            self.stage = Stage::Ready;
        }
        if self.stage == Stage::Ready {
            heap.set_clock(self.clock + 1, gate)?;
            self.clock += 1;
            self.stage = Stage::Clocked;
        }
        heap.persist_clock(self.clock, gate)?;
        self.stage = Stage::Rest;
        Ok(self.clock)
    }

    /// A unit that announces an earlier epoch isn't passed.
    fn pass_units(&mut self, heap: &Heap, gate: &mut Fuel) -> Result<(), AdvanceRefusal> {
        while let Stage::Checking { unit } = self.stage {
            let told = heap.load_told(unit, gate)?;
            if told != 0 && told / 2 < self.clock {
                return Err(AdvanceRefusal::NotYet {
                    unit,
                    epoch: told / 2,
                    cut: told % 2 == 1,
                });
            }
            let next = unit + 1;
            self.stage = if next < heap.layout.units() {
                Stage::Checking { unit: next }
            } else {
                Stage::Flushing
            };
        }
        Ok(())
    }

    /// The words of the slots that the units listed in the epoch before the clock get durable.
    fn write_back(&mut self, heap: &Heap, gate: &mut Fuel) -> Result<(), Cut> {
        while self.unit < heap.layout.units() {
            let listed = self.list.take().or_else(|| heap.take_listed(self.unit, self.clock - 1));
            if let Some(list) = listed {
                let flushed = self.flush(heap, &list, gate);
                if flushed.is_err() {
                    self.list = Some(list);
                    return flushed;
                }
                heap.give_empty(self.unit, self.clock - 1, list);
                self.at = 0;
            }
            self.unit += 1;
        }
        self.unit = 0;
        Ok(())
    }

    #[inline]
    fn flush(&mut self, heap: &Heap, list: &[u64], gate: &mut Fuel) -> Result<(), Cut> {
        while self.at < list.len() {
            let slot = list[self.at];
            while self.field < FIELDS {
                let value = match self.value {
                    Some(value) => value,
                    None => heap.load_word(slot, self.field, gate)?,
                };
                self.value = Some(value);
                heap.persist_word(slot, self.field, value, gate)?;
                self.value = None;
                self.field += 1;
            }
            self.field = 0;
            self.at += 1;
        }
        Ok(())
    }
}
