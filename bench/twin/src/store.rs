//! The store: units behind their locks, the advancer behind its own, and the calls.
use crate::advancer::{AdvanceRefusal, Advancer};
use crate::data::*;
use crate::heap::Heap;
use crate::units::Unit;
use std::sync::Mutex;

/// A lock that shares no pair of cache lines with another, as the store's don't.
#[repr(align(128))]
pub struct Apart<T>(pub Mutex<T>);

pub struct Store {
    pub heap: Heap,
    units: Vec<Apart<Box<Unit>>>,
    advancer: Apart<Advancer>,
}

#[derive(Clone, Copy, Debug)]
#[allow(dead_code)] // what is told by Debug alone
pub enum SyncRefusal {
    Stuck { unit: u64, epoch: u64 },
    Cut,
    ClockEnd,
}

/// What a store leaves.
pub struct Stopped {
    pub current: Vec<u64>,
    pub durable: Vec<u64>,
    pub histories: Vec<Vec<Entry>>,
}

impl Store {
    /// A store that was never used, and the passes of its callers.
    pub fn fresh(layout: Layout, callers: u64) -> (Store, Vec<Pass>) {
        let passes = (0..callers).map(|caller| Pass::new(caller, layout.units())).collect();
        let units = (0..layout.units())
            .map(|unit| Apart(Mutex::new(Box::new(Unit::fresh(&layout, unit)))))
            .collect();
        let advancer = Apart(Mutex::new(Advancer::new(2)));
        (
            Store {
                heap: Heap::fresh(layout),
                units,
                advancer,
            },
            passes,
        )
    }

    /// Carries an operation out under its unit's lock, and answers the receipt, which the pass keeps.
    #[inline]
    pub fn call(&self, pass: &mut Pass, op: &Op) -> Result<Receipt, CallRefusal> {
        let unit = self.heap.layout.unit_of(op);
        self.units[unit as usize]
            .0
            .lock()
            .unwrap()
            .apply(&self.heap, pass, op)?;
        Ok(*pass.receipts.last().unwrap())
    }

    /// One advance, or the rest of the one that is under way. The pass takes a note of the clock.
    pub fn tick(&self, pass: &mut Pass) -> Result<u64, AdvanceRefusal> {
        let mut advancer = self.advancer.0.lock().unwrap();
        let answer = advancer.advance(&self.heap, &mut pass.gate);
        if let Ok(clock) = answer {
            pass.durable = pass.durable.max(clock);
        }
        answer
    }

    /// An attempt of the thread that moves the clock beside the callers.
    pub fn attempt(&self, gate: &mut Fuel) -> Result<u64, AdvanceRefusal> {
        self.advancer.0.lock().unwrap().advance(&self.heap, gate)
    }

    /// Waits until the durable clock is two past all that the caller has seen.
    pub fn sync(&self, pass: &mut Pass) -> Result<u64, SyncRefusal> {
        loop {
            // a sync's own step: the durable clock is looked at
            let clock = self.heap.load_durable(&mut pass.gate).map_err(|_| SyncRefusal::Cut)?;
            pass.durable = pass.durable.max(clock);
            if clock >= pass.newest + 2 {
                pass.synced.copy_from_slice(&pass.fronts);
                return Ok(clock);
            }
            match self.attempt(&mut pass.gate) {
                Ok(_) | Err(AdvanceRefusal::NotYet { cut: false, .. }) => {}
                Err(AdvanceRefusal::NotYet { unit, epoch, .. }) => return Err(SyncRefusal::Stuck { unit, epoch }),
                Err(AdvanceRefusal::Cut) => return Err(SyncRefusal::Cut),
                Err(AdvanceRefusal::ClockEnd) => return Err(SyncRefusal::ClockEnd),
            }
        }
    }

    /// The words, and the history of each unit, told by the receipts of all callers.
    pub fn stop(self, passes: Vec<Pass>) -> Stopped {
        let units = self.heap.layout.units();
        let histories = (0..units).map(|unit| told_history(unit, &passes)).collect();
        drop(passes);
        let (current, durable) = self.heap.stop();
        Stopped {
            current,
            durable,
            histories,
        }
    }
}

fn told_history(unit: u64, passes: &[Pass]) -> Vec<Entry> {
    let mut history: Vec<Entry> = Vec::new();
    for pass in passes {
        for receipt in pass.receipts.iter().filter(|receipt| receipt.unit == unit) {
            let place = receipt.place as usize;
            while history.len() <= place {
                history.push(receipt.entry);
            }
            history[place] = receipt.entry;
        }
    }
    history
}
