//! The words of a store and its lists of slots, with each step on them.
use crate::data::*;
use std::cell::UnsafeCell;
use std::sync::atomic::{AtomicU64, Ordering::SeqCst};

/// A row of words: the current ones, the durable ones, and an announcement for each unit, eight
/// words apart. All steps are `SeqCst`.
struct Words(Vec<AtomicU64>);

impl Words {
    #[inline]
    fn load(&self, at: usize) -> u64 {
        tally::load();
        self.0[at].load(SeqCst)
    }

    #[inline]
    fn store(&self, at: usize, value: u64) {
        tally::store();
        self.0[at].store(value, SeqCst)
    }
}

/// How many steps a thread made. Only tests count them.
pub mod tally {
    #[cfg(test)]
    thread_local! {
        static STEPS: std::cell::Cell<(u64, u64)> = const { std::cell::Cell::new((0, 0)) };
    }

    #[inline(always)]
    pub fn load() {
        #[cfg(test)]
        STEPS.with(|steps| steps.set((steps.get().0 + 1, steps.get().1)));
    }

    #[inline(always)]
    pub fn store() {
        #[cfg(test)]
        STEPS.with(|steps| steps.set((steps.get().0, steps.get().1 + 1)));
    }

    /// The loads and the stores since the last time that this was asked.
    #[cfg(test)]
    pub fn taken() -> (u64, u64) {
        STEPS.with(|steps| steps.replace((0, 0)))
    }
}

/// Two lists of slots for each unit, by the parity of epochs. Whoever has the turn of a list may
/// touch it: a unit within epoch e that of e, and the advancer, once it has passed the unit, that
/// of the epoch before the clock.
pub struct Heap {
    pub layout: Layout,
    words: Words,
    lists: Vec<UnsafeCell<Vec<u64>>>,
}

unsafe impl Sync for Heap {}

const APART: usize = 8;

impl Heap {
    /// The heap that opens with these words; they are durable.
    pub fn of_words(layout: Layout, words: &[u64]) -> Heap {
        let told = APART * layout.units() as usize;
        let mut row = Vec::with_capacity(2 * words.len() + told);
        row.extend(words.iter().map(|word| AtomicU64::new(*word)));
        row.extend(words.iter().map(|word| AtomicU64::new(*word)));
        row.extend((0..told).map(|_| AtomicU64::new(0)));
        Heap::of_row(layout, row)
    }

    /// The heap of a store that was never used. Its clock is 2.
    pub fn fresh(layout: Layout) -> Heap {
        let words = layout.words();
        let told = APART * layout.units() as usize;
        let mut row: Vec<_> = (0..2 * words + told).map(|_| AtomicU64::new(0)).collect();
        for clock in [0, words] {
            *row[clock].get_mut() = 2;
        }
        Heap::of_row(layout, row)
    }

    fn of_row(layout: Layout, row: Vec<AtomicU64>) -> Heap {
        let units = layout.units() as usize;
        let room = layout.slots as usize;
        let lists = (0..2 * units)
            .map(|_| UnsafeCell::new(Vec::with_capacity(room)))
            .collect();
        Heap {
            layout,
            words: Words(row),
            lists,
        }
    }

    #[inline]
    fn current(slot: u64, field: usize) -> usize {
        1 + FIELDS * slot as usize + field
    }

    #[inline]
    fn durable(&self, slot: u64, field: usize) -> usize {
        self.layout.words() + Heap::current(slot, field)
    }

    #[inline]
    fn announcement(&self, unit: u64) -> usize {
        2 * self.layout.words() + APART * unit as usize
    }

    // ---- steps of a unit

    /// Registration, first step: the clock is looked at.
    #[inline]
    pub fn load_clock(&self, gate: &mut Fuel) -> Result<u64, Cut> {
        gate.step()?;
        Ok(self.words.load(0))
    }

    /// Registration, second step: the unit announces an epoch.
    #[inline]
    pub fn tell(&self, unit: u64, epoch: u64, gate: &mut Fuel) -> Result<(), Cut> {
        gate.step()?;
        self.words.store(self.announcement(unit), 2 * epoch);
        Ok(())
    }

    /// Registration, third step: the clock is looked at again. The unit is registered where it is
    /// the epoch that was announced.
    #[inline]
    pub fn confirm(&self, gate: &mut Fuel) -> Result<u64, Cut> {
        gate.step()?;
        Ok(self.words.load(0))
    }

    /// Writing a record: one word of it.
    #[inline]
    pub fn store_word(&self, slot: u64, field: usize, value: u64, gate: &mut Fuel) -> Result<(), Cut> {
        gate.step()?;
        self.words.store(Heap::current(slot, field), value);
        Ok(())
    }

    /// A unit's list for an epoch, where it stands. Its turn is the caller's.
    #[inline]
    #[allow(clippy::mut_from_ref)]
    unsafe fn list_at(&self, unit: u64, epoch: u64) -> &mut Vec<u64> {
        unsafe { &mut *self.lists[(2 * unit + epoch % 2) as usize].get() }
    }

    /// Listing: the unit's list of its epoch is taken, first step, the slots that were written are
    /// pushed where it stands, and it is given back, second step.
    #[inline]
    pub fn list(&self, unit: u64, epoch: u64, slots: impl Iterator<Item = u64>) {
        self.words.load(0);
        unsafe { self.list_at(unit, epoch) }.extend(slots);
        self.words.load(0);
    }

    /// Leaving: the announcement is withdrawn, and the call has its entry.
    #[inline]
    pub fn leave(&self, unit: u64, gate: &mut Fuel) -> Result<(), Cut> {
        gate.step()?;
        self.words.store(self.announcement(unit), 0);
        Ok(())
    }

    /// Reading: a call that changes nothing has its entry at the epoch that the clock shows.
    #[inline]
    pub fn read_entry(&self, gate: &mut Fuel) -> Result<u64, Cut> {
        gate.step()?;
        Ok(self.words.load(0))
    }

    /// Closing, first step: the durable clock is looked at, which tells what may be closed.
    #[inline]
    pub fn load_durable(&self, gate: &mut Fuel) -> Result<u64, Cut> {
        gate.step()?;
        Ok(self.words.load(self.layout.words()))
    }

    /// Closing a slot, first step: its label is 0 in the current words.
    #[inline]
    pub fn close_label(&self, slot: u64, gate: &mut Fuel) -> Result<(), Cut> {
        gate.step()?;
        self.words.store(Heap::current(slot, 0), 0);
        Ok(())
    }

    /// Closing a slot, second step: so it is in the durable ones.
    #[inline]
    pub fn persist_close(&self, slot: u64, gate: &mut Fuel) -> Result<(), Cut> {
        gate.step()?;
        self.words.store(self.durable(slot, 0), 0);
        Ok(())
    }

    /// Halting: an announcement stays, for good. No gate is asked.
    pub fn freeze(&self, unit: u64) {
        let told = self.words.load(self.announcement(unit));
        if told != 0 {
            self.words.store(self.announcement(unit), told | 1);
        }
    }

    // ---- steps of the advancer

    /// Passing a unit: its announcement is looked at.
    #[inline]
    pub fn load_told(&self, unit: u64, gate: &mut Fuel) -> Result<u64, Cut> {
        gate.step()?;
        Ok(self.words.load(self.announcement(unit)))
    }

    /// Writing back, before the first slot of a unit: its full list is taken out. An empty one is
    /// given back where it stands.
    #[inline]
    pub fn take_listed(&self, unit: u64, epoch: u64) -> Option<Vec<u64>> {
        self.words.load(0);
        let list = unsafe { self.list_at(unit, epoch) };
        if list.is_empty() {
            self.words.load(0);
            return None;
        }
        Some(std::mem::take(list))
    }

    /// Writing back, behind the last slot: the list is given back empty.
    #[inline]
    pub fn give_empty(&self, unit: u64, epoch: u64, mut list: Vec<u64>) {
        list.clear();
        // what stands there is the empty list that was left, which owns nothing
        std::mem::forget(std::mem::replace(unsafe { self.list_at(unit, epoch) }, list));
        self.words.load(0);
    }

    /// Writing back a word, first step: it is loaded.
    #[inline]
    pub fn load_word(&self, slot: u64, field: usize, gate: &mut Fuel) -> Result<u64, Cut> {
        gate.step()?;
        Ok(self.words.load(Heap::current(slot, field)))
    }

    /// Writing back a word, second step: it is durable.
    #[inline]
    pub fn persist_word(&self, slot: u64, field: usize, value: u64, gate: &mut Fuel) -> Result<(), Cut> {
        gate.step()?;
        self.words.store(self.durable(slot, field), value);
        Ok(())
    }

    /// Moving the clock.
    #[inline]
    pub fn set_clock(&self, clock: u64, gate: &mut Fuel) -> Result<(), Cut> {
        gate.step()?;
        self.words.store(0, clock);
        Ok(())
    }

    /// The end of an advance: the clock is durable.
    #[inline]
    pub fn persist_clock(&self, clock: u64, gate: &mut Fuel) -> Result<(), Cut> {
        gate.step()?;
        self.words.store(self.layout.words(), clock);
        Ok(())
    }

    // ---- the stop

    /// The current words and the durable ones.
    pub fn stop(self) -> (Vec<u64>, Vec<u64>) {
        let many = self.layout.words();
        let words = |from: usize| (from..from + many).map(|at| self.words.load(at)).collect();
        (words(0), words(many))
    }
}
