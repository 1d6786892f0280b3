//! What an image holds, and the opening of a store from it.
use crate::data::*;
use crate::heap::Heap;
use crate::region::Region;
use crate::text::Text;
use std::collections::{BTreeMap, BTreeSet, VecDeque};

/// What recovery rebuilds of a unit.
#[derive(Debug, PartialEq)]
pub enum State {
    Map(BTreeMap<Text, Text>),
    Queue(VecDeque<u64>),
    Graph {
        vertices: BTreeMap<u64, u64>,
        edges: BTreeMap<(u64, u64), u64>,
    },
}

/// What was found of a unit: its records within the cut, the slots beyond it, the live records.
struct Found {
    records: Vec<Held>,
    lost: Vec<u64>,
    live: Vec<Held>,
}

/// The first thing that is wrong with an image.
#[derive(Debug)]
#[allow(dead_code)] // what is told by Debug alone
pub enum Fault {
    Slot { slot: u64 },
    Twice { slot: u64 },
    Object { slot: u64 },
}

/// A store that was opened from an image, without its calls.
#[allow(dead_code)] // the passes are made, and nobody calls
pub struct Recovered {
    pub heap: Heap,
    pub states: Vec<State>,
    pub regions: Vec<Region>,
    pub passes: Vec<Pass>,
}

/// Opens a store from an image.
pub fn recover(layout: Layout, words: &[u64], callers: u64) -> Result<Recovered, Fault> {
    let (found, states) = find_units(&layout, words)?;
    let heap = Heap::of_words(layout.clone(), words);
    let regions = (0..layout.units())
        .map(|unit| Region::recovered(&layout, unit, &found[unit as usize].records, &found[unit as usize].lost))
        .collect();
    let passes = (0..callers).map(|caller| Pass::new(caller, layout.units())).collect();
    Ok(Recovered {
        heap,
        states,
        regions,
        passes,
    })
}

impl Recovered {
    /// Closes each slot beyond the cut.
    pub fn sweep(&mut self, gate: &mut Fuel) -> Result<(), Cut> {
        for region in &mut self.regions {
            region.sweep(&self.heap, gate)?;
        }
        Ok(())
    }
}

/// The structures of an image.
pub fn contents(layout: &Layout, words: &[u64]) -> Result<Vec<State>, Fault> {
    Ok(find_units(layout, words)?.1)
}

fn find_units(layout: &Layout, words: &[u64]) -> Result<(Vec<Found>, Vec<State>), Fault> {
    let (records, lost) = scan(layout, words)?;
    check_versions(&records)?;
    let mut units = Vec::new();
    let mut states = Vec::new();
    for unit in 0..layout.units() {
        let (first, end) = (unit * layout.slots, (unit + 1) * layout.slots);
        let below = |slot: u64| records.partition_point(|held| held.slot < slot);
        let lost_below = |slot: u64| lost.partition_point(|one| *one < slot);
        let of_unit = &records[below(first)..below(end)];
        let found = Found {
            records: of_unit.to_vec(),
            lost: lost[lost_below(first)..lost_below(end)].to_vec(),
            live: live(of_unit),
        };
        states.push(build(layout, unit, &found.live)?);
        units.push(found);
    }
    Ok((units, states))
}

/// The records within the cut, which is two epochs before the clock, and the slots beyond it.
fn scan(layout: &Layout, words: &[u64]) -> Result<(Vec<Held>, Vec<u64>), Fault> {
    let clock = words[0];
    let (mut records, mut lost) = (Vec::new(), Vec::new());
    for slot in 0..layout.units() * layout.slots {
        let at = 1 + FIELDS * slot as usize;
        let epoch = words[at];
        if epoch == 0 {
            continue;
        }
        if epoch + 2 > clock {
            lost.push(slot);
        } else {
            records.push(record_at(layout, slot, &words[at..at + FIELDS])?);
        }
    }
    Ok((records, lost))
}

fn record_at(layout: &Layout, slot: u64, words: &[u64]) -> Result<Held, Fault> {
    let kind = match words[1] / 256 {
        1 => Kind::New,
        2 => Kind::Copy,
        3 => Kind::Delete,
        _ => return Err(Fault::Slot { slot }),
    };
    let (unit, identity, version) = (words[1] % 256, words[2], words[3]);
    if unit != slot / layout.slots || identity == 0 || identity > LAST || version == 0 || version > LAST {
        return Err(Fault::Slot { slot });
    }
    let label = Label {
        epoch: words[0],
        kind,
        unit,
        identity,
        version,
    };
    Ok(Held {
        slot,
        label,
        body: words[LABEL..].try_into().unwrap(),
    })
}

/// No version of an identity stands twice.
fn check_versions(records: &[Held]) -> Result<(), Fault> {
    let mut seen = BTreeMap::new();
    for held in records {
        let label = &held.label;
        if seen
            .insert((label.unit, label.identity, label.version), held.slot)
            .is_some()
        {
            return Err(Fault::Twice { slot: held.slot });
        }
    }
    Ok(())
}

/// The newest version of each identity, where it is no removal, by rising slot.
fn live(records: &[Held]) -> Vec<Held> {
    let mut newest: BTreeMap<u64, &Held> = BTreeMap::new();
    for held in records {
        let at = newest.entry(held.label.identity).or_insert(held);
        if held.label.version > at.label.version {
            *at = held;
        }
    }
    let mut live: Vec<Held> = newest
        .into_values()
        .filter(|held| held.label.kind != Kind::Delete)
        .copied()
        .collect();
    live.sort_by_key(|held| held.slot);
    live
}

fn build(layout: &Layout, unit: u64, live: &[Held]) -> Result<State, Fault> {
    match layout.kinds[unit as usize] {
        UnitKind::Map => build_map(layout, unit, live),
        UnitKind::Queue => build_queue(live),
        UnitKind::Graph => build_graph(live),
    }
}

fn build_map(layout: &Layout, unit: u64, live: &[Held]) -> Result<State, Fault> {
    let mut pairs = BTreeMap::new();
    for held in live {
        let fault = Fault::Object { slot: held.slot };
        let (Some(key), Some(value)) = (key_of(&held.body), value_of(&held.body)) else {
            return Err(fault);
        };
        if layout.unit_of_key(&key) != unit || pairs.insert(key, value).is_some() {
            return Err(fault);
        }
    }
    Ok(State::Map(pairs))
}

fn build_queue(live: &[Held]) -> Result<State, Fault> {
    let mut items = BTreeMap::new();
    for held in live {
        if held.body[0] == 0 || items.insert(held.body[0], held.body[1]).is_some() {
            return Err(Fault::Object { slot: held.slot });
        }
    }
    Ok(State::Queue(items.into_values().collect()))
}

fn build_graph(live: &[Held]) -> Result<State, Fault> {
    let (mut vertices, mut edges) = (BTreeMap::new(), BTreeMap::new());
    let mut ends = BTreeSet::new();
    for held in live {
        let body = &held.body;
        let there = match body[0] {
            1 => vertices.insert(body[1], body[2]).is_some(),
            2 => {
                ends.insert((held.slot, body[1]));
                ends.insert((held.slot, body[2]));
                edges.insert((body[1], body[2]), body[3]).is_some()
            }
            _ => true,
        };
        if there {
            return Err(Fault::Object { slot: held.slot });
        }
    }
    match ends.iter().find(|(_, end)| !vertices.contains_key(end)) {
        Some((slot, _)) => Err(Fault::Object { slot: *slot }),
        None => Ok(State::Graph { vertices, edges }),
    }
}
