//! That the twin makes the steps that it is to make, and answers as a store does.
use crate::data::*;
use crate::heap::tally;
use crate::recovery::{recover, State};
use crate::store::Store;
use crate::text::Text;

fn text(number: u64) -> Text {
    Text::of_number(number)
}

/// The loads and stores of a call.
fn steps_of(store: &Store, pass: &mut Pass, op: Op) -> (u64, u64) {
    tally::taken();
    store.call(pass, &op).unwrap();
    tally::taken()
}

/// An operation of so many changes: two loads of the clock, two where the list is taken and given
/// back; the announcement, its withdrawal, and twelve words a change.
fn changing(changes: u64) -> (u64, u64) {
    (4, 2 + 12 * changes)
}

const READING: (u64, u64) = (1, 0);

#[test]
fn calls_make_the_steps_of_the_protocol() {
    let (store, mut passes) = Store::fresh(Layout::new("mqg", 64), 1);
    let pass = &mut passes[0];
    let (key, value) = (text(1), text(10));
    for (op, steps) in [
        (Op::Get { key }, READING),
        (Op::Del { key }, READING),
        (Op::Put { key, value }, changing(1)),
        (Op::Put { key, value }, changing(1)),
        (Op::Get { key }, READING),
        (Op::Del { key }, changing(1)),
        (Op::Deq { unit: 1 }, READING),
        (Op::Enq { unit: 1, item: 5 }, changing(1)),
        (Op::Len { unit: 1 }, READING),
        (Op::Deq { unit: 1 }, changing(1)),
        (
            Op::AddV {
                unit: 2,
                vertex: 1,
                attr: 0,
            },
            changing(1),
        ),
        (
            Op::AddE {
                unit: 2,
                from: 1,
                to: 2,
                attr: 0,
            },
            READING,
        ),
        (
            Op::AddV {
                unit: 2,
                vertex: 2,
                attr: 0,
            },
            changing(1),
        ),
        (
            Op::AddE {
                unit: 2,
                from: 1,
                to: 2,
                attr: 0,
            },
            changing(1),
        ),
        (Op::Degree { unit: 2, vertex: 1 }, READING),
        (Op::DelV { unit: 2, vertex: 1 }, changing(2)),
        (
            Op::DelE {
                unit: 2,
                from: 1,
                to: 2,
            },
            READING,
        ),
    ] {
        assert_eq!(steps_of(&store, pass, op), steps, "{op:?}");
    }
    assert_eq!(pass.receipts.len(), 17);
}

/// An advance: three loads a unit, two stores, and a load and a store for each word of a listed slot.
#[test]
fn advances_make_the_steps_of_the_protocol() {
    let (store, mut passes) = Store::fresh(Layout::new("mq", 64), 1);
    let pass = &mut passes[0];
    for number in 0..5 {
        store
            .call(
                pass,
                &Op::Put {
                    key: text(number),
                    value: text(0),
                },
            )
            .unwrap();
    }
    for listed in [0, 5, 0] {
        tally::taken();
        store.tick(pass).unwrap();
        assert_eq!(tally::taken(), (3 * 2 + 12 * listed, 2 + 12 * listed));
    }
}

/// A sync is a load for each look at the durable clock, and the advances between two of them.
#[test]
fn syncs_make_the_steps_of_the_protocol() {
    let (store, mut passes) = Store::fresh(Layout::new("m", 64), 1);
    store
        .call(
            &mut passes[0],
            &Op::Put {
                key: text(0),
                value: text(0),
            },
        )
        .unwrap();
    tally::taken();
    store.sync(&mut passes[0]).unwrap();
    assert_eq!(tally::taken(), (3 + 2 * 3 + 12, 2 * 2 + 12));
}

/// A full unit closes what is due: a load of the durable clock, and two stores a slot.
#[test]
fn full_units_close_what_is_due() {
    let (store, mut passes) = Store::fresh(Layout::new("m", 8), 1);
    let pass = &mut passes[0];
    let put = Op::Put {
        key: text(0),
        value: text(0),
    };
    for _ in 0..8 {
        store.call(pass, &put).unwrap();
    }
    tally::taken();
    let refused = store.call(pass, &put);
    assert!(
        matches!(
            refused,
            Err(CallRefusal::Full {
                need: 1,
                free: 0,
                clock: 2
            })
        ),
        "{refused:?}"
    );
    assert_eq!(tally::taken(), (1, 0));
    store.sync(pass).unwrap();
    let (loads, stores) = changing(1);
    assert_eq!(steps_of(&store, pass, put), (loads + 1, stores + 2 * 7));
}

#[test]
fn stores_are_recovered() {
    let layout = Layout::new("mqg", 16);
    let (store, mut passes) = Store::fresh(layout.clone(), 1);
    let pass = &mut passes[0];
    let kept = [
        Op::Put {
            key: text(1),
            value: text(10),
        },
        Op::Put {
            key: text(1),
            value: text(11),
        },
        Op::Put {
            key: text(2),
            value: text(20),
        },
        Op::Del { key: text(2) },
        Op::Enq { unit: 1, item: 7 },
        Op::Enq { unit: 1, item: 8 },
        Op::Deq { unit: 1 },
        Op::AddV {
            unit: 2,
            vertex: 1,
            attr: 5,
        },
        Op::AddV {
            unit: 2,
            vertex: 2,
            attr: 6,
        },
        Op::AddE {
            unit: 2,
            from: 1,
            to: 2,
            attr: 9,
        },
    ];
    for op in kept {
        store.call(pass, &op).unwrap();
    }
    store.sync(pass).unwrap();
    store
        .call(
            pass,
            &Op::Put {
                key: text(3),
                value: text(30),
            },
        )
        .unwrap();
    let stopped = store.stop(passes);
    assert_eq!(stopped.histories[0].len(), 5);
    // the late put is in the current words alone; its label is beyond the cut
    let mut recovered = recover(layout, &stopped.current, 1).unwrap();
    assert_eq!(recovered.states[0], State::Map([(text(1), text(11))].into()));
    assert_eq!(recovered.states[1], State::Queue([8].into()));
    let (vertices, edges) = ([(1, 5), (2, 6)].into(), [((1, 2), 9)].into());
    assert_eq!(recovered.states[2], State::Graph { vertices, edges });
    assert_eq!(recovered.regions[0].lost.len(), 1);
    tally::taken();
    recovered.sweep(&mut Fuel::endless()).unwrap();
    assert_eq!(tally::taken(), (0, 2));
    assert_eq!(
        (recovered.regions[0].free.len(), recovered.regions[0].retired.len()),
        (12, 3)
    );
}

#[test]
fn indexes_find_what_is_left() {
    let mut index = crate::probe_index::ProbeIndex::default();
    let mut there = std::collections::BTreeMap::new();
    let mut word = 1u64;
    for _ in 0..20_000 {
        word = word
            .wrapping_mul(6_364_136_223_846_793_005)
            .wrapping_add(1_442_695_040_888_963_407);
        let number = (word >> 40) % 300;
        if (word >> 33).is_multiple_of(2) {
            index.reserve();
            index.put(&text(number), word);
            there.insert(number, word);
        } else {
            index.remove(&text(number));
            there.remove(&number);
        }
    }
    for number in 0..300 {
        assert_eq!(index.find(&text(number)), there.get(&number).copied());
    }
}
