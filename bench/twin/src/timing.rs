//! How each subject is timed: as `store_bench` times it.
use crate::course::{Course, Turns};
use crate::data::*;
use crate::plan::*;
use crate::recovery::recover;
use crate::store::{Stopped, Store};
use std::sync::atomic::{AtomicU64, Ordering::SeqCst};
use std::time::Instant;

const SLOTS: u64 = 4096;

/// Over how many keys the puts go that a stopped store was asked.
const KEYS: u64 = 16;

/// The nanoseconds of all that a plan asks for.
pub fn time(plan: &Plan) -> u64 {
    let Plan { size, calls, .. } = *plan;
    match plan.subject {
        Subject::Calls { work, by } => time_calls(work, by, size, calls),
        Subject::Tick => time_ends(size, calls, time_tick),
        Subject::Sync => time_ends(size, calls, time_sync),
        Subject::Stop => {
            let ops = puts(KEYS);
            (0..calls).map(|_| stop_one(SLOTS, &ops, size).1).sum()
        }
        Subject::Open => (0..calls).map(|_| time_opening(size)).sum(),
        Subject::Recover => time_recoveries(size, calls),
    }
}

fn nanos_since(begin: Instant) -> u64 {
    begin.elapsed().as_nanos() as u64
}

/// How often a caller syncs where a unit is full, since others may fill it again meanwhile.
const TRIES: u64 = 1000;

/// Makes each of these calls once. Where a unit is full, the caller syncs and calls again.
#[inline(never)]
fn call_all(store: &Store, pass: &mut Pass, ops: &[Op]) {
    for op in ops {
        match store.call(pass, op) {
            Ok(_) => {}
            Err(CallRefusal::Full { .. }) => call_when_free(store, pass, op),
            Err(why) => panic!("{why:?}"),
        }
    }
}

/// Syncs and calls again, until the unit has room or the tries are at their end.
#[cold]
fn call_when_free(store: &Store, pass: &mut Pass, op: &Op) {
    for _again in 0..TRIES {
        store.sync(pass).unwrap();
        match store.call(pass, op) {
            Ok(_) => return,
            Err(CallRefusal::Full { .. }) => {}
            Err(why) => panic!("{why:?}"),
        }
    }
    panic!("the unit stays full")
}

/// Goes through a course, until so many of its timed calls are made.
fn go_through(store: &Store, pass: &mut Pass, course: &Course, calls: u64) -> u64 {
    call_all(store, pass, &course.first);
    let long = (course.timed.len() as u64).max(1);
    let whole: u64 = (0..calls / long).map(|_| time_round(store, pass, course, long)).sum();
    whole + time_round(store, pass, course, calls % long)
}

fn time_round(store: &Store, pass: &mut Pass, course: &Course, many: u64) -> u64 {
    call_all(store, pass, front(&course.before, many));
    let begin = Instant::now();
    call_all(store, pass, front(&course.timed, many));
    let nanos = nanos_since(begin);
    call_all(store, pass, front(&course.after, many));
    nanos
}

fn front(ops: &[Op], many: u64) -> &[Op] {
    &ops[..many.min(ops.len() as u64) as usize]
}

fn time_calls(work: Work, by: Callers, size: u64, calls: u64) -> u64 {
    let letter = match work {
        Work::Put | Work::Get | Work::Del => "m",
        Work::Enq | Work::Deq => "q",
        Work::AddEdge | Work::Degree => "g",
    };
    let layout = Layout::new(&letter.repeat(by.many as usize), SLOTS);
    let (store, mut passes) = Store::fresh(layout, by.many + u64::from(by.advancer));
    let (done, most) = (AtomicU64::new(0), AtomicU64::new(0));
    std::thread::scope(|scope| {
        for pass in &mut passes {
            let (store, done, most) = (&store, &done, &most);
            let turns = Turns {
                caller: pass.number,
                units: by.many,
                own: by.own,
            };
            if pass.number >= by.many {
                scope.spawn(move || {
                    while done.load(SeqCst) < by.many {
                        let _ = store.tick(pass);
                    }
                });
                continue;
            }
            let course = Course::of(work, turns, size);
            scope.spawn(move || {
                most.fetch_max(go_through(store, pass, &course, calls), SeqCst);
                done.fetch_add(1, SeqCst);
            });
        }
    });
    most.into_inner()
}

fn time_ends(puts_before: u64, ends: u64, end: fn(&Store, &mut Pass) -> u64) -> u64 {
    let (store, mut passes) = Store::fresh(Layout::new("m", SLOTS), 1);
    let ops = puts(puts_before);
    let mut nanos = 0;
    for _ in 0..ends {
        call_all(&store, &mut passes[0], &ops);
        nanos += end(&store, &mut passes[0]);
    }
    nanos
}

/// The second of three ticks, which writes the records back that were made before the first.
fn time_tick(store: &Store, pass: &mut Pass) -> u64 {
    store.tick(pass).unwrap();
    let begin = Instant::now();
    store.tick(pass).unwrap();
    let nanos = nanos_since(begin);
    store.tick(pass).unwrap();
    nanos
}

fn time_sync(store: &Store, pass: &mut Pass) -> u64 {
    let begin = Instant::now();
    store.sync(pass).unwrap();
    nanos_since(begin)
}

fn time_opening(slots: u64) -> u64 {
    let layout = Layout::new("m", slots);
    let begin = Instant::now();
    let opened = Store::fresh(layout, 1);
    let nanos = nanos_since(begin);
    drop(opened);
    nanos
}

fn puts(keys: u64) -> Vec<Op> {
    Course::of(Work::Put, Turns::ALONE, keys).first
}

/// A store that was stopped behind so many calls, with the nanoseconds that its stop took.
fn stop_one(slots: u64, ops: &[Op], calls: u64) -> (Stopped, u64) {
    let (store, mut passes) = Store::fresh(Layout::new("m", slots), 1);
    for _ in 0..calls.div_ceil((ops.len() as u64).max(1)) {
        call_all(&store, &mut passes[0], ops);
    }
    store.sync(&mut passes[0]).unwrap();
    let begin = Instant::now();
    let stopped = store.stop(passes);
    (stopped, nanos_since(begin))
}

fn time_recoveries(slots: u64, recoveries: u64) -> u64 {
    let pairs = slots / 2;
    let (stopped, _) = stop_one(slots, &puts(pairs), pairs);
    let layout = Layout::new("m", slots);
    let mut nanos = 0;
    for _ in 0..recoveries {
        let begin = Instant::now();
        let mut recovered = recover(layout.clone(), &stopped.durable, 1).unwrap();
        recovered.sweep(&mut Fuel::endless()).unwrap();
        nanos += nanos_since(begin);
    }
    nanos
}
