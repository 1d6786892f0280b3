//! A whole job, as `montage run` runs it: its text is read, its callers work on threads beside one
//! that moves the clock, the store is stopped, an image is picked and recovered, and the report is
//! written. It doesn't know stops, nor ordered units, nor escapes in texts.
use crate::advancer::AdvanceRefusal;
use crate::data::*;
use crate::recovery::{contents, State};
use crate::store::{Stopped, Store};
use crate::text::Text;
use std::io::{Read, Write};

#[derive(Clone, Copy)]
enum Deed {
    Call(Op),
    Tick,
    Sync,
}

struct Line {
    caller: u64,
    deed: Deed,
}

enum Outcome {
    At { unit: u64, place: u64 },
    Ticked { epoch: u64 },
    Synced { epoch: u64 },
    Full { need: u64, free: u64, clock: u64 },
}

struct Job {
    layout: Layout,
    callers: u64,
    attempts: u64,
    mask: u64,
    lines: Vec<Line>,
}

pub fn run() {
    let mut text = String::new();
    std::io::stdin().lock().read_to_string(&mut text).unwrap();
    let job = read_job(&text);
    drop(text);
    let (store, mut passes) = Store::fresh(job.layout.clone(), job.callers);
    let outcomes = work(&store, &mut passes, &job);
    let stopped = store.stop(passes);
    let image = pick(&stopped, job.mask);
    let states = contents(&job.layout, &image).unwrap();
    let report = report_of(&job, &stopped, &outcomes, image[0], &states);
    std::io::stdout().lock().write_all(&report).unwrap();
}

fn read_job(text: &str) -> Job {
    let mut lines = text.lines();
    let header: Vec<&str> = lines.next().unwrap().split(' ').collect();
    let number = |at: usize| header[at].parse::<u64>().unwrap();
    Job {
        layout: Layout::new(header[2], number(3)),
        callers: number(4),
        attempts: number(5),
        mask: u64::from_str_radix(header[6], 16).unwrap(),
        lines: lines.map(read_line).collect(),
    }
}

fn read_line(line: &str) -> Line {
    let mut words = line.split(' ');
    let caller = words.next().unwrap().parse().unwrap();
    let name = words.next().unwrap();
    let mut number = || words.next().unwrap().parse::<u64>().unwrap();
    let op = match name {
        "tick" => {
            return Line {
                caller,
                deed: Deed::Tick,
            }
        }
        "sync" => {
            return Line {
                caller,
                deed: Deed::Sync,
            }
        }
        "enq" => Op::Enq {
            unit: number(),
            item: number(),
        },
        "deq" => Op::Deq { unit: number() },
        "len" => Op::Len { unit: number() },
        "addv" => Op::AddV {
            unit: number(),
            vertex: number(),
            attr: number(),
        },
        "delv" => Op::DelV {
            unit: number(),
            vertex: number(),
        },
        "vertex" => Op::Vertex {
            unit: number(),
            vertex: number(),
        },
        "degree" => Op::Degree {
            unit: number(),
            vertex: number(),
        },
        "adde" => Op::AddE {
            unit: number(),
            from: number(),
            to: number(),
            attr: number(),
        },
        "dele" => Op::DelE {
            unit: number(),
            from: number(),
            to: number(),
        },
        _ => {
            let mut text = || Text::of_bytes(words.next().unwrap().as_bytes());
            match name {
                "put" => Op::Put {
                    key: text(),
                    value: text(),
                },
                "get" => Op::Get { key: text() },
                "del" => Op::Del { key: text() },
                _ => panic!("line {line}"),
            }
        }
    };
    Line {
        caller,
        deed: Deed::Call(op),
    }
}

/// Each caller carries out its lines in a thread of its own, beside one that moves the clock.
fn work(store: &Store, passes: &mut [Pass], job: &Job) -> Vec<Vec<Outcome>> {
    std::thread::scope(|scope| {
        let attempts = job.attempts;
        let advancer = scope.spawn(move || {
            let mut gate = Fuel::endless();
            for _ in 0..attempts {
                let _ = store.attempt(&mut gate);
            }
        });
        let callers: Vec<_> = passes
            .iter_mut()
            .map(|pass| scope.spawn(move || lines_of(store, pass, job)))
            .collect();
        let outcomes = callers.into_iter().map(|caller| caller.join().unwrap()).collect();
        advancer.join().unwrap();
        outcomes
    })
}

fn lines_of(store: &Store, pass: &mut Pass, job: &Job) -> Vec<Outcome> {
    let own: Vec<Deed> = job
        .lines
        .iter()
        .filter(|line| line.caller == pass.number)
        .map(|line| line.deed)
        .collect();
    own.iter().map(|deed| carry_out(store, pass, deed)).collect()
}

fn carry_out(store: &Store, pass: &mut Pass, deed: &Deed) -> Outcome {
    match deed {
        Deed::Call(op) => {
            let mut answer = store.call(pass, op);
            if let Err(CallRefusal::Full { .. }) = answer {
                store.sync(pass).unwrap();
                answer = store.call(pass, op);
            }
            match answer {
                Ok(receipt) => Outcome::At {
                    unit: receipt.unit,
                    place: receipt.place,
                },
                Err(CallRefusal::Full { need, free, clock }) => Outcome::Full { need, free, clock },
                Err(why) => panic!("{why:?}"),
            }
        }
        Deed::Tick => loop {
            match store.tick(pass) {
                Ok(epoch) => return Outcome::Ticked { epoch },
                Err(AdvanceRefusal::NotYet { cut: false, .. }) => {}
                Err(why) => panic!("{why:?}"),
            }
        },
        Deed::Sync => Outcome::Synced {
            epoch: store.sync(pass).unwrap(),
        },
    }
}

/// A word is current where the mask has a 1 at its number modulo 64, else durable.
fn pick(stopped: &Stopped, mask: u64) -> Vec<u64> {
    let word = |at: usize| {
        if mask >> (at % 64) & 1 == 1 {
            stopped.current[at]
        } else {
            stopped.durable[at]
        }
    };
    (0..stopped.durable.len()).map(word).collect()
}

/// Bytes that are written to the end of a report.
struct Report(Vec<u8>);

impl Report {
    fn word(&mut self, word: &str) -> &mut Report {
        self.0.extend_from_slice(word.as_bytes());
        self
    }

    fn text(&mut self, text: &Text) -> &mut Report {
        self.0.push(b' ');
        self.0.extend((0..text.len).map(|at| text.byte(at)));
        self
    }

    fn number(&mut self, number: u64) -> &mut Report {
        let mut digits = [0u8; 20];
        let (mut at, mut left) = (20, number);
        loop {
            at -= 1;
            digits[at] = b'0' + (left % 10) as u8;
            left /= 10;
            if left == 0 {
                self.0.extend_from_slice(&digits[at..]);
                return self;
            }
        }
    }

    fn numbers(&mut self, word: &str, numbers: &[u64]) -> &mut Report {
        self.word(word);
        for number in numbers {
            self.0.push(b' ');
            self.number(*number);
        }
        self
    }

    fn end(&mut self) {
        self.0.push(b'\n');
    }
}

fn report_of(job: &Job, stopped: &Stopped, outcomes: &[Vec<Outcome>], clock: u64, states: &[State]) -> Vec<u8> {
    let mut report = Report(Vec::new());
    report.word("montage-report 3 ").word(&job.layout.letters);
    report.numbers("", &[job.layout.slots, job.callers]).end();
    report.word("base 2").end();
    for unit in 0..job.layout.units() {
        match job.layout.kinds[unit as usize] {
            UnitKind::Map => report.numbers("map", &[unit, 0]).end(),
            UnitKind::Queue => report.numbers("queue", &[unit, 0]).end(),
            UnitKind::Graph => report.numbers("graph", &[unit, 0, 0]).end(),
        }
    }
    for (unit, history) in stopped.histories.iter().enumerate() {
        report.numbers("unit", &[unit as u64, history.len() as u64]).end();
        for (place, entry) in history.iter().enumerate() {
            tell_entry(&mut report, place as u64, entry);
        }
    }
    for (caller, of_caller) in outcomes.iter().enumerate() {
        report.numbers("caller", &[caller as u64, of_caller.len() as u64]).end();
        for outcome in of_caller {
            match *outcome {
                Outcome::At { unit, place } => report.numbers("at", &[unit, place]).end(),
                Outcome::Ticked { epoch } => report.numbers("ticked", &[epoch]).end(),
                Outcome::Synced { epoch } => report.numbers("synced", &[epoch]).end(),
                Outcome::Full { need, free, clock } => report.numbers("full", &[need, free, clock]).end(),
            }
        }
    }
    report.numbers("image", &[clock]).end();
    for (unit, state) in states.iter().enumerate() {
        tell_state(&mut report, unit as u64, state);
    }
    report.word("end").end();
    report.0
}

fn tell_entry(report: &mut Report, place: u64, entry: &Entry) {
    report
        .number(place)
        .numbers("", &[entry.caller, entry.call, entry.epoch])
        .word(" ");
    match &entry.op {
        Op::Put { key, value } => report.word("put").text(key).text(value),
        Op::Get { key } => report.word("get").text(key),
        Op::Del { key } => report.word("del").text(key),
        Op::Enq { unit, item } => report.numbers("enq", &[*unit, *item]),
        Op::Deq { unit } => report.numbers("deq", &[*unit]),
        Op::Len { unit } => report.numbers("len", &[*unit]),
        Op::AddV { unit, vertex, attr } => report.numbers("addv", &[*unit, *vertex, *attr]),
        Op::DelV { unit, vertex } => report.numbers("delv", &[*unit, *vertex]),
        Op::AddE { unit, from, to, attr } => report.numbers("adde", &[*unit, *from, *to, *attr]),
        Op::DelE { unit, from, to } => report.numbers("dele", &[*unit, *from, *to]),
        Op::Vertex { unit, vertex } => report.numbers("vertex", &[*unit, *vertex]),
        Op::Degree { unit, vertex } => report.numbers("degree", &[*unit, *vertex]),
        Op::ORange { unit, from, to, most } => report
            .numbers("orange", &[*unit])
            .text(from)
            .text(to)
            .numbers("", &[*most]),
    };
    report.word(" = ");
    match &entry.reply {
        Reply::Nothing => report.word("none"),
        Reply::Was { value } => report.numbers("was", &[*value]),
        Reply::WasText { value } => report.word("was").text(value),
        Reply::Count { number } => report.numbers("count", &[*number]),
        Reply::NoEnds => report.word("noends"),
    };
    report.end();
}

fn tell_state(report: &mut Report, unit: u64, state: &State) {
    match state {
        State::Map(pairs) => {
            report.numbers("map", &[unit, pairs.len() as u64]).end();
            for (key, value) in pairs {
                report.0.extend(key.bytes());
                report.text(value).end();
            }
        }
        State::Queue(items) => {
            report.numbers("queue", &[unit, items.len() as u64]).end();
            for item in items {
                report.number(*item).end();
            }
        }
        State::Graph { vertices, edges } => {
            report
                .numbers("graph", &[unit, vertices.len() as u64, edges.len() as u64])
                .end();
            for (vertex, attr) in vertices {
                report.number(*vertex).numbers("", &[*attr]).end();
            }
            for ((from, to), attr) in edges {
                report.number(*from).numbers("", &[*to, *attr]).end();
            }
        }
    }
}
