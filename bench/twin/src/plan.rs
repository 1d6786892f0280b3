//! What is to be timed, by the words of the command line: the same words as `store_bench` has.
#[derive(Clone, Copy)]
pub enum Work {
    Put,
    Get,
    Del,
    Enq,
    Deq,
    AddEdge,
    Degree,
}

#[derive(Clone, Copy)]
pub struct Callers {
    pub many: u64,
    pub own: bool,
    pub advancer: bool,
}

#[derive(Clone, Copy)]
pub enum Subject {
    Calls { work: Work, by: Callers },
    Tick,
    Sync,
    Stop,
    Open,
    Recover,
}

#[derive(Clone, Copy)]
pub struct Plan {
    pub subject: Subject,
    pub size: u64,
    pub calls: u64,
}

/// What the words ask for, if they are of a form.
pub fn plan_of(words: &[&str]) -> Option<Plan> {
    let [name, size, calls, rest @ ..] = words else {
        return None;
    };
    let plan = Plan {
        subject: subject_of(name, rest)?,
        size: size.parse().ok()?,
        calls: calls.parse().ok()?,
    };
    plan.is_in_range().then_some(plan)
}

fn subject_of(name: &str, rest: &[&str]) -> Option<Subject> {
    let work = match name {
        "put" => Work::Put,
        "get" => Work::Get,
        "del" => Work::Del,
        "enq" => Work::Enq,
        "deq" => Work::Deq,
        "adde" => Work::AddEdge,
        "degree" => Work::Degree,
        _ if !rest.is_empty() => return None,
        "tick" => return Some(Subject::Tick),
        "sync" => return Some(Subject::Sync),
        "stop" => return Some(Subject::Stop),
        "open" => return Some(Subject::Open),
        "recover" => return Some(Subject::Recover),
        _ => return None,
    };
    Some(Subject::Calls {
        work,
        by: callers_of(rest)?,
    })
}

fn callers_of(words: &[&str]) -> Option<Callers> {
    let (many, own, advancer) = match words {
        [] => {
            return Some(Callers {
                many: 1,
                own: true,
                advancer: false,
            })
        }
        [many, own] => (many, own, false),
        [many, own, "advancer"] => (many, own, true),
        _ => return None,
    };
    let own = match *own {
        "own" => true,
        "shared" => false,
        _ => return None,
    };
    Some(Callers {
        many: many.parse().ok()?,
        own,
        advancer,
    })
}

impl Plan {
    fn is_in_range(&self) -> bool {
        let sizes = match self.subject {
            Subject::Calls { .. } => 1..=1024,
            Subject::Tick | Subject::Sync => 0..=1024,
            Subject::Stop => 0..=1_000_000,
            Subject::Open | Subject::Recover => 8..=4096,
        };
        let many = match self.subject {
            Subject::Calls { by, .. } => by.many,
            _ => 1,
        };
        sizes.contains(&self.size) && (1..=1_000_000).contains(&self.calls) && (1..=4).contains(&many)
    }
}
