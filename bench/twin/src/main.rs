//! A twin of the store in plain Rust: it makes the same atomic steps in the same order, and keeps
//! the same receipts. Nothing of it is proved; it says what those steps cost on this machine.
mod advancer;
mod course;
mod data;
mod heap;
mod job;
mod plan;
mod probe_index;
mod recovery;
mod region;
mod store;
#[cfg(test)]
mod tests;
mod text;
mod timing;
mod units;

use std::process::ExitCode;

fn main() -> ExitCode {
    let words: Vec<String> = std::env::args().skip(1).collect();
    let words: Vec<&str> = words.iter().map(String::as_str).collect();
    if words.is_empty() {
        return ExitCode::SUCCESS;
    }
    if words == ["run"] {
        job::run();
        return ExitCode::SUCCESS;
    }
    let Some(plan) = plan::plan_of(&words) else {
        println!("twin: bad words");
        return ExitCode::from(2);
    };
    let tenths = timing::time(&plan) as u128 * 10 / plan.calls as u128;
    println!("ns {}.{}", tenths / 10, tenths % 10);
    ExitCode::SUCCESS
}
