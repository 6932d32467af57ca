//! The program again in plain Rust, with nothing proved: what `bench/all.sh` times beside `qlock`. It reads the same inputs and
//! writes the same outputs, except that it has no faults: what it can't read ends it with status 1.
//!
//!     rustc --edition 2021 -O -o twin bench/twin/main.rs
//!
//! - `make majority N`, `make wheel N`, `plan`, `check`, `deal N`, `world`, `run CLIENTS PASSES TURNS`, as `qlock`;
//! - `steps ROUNDS`, as `crates/bench`;
//! - `passes CLIENTS PASSES`, as `crates/bench`;
//! - `counter THREADS PASSES`: a counter behind a plain lock.
mod automata;
mod coterie;
mod narrow;
mod plan;
mod run;
mod steps;
mod text;
mod world;

use coterie::{members, Coterie};
use plan::Plan;
use text::Text;
use std::io::{Read, Write};
use std::process::ExitCode;
use std::sync::Mutex;
use std::{env, io, thread};

fn input() -> Option<String> {
    let mut text = String::new();
    io::stdin().read_to_string(&mut text).ok()?;
    Some(text)
}

fn planned(text: &str) -> Option<(Coterie, Plan, &str)> {
    let (coterie, rest) = text.split_once("%%\n")?;
    let coterie = Coterie::read(coterie)?;
    let (plan, rest) = rest.split_once("%%\n").unwrap_or((rest, ""));
    let plan = Plan::read(&coterie, plan)?;
    Some((coterie, plan, rest))
}

fn deal(coterie: &Coterie, plan: &Plan, count: usize) -> Text {
    let places = plan.places();
    let mut text = Text::with_capacity(16 * count);
    let mut counts = vec![0u64; coterie.quorums.len()];
    for (ticket, &quorum) in (0..count).zip(places.iter().cycle()) {
        counts[quorum] += 1;
        text.number(ticket as u64);
        text.line("", &[quorum as u64]);
    }
    let mut voters = vec![0; coterie.names.len()];
    for (quorum, count) in coterie.quorums.iter().zip(counts) {
        for voter in members(*quorum) {
            voters[voter] += count;
        }
    }
    for (name, count) in coterie.names.iter().zip(&voters) {
        text.word("voter ");
        text.line(name, &[*count]);
    }
    text.line("busiest", &[*voters.iter().max().unwrap_or(&0)]);
    text
}

fn counter(threads: u64, passes: u64) -> String {
    let register = Mutex::new(0u64);
    thread::scope(|scope| {
        for _ in 0..threads {
            scope.spawn(|| {
                for _ in 0..passes {
                    *register.lock().unwrap() += 1;
                }
            });
        }
    });
    let count = register.into_inner().unwrap();
    format!("register {count}\n")
}

fn answer(words: &[&str]) -> Option<Vec<u8>> {
    Some(match words {
        ["make", "majority", voters] => Coterie::majority(voters.parse().ok()?)?.write().into_bytes(),
        ["make", "wheel", rims] => Coterie::wheel(rims.parse().ok()?)?.write().into_bytes(),
        ["plan"] => Plan::of(&Coterie::read(&input()?)?)?.write().into_bytes(),
        ["check"] => {
            let text = input()?;
            let (_, plan, _) = planned(&text)?;
            let (p, q) = plan.load();
            format!("load {p}/{q} cycle {}\n", plan.cycle).into_bytes()
        }
        ["deal", count] => {
            let text = input()?;
            let (coterie, plan, _) = planned(&text)?;
            deal(&coterie, &plan, count.parse().ok()?).into_bytes()
        }
        ["world"] => {
            let text = input()?;
            let (coterie, plan, script) = planned(&text)?;
            world::run(&coterie, &plan, script)?.into_bytes()
        }
        ["run", clients, passes, turns] => {
            let text = input()?;
            let (coterie, plan, _) = planned(&text)?;
            let record = run::run(&coterie, &plan, clients.parse().ok()?, passes.parse().ok()?, turns.parse().ok()?);
            run::text_of(&record).into_bytes()
        }
        ["passes", clients, passes] => {
            let coterie = Coterie::majority(3)?;
            let plan = Plan::of(&coterie)?;
            let record = run::run(&coterie, &plan, clients.parse().ok()?, passes.parse().ok()?, u64::MAX);
            format!("register {}\n", record.register).into_bytes()
        }
        ["steps", rounds] => steps::run(rounds.parse().ok()?).into_bytes(),
        ["counter", threads, passes] => counter(threads.parse().ok()?, passes.parse().ok()?).into_bytes(),
        _ => return None,
    })
}

fn main() -> ExitCode {
    let words: Vec<String> = env::args().skip(1).collect();
    let words: Vec<&str> = words.iter().map(String::as_str).collect();
    match answer(&words) {
        Some(text) => match io::stdout().write_all(&text) {
            Ok(()) => ExitCode::SUCCESS,
            Err(_) => ExitCode::from(3),
        },
        None => ExitCode::from(1),
    }
}
